/*
 * Checks the memory layout of the structs of crates/nanorand_c, with the functions that take or return
 * them.
 *
 * Each function has known answers in which the two 64-bit halves of a number differ, and so do the bytes
 * of a key, a nonce and a block. Guards on both sides of a struct reveal writes beside it.
 */
#include <stdbool.h>
#include <stdio.h>
#include <string.h>

#include "nanorand.h"

/* Does not compile if the condition is false: the array would have the length -1. */
#define HOLDS(name, condition) typedef char holds_##name[(condition) ? 1 : -1]

HOLDS(pcg64_size, sizeof(nanorand_pcg64) == 16);
HOLDS(pcg64_low, offsetof(nanorand_pcg64, low) == 0);
HOLDS(pcg64_high, offsetof(nanorand_pcg64, high) == 8);
HOLDS(wyrand_size, sizeof(nanorand_wyrand) == 8);
HOLDS(wyrand_seed, offsetof(nanorand_wyrand, seed) == 0);
HOLDS(chacha_size, sizeof(nanorand_chacha) == 48);
HOLDS(chacha_key, offsetof(nanorand_chacha, key) == 0);
HOLDS(chacha_nonce, offsetof(nanorand_chacha, nonce) == 32);
HOLDS(chacha_counter, offsetof(nanorand_chacha, counter) == 40);
HOLDS(stream_size, sizeof(nanorand_stream) == 120);
HOLDS(stream_chacha, offsetof(nanorand_stream, chacha) == 0);
HOLDS(stream_block, offsetof(nanorand_stream, block) == 48);
HOLDS(stream_buffered, offsetof(nanorand_stream, buffered) == 112);
HOLDS(keystream_size, sizeof(nanorand_keystream) == 568);
HOLDS(keystream_chacha, offsetof(nanorand_keystream, chacha) == 0);
HOLDS(keystream_group, offsetof(nanorand_keystream, group) == 48);
HOLDS(keystream_buffered, offsetof(nanorand_keystream, buffered) == 560);
HOLDS(size_t_size, sizeof(size_t) == 8);

static const uint64_t GUARD = 0x5a5a5a5a5a5a5a5a;

static unsigned passed = 0;
static unsigned failed = 0;

static void check(const char *name, bool holds)
{
    if (holds) {
        passed++;
    } else {
        failed++;
        printf("failed: %s\n", name);
    }
}

/* Four 64-bit words of memory: the seed in the middle, low word first, between two guards. */
struct guarded_wide {
    uint64_t words[4];
};

static struct guarded_wide wide_of(uint64_t low, uint64_t high)
{
    struct guarded_wide memory = {{GUARD, low, high, GUARD}};
    return memory;
}

static nanorand_pcg64 *seed_in(struct guarded_wide *memory)
{
    return (nanorand_pcg64 *)(void *)&memory->words[1];
}

static bool wide_is(const struct guarded_wide *memory, uint64_t low, uint64_t high)
{
    return memory->words[0] == GUARD && memory->words[1] == low && memory->words[2] == high
        && memory->words[3] == GUARD;
}

/* The same for a seed of one word. */
struct guarded_word {
    uint64_t words[3];
};

static struct guarded_word word_of(uint64_t seed)
{
    struct guarded_word memory = {{GUARD, seed, GUARD}};
    return memory;
}

static nanorand_wyrand *rng_in(struct guarded_word *memory)
{
    return (nanorand_wyrand *)(void *)&memory->words[1];
}

static bool word_is(const struct guarded_word *memory, uint64_t seed)
{
    return memory->words[0] == GUARD && memory->words[1] == seed && memory->words[2] == GUARD;
}

/* Whether the items 0, 1, .., 9 are in this order. */
static bool is_order(const size_t *items, const char *digits)
{
    for (size_t place = 0; place < 10; place++) {
        if (items[place] != (size_t)(digits[place] - '0')) {
            return false;
        }
    }
    return true;
}

static void check_pcg64_words(void)
{
    const uint8_t bytes[8] = {0x3f, 0x75, 0x82, 0x3f, 0x2f, 0x69, 0x39, 0xad};
    struct guarded_wide memory = wide_of(0, 0);
    uint64_t word = nanorand_pcg64_u64(seed_in(&memory));
    check("pcg64_u64: the first word of the seed 0", memcmp(&word, bytes, 8) == 0);
    check("pcg64_u64: the seed after it", wide_is(&memory, 0x9624b94fc0ada4df, 0x3b1dd060ff2fd1e0));

    memory = wide_of(0, 1ULL << 63);
    check("pcg64_u64: the word of 2^127", nanorand_pcg64_u64(seed_in(&memory)) == 0x2d39692f3f82753f);
    check("pcg64_u64: the seed after it", wide_is(&memory, 0x9624b94fc0ada4df, 0xbb1dd060ff2fd1e0));

    memory = wide_of(5, 1);
    check("pcg64_u64: the word of 2^64 + 5", nanorand_pcg64_u64(seed_in(&memory)) == 8020499186917063865);
    check("pcg64_u64: the next word", nanorand_pcg64_u64(seed_in(&memory)) == 14569731863086685407ULL);
    check("pcg64_u64: the seed after both", wide_is(&memory, 0x5322176329db187d, 0x9910028ca223c4a2));
}

static void check_pcg64_fills(void)
{
    const uint8_t bytes[16] = {0xb9, 0x3c, 0x80, 0x1d, 0x84, 0x89, 0x4e, 0x6f,
                               0xdf, 0xdc, 0xf8, 0x8b, 0xef, 0x15, 0x32, 0xca};
    uint8_t filled[17];
    memset(filled, 0xee, sizeof filled);
    struct guarded_wide memory = wide_of(5, 1);
    nanorand_pcg64_fill_bytes(seed_in(&memory), filled, 16);
    check("pcg64_fill_bytes: the bytes", memcmp(filled, bytes, 16) == 0);
    check("pcg64_fill_bytes: no byte more", filled[16] == 0xee);
    check("pcg64_fill_bytes: the seed", wide_is(&memory, 0x5322176329db187d, 0x9910028ca223c4a2));
}

static void check_pcg64_jumps(void)
{
    struct guarded_wide memory = wide_of(5, 0);
    struct guarded_wide draws = wide_of(0, 1ULL << 61);
    nanorand_pcg64_jump(seed_in(&memory), seed_in(&draws));
    check("pcg64_jump: 2^125 draws from 5", wide_is(&memory, 5, 1ULL << 63));
    check("pcg64_jump: the draws stay", wide_is(&draws, 0, 1ULL << 61));

    memory = wide_of(5, 0);
    draws = wide_of(0, 1ULL << 62);
    nanorand_pcg64_jump(seed_in(&memory), seed_in(&draws));
    check("pcg64_jump: 2^126 draws from 5", wide_is(&memory, 5, 0));

    memory = wide_of(42, 0);
    draws = wide_of(1000, 0);
    nanorand_pcg64_jump(seed_in(&memory), seed_in(&draws));
    check("pcg64_jump: 1000 draws from 42", wide_is(&memory, 0xd2717c7cd985cbca, 0xd39cf3ae66b76eb1));

    memory = wide_of(42, 0);
    check("pcg64_part: part 4 of 250 draws", nanorand_pcg64_part(seed_in(&memory), 4, 250) == 0);
    check("pcg64_part: the seed", wide_is(&memory, 0xd2717c7cd985cbca, 0xd39cf3ae66b76eb1));
}

static void check_pcg64_distances(void)
{
    struct guarded_wide from = wide_of(42, 0);
    struct guarded_wide to = wide_of(0xd2717c7cd985cbca, 0xd39cf3ae66b76eb1);
    struct guarded_wide draws = wide_of(7, 7);
    check("pcg64_distance: 1000 draws", nanorand_pcg64_distance(seed_in(&from), seed_in(&to), seed_in(&draws)) == 0);
    check("pcg64_distance: the number", wide_is(&draws, 1000, 0));
    check("pcg64_distance: back", nanorand_pcg64_distance(seed_in(&to), seed_in(&from), seed_in(&draws)) == 0);
    check("pcg64_distance: 2^126 - 1000", wide_is(&draws, 0xfffffffffffffc18, 0x3fffffffffffffff));
    check("pcg64_distance: the first state stays", wide_is(&from, 42, 0));
    check("pcg64_distance: the second state stays", wide_is(&to, 0xd2717c7cd985cbca, 0xd39cf3ae66b76eb1));
    check("pcg64_distance: to itself", nanorand_pcg64_distance(seed_in(&to), seed_in(&to), seed_in(&draws)) == 0);
    check("pcg64_distance: 0", wide_is(&draws, 0, 0));

    from = wide_of(5, 0);
    to = wide_of(5, 1ULL << 63);
    check("pcg64_distance: half", nanorand_pcg64_distance(seed_in(&from), seed_in(&to), seed_in(&draws)) == 0);
    check("pcg64_distance: 2^125", wide_is(&draws, 0, 1ULL << 61));

    to = wide_of(6, 0);
    check("pcg64_distance: none", nanorand_pcg64_distance(seed_in(&from), seed_in(&to), seed_in(&draws)) == 4);
    check("pcg64_distance: nothing is written", wide_is(&draws, 0, 1ULL << 61));
}

static void check_pcg64_ranges(void)
{
    uint64_t number = 7;
    struct guarded_wide memory = wide_of(5, 1);
    check("pcg64_range_u64: none", nanorand_pcg64_range_u64(seed_in(&memory), 5, 4, &number) == 1);
    check("pcg64_range_u64: nothing is drawn", number == 7 && wide_is(&memory, 5, 1));
    check("pcg64_range_u64: one", nanorand_pcg64_range_u64(seed_in(&memory), 1, 1000, &number) == 0);
    check("pcg64_range_u64: the number", number == 435);
    check("pcg64_range_u64: the seed", wide_is(&memory, 0x10ae3804ebd97e92, 0x7fe0b180f659422b));

    size_t place = 7;
    memory = wide_of(5, 1);
    check("pcg64_range_usize: one", nanorand_pcg64_range_usize(seed_in(&memory), 1, 1000, &place) == 0);
    check("pcg64_range_usize: the number", place == 435);
    check("pcg64_range_usize: the seed", wide_is(&memory, 0x10ae3804ebd97e92, 0x7fe0b180f659422b));
}

static void check_pcg64_shuffles(void)
{
    size_t items[10] = {0, 1, 2, 3, 4, 5, 6, 7, 8, 9};
    struct guarded_wide memory = wide_of(5, 1);
    check("pcg64_shuffle", nanorand_pcg64_shuffle(seed_in(&memory), items, 10) == 0);
    check("pcg64_shuffle: the order", is_order(items, "4876321095"));
    check("pcg64_shuffle: the seed", wide_is(&memory, 0x71f2ce35697f3d5d, 0x51ee3641c3753f5f));

    size_t others[10] = {0, 1, 2, 3, 4, 5, 6, 7, 8, 9};
    memory = wide_of(5, 1);
    check("pcg64_shuffle_full", nanorand_pcg64_shuffle_full(seed_in(&memory), others, 10) == 0);
    check("pcg64_shuffle_full: the order", is_order(others, "4910356287"));
    check("pcg64_shuffle_full: the seed", wide_is(&memory, 0x71f2ce35697f3d5d, 0x51ee3641c3753f5f));
}

static void check_wyrand_words(void)
{
    const uint8_t bytes[8] = {0xda, 0x28, 0xb4, 0xa0, 0xd1, 0x7e, 0x03, 0xe7};
    nanorand_wyrand made = nanorand_wyrand_new_seed(0x5f89e29b87429bd2);
    check("wyrand_new_seed: the seed", made.seed == 0x5f89e29b87429bd2);

    struct guarded_word memory = word_of(0x5f89e29b87429bd2);
    uint64_t word = nanorand_wyrand_u64(rng_in(&memory));
    check("wyrand_u64: the first word", memcmp(&word, bytes, 8) == 0);
    check("wyrand_u64: the seed after it", word_is(&memory, 1));

    uint8_t filled[4] = {0xee, 0xee, 0xee, 0xee};
    memory = word_of(0x5f89e29b87429bd2);
    nanorand_wyrand_fill_bytes(rng_in(&memory), filled, 3);
    check("wyrand_fill_bytes: the bytes", memcmp(filled, bytes, 3) == 0 && filled[3] == 0xee);
    check("wyrand_fill_bytes: the seed", word_is(&memory, 1));

    memory = word_of(42);
    nanorand_wyrand_jump(rng_in(&memory), 1000);
    check("wyrand_jump: 1000 draws from 42", word_is(&memory, 0xcd62d077a3cf57c2));

    memory = word_of(42);
    check("wyrand_part: part 4 of 250 draws", nanorand_wyrand_part(rng_in(&memory), 4, 250) == 0);
    check("wyrand_part: the seed", word_is(&memory, 0xcd62d077a3cf57c2));

    struct guarded_word from = word_of(42);
    check("wyrand_distance: 1000 draws", nanorand_wyrand_distance(rng_in(&from), rng_in(&memory)) == 1000);
    check("wyrand_distance: back", nanorand_wyrand_distance(rng_in(&memory), rng_in(&from)) == UINT64_MAX - 999);
    check("wyrand_distance: to itself", nanorand_wyrand_distance(rng_in(&from), rng_in(&from)) == 0);
    check("wyrand_distance: the states stay", word_is(&from, 42) && word_is(&memory, 0xcd62d077a3cf57c2));
}

static void check_wyrand_ranges(void)
{
    uint64_t number = 7;
    struct guarded_word memory = word_of(42);
    check("wyrand_range_u64: none", nanorand_wyrand_range_u64(rng_in(&memory), 5, 4, &number) == 1);
    check("wyrand_range_u64: nothing is drawn", number == 7 && word_is(&memory, 42));
    check("wyrand_range_u64: one", nanorand_wyrand_range_u64(rng_in(&memory), 1, 100, &number) == 0);
    check("wyrand_range_u64: the number", number == 69);
    check("wyrand_range_u64: the seed", word_is(&memory, 0xa0761d6478bd6459));

    size_t place = 7;
    memory = word_of(42);
    check("wyrand_range_usize: one", nanorand_wyrand_range_usize(rng_in(&memory), 1, 100, &place) == 0);
    check("wyrand_range_usize: the number", place == 69);
    check("wyrand_range_usize: the seed", word_is(&memory, 0xa0761d6478bd6459));
}

static void check_wyrand_shuffles(void)
{
    size_t items[10] = {0, 1, 2, 3, 4, 5, 6, 7, 8, 9};
    struct guarded_word memory = word_of(42);
    check("wyrand_shuffle", nanorand_wyrand_shuffle(rng_in(&memory), items, 10) == 0);
    check("wyrand_shuffle: the order", is_order(items, "6981034752"));
    check("wyrand_shuffle: the seed", word_is(&memory, 0x449d25ecb765ea00));

    size_t others[10] = {0, 1, 2, 3, 4, 5, 6, 7, 8, 9};
    memory = word_of(42);
    check("wyrand_shuffle_full", nanorand_wyrand_shuffle_full(rng_in(&memory), others, 10) == 0);
    check("wyrand_shuffle_full: the order", is_order(others, "2904537681"));
    check("wyrand_shuffle_full: the seed", word_is(&memory, 0x449d25ecb765ea00));
}

/* Fifteen 64-bit words between two guards: a stream, or the chacha at its beginning. */
struct guarded_stream {
    uint64_t before;
    nanorand_stream stream;
    uint64_t after;
};

/* A stream whose key is 1, 2, .., whose nonce is 101, 102, .., and whose block has only bytes 0xbb. */
static struct guarded_stream stream_of(uint64_t counter, uint64_t buffered)
{
    struct guarded_stream memory;
    memory.before = memory.after = GUARD;
    for (uint8_t place = 0; place < 32; place++) {
        memory.stream.chacha.key[place] = (uint8_t)(place + 1);
    }
    for (uint8_t place = 0; place < 8; place++) {
        memory.stream.chacha.nonce[place] = (uint8_t)(place + 101);
    }
    memory.stream.chacha.counter = counter;
    memset(memory.stream.block, 0xbb, 64);
    memory.stream.buffered = buffered;
    return memory;
}

/* Whether key and nonce are unchanged, and the counter and the number of buffered bytes are these. */
static bool stream_is(const struct guarded_stream *memory, uint64_t counter, uint64_t buffered)
{
    const struct guarded_stream other = stream_of(counter, buffered);
    const nanorand_chacha *chacha = &memory->stream.chacha;
    return memory->before == GUARD && memory->after == GUARD && chacha->counter == counter
        && memory->stream.buffered == buffered
        && memcmp(chacha->key, other.stream.chacha.key, 32) == 0
        && memcmp(chacha->nonce, other.stream.chacha.nonce, 8) == 0;
}

static bool block_is(const struct guarded_stream *memory, uint8_t byte)
{
    for (int place = 0; place < 64; place++) {
        if (memory->stream.block[place] != byte) {
            return false;
        }
    }
    return true;
}

static void check_chacha(void)
{
    const uint8_t bytes[8] = {0x39, 0xec, 0xee, 0x38, 0xf2, 0x9b, 0xa6, 0x68};
    const uint64_t counter = 0x0102030405060708;
    struct guarded_stream memory = stream_of(counter, 0xdddd);
    uint8_t out[66];
    memset(out, 0xee, sizeof out);
    nanorand_chacha20_block(&memory.stream.chacha, out + 1);
    check("chacha20_block: the bytes", memcmp(out + 1, bytes, 8) == 0);
    check("chacha20_block: no byte more", out[0] == 0xee && out[65] == 0xee);
    check("chacha20_block: the state", stream_is(&memory, counter + 1, 0xdddd) && block_is(&memory, 0xbb));

    memory = stream_of(counter, 0xdddd);
    uint64_t word = nanorand_chacha20_u64(&memory.stream.chacha);
    check("chacha20_u64: the word", memcmp(&word, bytes, 8) == 0);
    check("chacha20_u64: the state", stream_is(&memory, counter + 1, 0xdddd) && block_is(&memory, 0xbb));

    memory = stream_of(counter, 0xdddd);
    check("chacha20_part: part 4 of 250 draws", nanorand_chacha20_part(&memory.stream.chacha, 4, 250) == 0);
    check("chacha20_part: the state", stream_is(&memory, counter + 1000, 0xdddd) && block_is(&memory, 0xbb));

    size_t items[10] = {0, 1, 2, 3, 4, 5, 6, 7, 8, 9};
    memory = stream_of(UINT64_MAX, 0xdddd);
    check("chacha20_shuffle", nanorand_chacha20_shuffle(&memory.stream.chacha, items, 10) == 0);
    check("chacha20_shuffle: the order", is_order(items, "3964215708"));
    check("chacha20_shuffle: the state", stream_is(&memory, 9, 0xdddd) && block_is(&memory, 0xbb));
}

static void check_stream(void)
{
    const uint8_t bytes[8] = {0x39, 0xec, 0xee, 0x38, 0xf2, 0x9b, 0xa6, 0x68};
    const uint64_t counter = 0x0102030405060708;
    struct guarded_stream memory = stream_of(counter, 0);
    uint64_t word = nanorand_stream_u64(&memory.stream);
    check("stream_u64: the word", memcmp(&word, bytes, 8) == 0);
    check("stream_u64: the state", stream_is(&memory, counter + 1, 56));

    uint8_t next[59];
    memset(next, 0xee, sizeof next);
    nanorand_stream_fill_bytes(&memory.stream, next + 1, 57);
    check("stream_fill_bytes: no byte more", next[0] == 0xee && next[58] == 0xee);
    check("stream_fill_bytes: the state", stream_is(&memory, counter + 2, 63));

    memory = stream_of(counter, 8);
    check("stream_u64: the buffered word", nanorand_stream_u64(&memory.stream) == 0xbbbbbbbbbbbbbbbb);
    check("stream_u64: nothing is buffered", stream_is(&memory, counter, 0));

    memory = stream_of(counter, UINT64_MAX);
    check("stream_u64: 63 bytes at most", nanorand_stream_u64(&memory.stream) == 0xbbbbbbbbbbbbbbbb);
    check("stream_u64: 55 are left", stream_is(&memory, counter, 55));
}

/* Each constructor returns its struct by value. Key, nonce and halves have different bytes. */
static void check_constructors(void)
{
    const struct guarded_stream wanted = stream_of(0, 0);
    const uint8_t *key = wanted.stream.chacha.key, *nonce = wanted.stream.chacha.nonce;

    const nanorand_pcg64 seed = nanorand_pcg64_new_seed(0x0102030405060708, 0x1112131415161718);
    check("pcg64_new_seed: the low half", seed.low == 0x0102030405060708);
    check("pcg64_new_seed: the high half", seed.high == 0x1112131415161718);

    const nanorand_chacha chacha = nanorand_chacha_new_key(key, nonce);
    check("chacha_new_key", memcmp(&chacha, &wanted.stream.chacha, sizeof chacha) == 0);

    struct guarded_stream memory = stream_of(7, 7);
    memory.stream = nanorand_stream_new_key(key, nonce);
    check("stream_new_key", stream_is(&memory, 0, 0));

    struct { uint64_t before; nanorand_keystream stream; uint64_t after; } group;
    memset(&group, 0x5a, sizeof group);
    group.stream = nanorand_keystream_new_key(key, nonce);
    check("keystream_new_key: the cipher", memcmp(&group.stream.chacha, &chacha, sizeof chacha) == 0);
    check("keystream_new_key: nothing buffered", group.stream.buffered == 0);
    check("keystream_new_key: no byte more", group.before == GUARD && group.after == GUARD);
    check("both streams", nanorand_keystream_u64(&group.stream) == nanorand_stream_u64(&memory.stream));
}

int main(void)
{
    check_constructors();
    check_pcg64_words();
    check_pcg64_fills();
    check_pcg64_jumps();
    check_pcg64_distances();
    check_pcg64_ranges();
    check_pcg64_shuffles();
    check_wyrand_words();
    check_wyrand_ranges();
    check_wyrand_shuffles();
    check_chacha();
    check_stream();
    printf("%u passed, %u failed\n", passed, failed);
    return failed == 0 ? 0 : 1;
}
