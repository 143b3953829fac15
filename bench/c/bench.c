/*
 * Measures calls of the library, and the same work with this file's own wyrand and Pcg64, which are inlined, and with
 * ChaCha20 of libsodium, if SODIUM is defined. Each line has the work, who does it, and the nanoseconds per item.
 * bench/c/run.sh runs it.
 */
#define _POSIX_C_SOURCE 199309L
#include <stdio.h>
#include <string.h>
#include <time.h>
#ifdef SODIUM
#include <sodium.h>
#endif

#include "nanorand.h"

enum { WORDS = 10000000, BYTES = 1024, FILLS = 40000, ITEMS = 1000, SHUFFLES = 4000, SIDES = 1000, PIPS = 6 };
enum { STREAM = 1 << 20, STREAMS = 40 };

__extension__ typedef unsigned __int128 wide;

static uint8_t bytes[BYTES], stream[STREAM];
static size_t items[ITEMS];
static volatile uint64_t sum;

static inline uint64_t word_of(uint64_t seed)
{
    const wide product = (wide)seed * (seed ^ UINT64_C(0xe7037ed1a0b428db));
    return (uint64_t)(product >> 64) ^ (uint64_t)product;
}

static inline uint64_t inline_word(uint64_t *seed)
{
    *seed += UINT64_C(0xa0761d6478bd642f);
    return word_of(*seed);
}

/* The high and the low half of the two constants of this library's Pcg64. */
#define FACTOR_OF_PCG64 ((wide)UINT64_C(0x8df8841dddc917fd) << 64 | UINT64_C(0x7ee84c8aa23bf857))
#define TERM_OF_PCG64 ((wide)UINT64_C(0x3b1dd060ff2fd1e0) << 64 | UINT64_C(0x9624b94fc0ada4df))

static inline uint64_t inline_pcg64_word(wide *seed)
{
    *seed = *seed * FACTOR_OF_PCG64 + TERM_OF_PCG64;
    return (uint64_t)(*seed >> 64) ^ (uint64_t)*seed;
}

/*
 * An unbiased number below `count`, by the method of Daniel Lemire (2019), from words of 64 or of 32 bits. A macro
 * defines it for both generators.
 */
#define BELOW(name, state, word)                                                                                       \
    static inline uint64_t name(state *seed, uint64_t count)                                                           \
    {                                                                                                                  \
        wide product = (wide)word(seed) * count;                                                                       \
        if ((uint64_t)product < count) {                                                                               \
            const uint64_t rejected = -count % count;                                                                  \
            while ((uint64_t)product < rejected) {                                                                     \
                product = (wide)word(seed) * count;                                                                    \
            }                                                                                                          \
        }                                                                                                              \
        return (uint64_t)(product >> 64);                                                                              \
    }                                                                                                                  \
    static inline uint32_t name##_by_32(state *seed, uint32_t count)                                                   \
    {                                                                                                                  \
        uint64_t product = (uint64_t)(uint32_t)word(seed) * count;                                                     \
        if ((uint32_t)product < count) {                                                                               \
            const uint32_t rejected = -count % count;                                                                  \
            while ((uint32_t)product < rejected) {                                                                     \
                product = (uint64_t)(uint32_t)word(seed) * count;                                                      \
            }                                                                                                          \
        }                                                                                                              \
        return (uint32_t)(product >> 32);                                                                              \
    }

BELOW(inline_below, uint64_t, inline_word)
BELOW(inline_pcg64_below, wide, inline_pcg64_word)

static void words_inline(void)
{
    uint64_t seed = 42, all = 0;
    for (int turn = 0; turn < WORDS; turn++) {
        all += inline_word(&seed);
    }
    sum = all;
}

/* The same, but the seed is loaded and stored each time, as in a call of the library. */
static void words_in_memory(void)
{
    volatile uint64_t seed = 42;
    uint64_t all = 0;
    for (int turn = 0; turn < WORDS; turn++) {
        const uint64_t next = seed + UINT64_C(0xa0761d6478bd642f);
        seed = next;
        all += word_of(next);
    }
    sum = all;
}

static void words_called(void)
{
    nanorand_wyrand rng = nanorand_wyrand_new_seed(42);
    uint64_t all = 0;
    for (int turn = 0; turn < WORDS; turn++) {
        all += nanorand_wyrand_u64(&rng);
    }
    sum = all;
}

static void ranges_inline(void)
{
    uint64_t seed = 42, all = 0;
    for (int turn = 0; turn < WORDS; turn++) {
        all += 1 + inline_below(&seed, SIDES);
    }
    sum = all;
}

static void ranges_called(void)
{
    nanorand_wyrand rng = nanorand_wyrand_new_seed(42);
    uint64_t all = 0, number = 0;
    for (int turn = 0; turn < WORDS; turn++) {
        all += nanorand_wyrand_range_u64(&rng, 1, SIDES, &number) + number;
    }
    sum = all;
}

/*
 * The works of both generators: a die from words of 32 and of 64 bits, and a float. Floats are counted, not added: a
 * call may change every register for floats, so a sum of floats would be kept in memory.
 */
#define WORKS(generator, state, start, below, word)                                                                    \
    static void generator##_die32_inline(void)                                                                         \
    {                                                                                                                  \
        state seed = 42;                                                                                               \
        uint64_t all = 0;                                                                                              \
        for (int turn = 0; turn < WORDS; turn++) {                                                                     \
            all += 1 + below##_by_32(&seed, PIPS);                                                                     \
        }                                                                                                              \
        sum = all;                                                                                                     \
    }                                                                                                                  \
    static void generator##_die32_called(void)                                                                         \
    {                                                                                                                  \
        nanorand_##generator rng = start;                                                                              \
        uint64_t all = 0;                                                                                              \
        uint32_t number = 0;                                                                                           \
        for (int turn = 0; turn < WORDS; turn++) {                                                                     \
            all += nanorand_##generator##_range_u32(&rng, 1, PIPS, &number) + number;                                  \
        }                                                                                                              \
        sum = all;                                                                                                     \
    }                                                                                                                  \
    static void generator##_die64_inline(void)                                                                         \
    {                                                                                                                  \
        state seed = 42;                                                                                               \
        uint64_t all = 0;                                                                                              \
        for (int turn = 0; turn < WORDS; turn++) {                                                                     \
            all += 1 + below(&seed, PIPS);                                                                             \
        }                                                                                                              \
        sum = all;                                                                                                     \
    }                                                                                                                  \
    static void generator##_die64_called(void)                                                                         \
    {                                                                                                                  \
        nanorand_##generator rng = start;                                                                              \
        uint64_t all = 0;                                                                                              \
        for (int turn = 0; turn < WORDS; turn++) {                                                                     \
            all += 1 + nanorand_##generator##_below(&rng, PIPS);                                                       \
        }                                                                                                              \
        sum = all;                                                                                                     \
    }                                                                                                                  \
    static void generator##_floats_inline(void)                                                                        \
    {                                                                                                                  \
        state seed = 42;                                                                                               \
        uint64_t all = 0;                                                                                              \
        for (int turn = 0; turn < WORDS; turn++) {                                                                     \
            all += (double)(word(&seed) >> 11) * 0x1p-53 < 0.75;                                                       \
        }                                                                                                              \
        sum = all;                                                                                                     \
    }                                                                                                                  \
    static void generator##_floats_called(void)                                                                        \
    {                                                                                                                  \
        nanorand_##generator rng = start;                                                                              \
        uint64_t all = 0;                                                                                              \
        for (int turn = 0; turn < WORDS; turn++) {                                                                     \
            all += nanorand_##generator##_f64(&rng) < 0.75;                                                            \
        }                                                                                                              \
        sum = all;                                                                                                     \
    }

WORKS(wyrand, uint64_t, nanorand_wyrand_new_seed(42), inline_below, inline_word)
WORKS(pcg64, wide, nanorand_pcg64_new_seed(42, 0), inline_pcg64_below, inline_pcg64_word)

static void fills_inline(void)
{
    uint64_t seed = 42;
    for (int turn = 0; turn < FILLS; turn++) {
        for (size_t place = 0; place < BYTES; place += 8) {
            const uint64_t word = inline_word(&seed);
            memcpy(bytes + place, &word, 8);
        }
        sum = bytes[turn % BYTES];
    }
}

static void fills_called(void)
{
    nanorand_wyrand rng = nanorand_wyrand_new_seed(42);
    for (int turn = 0; turn < FILLS; turn++) {
        nanorand_wyrand_fill_bytes(&rng, bytes, BYTES);
        sum = bytes[turn % BYTES];
    }
}

static void shuffles_inline(void)
{
    uint64_t seed = 42;
    for (int turn = 0; turn < SHUFFLES; turn++) {
        for (size_t place = 0; place < ITEMS; place++) {
            const size_t other = place + inline_below(&seed, ITEMS - place), item = items[place];
            items[place] = items[other];
            items[other] = item;
        }
    }
    sum = items[0];
}

static void shuffles_called(void)
{
    nanorand_wyrand rng = nanorand_wyrand_new_seed(42);
    uint64_t refused = 0;
    for (int turn = 0; turn < SHUFFLES; turn++) {
        refused += nanorand_wyrand_shuffle(&rng, items, ITEMS);
    }
    sum = items[0] + refused;
}

/* Items as large as two numbers, and of a size that the library has no code of its own for. */
#define SHUFFLES_OF(NAME, SIZE)                                                                        \
    static struct NAME {                                                                               \
        uint8_t bytes[SIZE];                                                                           \
    } NAME##s[ITEMS];                                                                                  \
    static void NAME##s_inline(void)                                                                   \
    {                                                                                                  \
        uint64_t seed = 42;                                                                            \
        for (int turn = 0; turn < SHUFFLES; turn++) {                                                  \
            for (size_t place = 0; place < ITEMS; place++) {                                           \
                const size_t other = place + inline_below(&seed, ITEMS - place);                       \
                const struct NAME item = NAME##s[place];                                               \
                NAME##s[place] = NAME##s[other];                                                       \
                NAME##s[other] = item;                                                                 \
            }                                                                                          \
        }                                                                                              \
        sum = NAME##s[0].bytes[0];                                                                     \
    }                                                                                                  \
    static void NAME##s_called(void)                                                                   \
    {                                                                                                  \
        nanorand_wyrand rng = nanorand_wyrand_new_seed(42);                                            \
        uint64_t refused = 0;                                                                          \
        for (int turn = 0; turn < SHUFFLES; turn++) {                                                  \
            refused += nanorand_wyrand_shuffle_items(&rng, NAME##s, ITEMS, sizeof NAME##s[0]);         \
        }                                                                                              \
        sum = NAME##s[0].bytes[0] + refused;                                                           \
    }

SHUFFLES_OF(pair, 16)
SHUFFLES_OF(triple, 24)

#ifdef SODIUM
static void streams_of_sodium(void)
{
    static const uint8_t key[crypto_stream_chacha20_KEYBYTES], nonce[crypto_stream_chacha20_NONCEBYTES];
    for (int turn = 0; turn < STREAMS; turn++) {
        crypto_stream_chacha20(stream, STREAM, nonce, key);
        sum = stream[turn];
    }
}
#endif

static void streams_called(void)
{
    static const uint8_t key[32], nonce[8];
    nanorand_keystream rng = nanorand_keystream_new_key(key, nonce);
    for (int turn = 0; turn < STREAMS; turn++) {
        nanorand_keystream_fill_bytes(&rng, stream, STREAM);
        sum = stream[turn];
    }
}

static double now(void)
{
    struct timespec time;
    clock_gettime(CLOCK_MONOTONIC, &time);
    return (double)time.tv_sec * 1e9 + (double)time.tv_nsec;
}

static void measure(const char *work, const char *side, void (*run)(void), double count)
{
    const double start = now();
    run();
    printf("%s\t%s\t%.4f\n", work, side, (now() - start) / count);
}

int main(void)
{
    measure("u64", "inline", words_inline, WORDS);
    measure("u64", "in memory", words_in_memory, WORDS);
    measure("u64", "called", words_called, WORDS);
    measure("range_u64", "inline", ranges_inline, WORDS);
    measure("range_u64", "called", ranges_called, WORDS);
    measure("die, range_u32", "inline", wyrand_die32_inline, WORDS);
    measure("die, range_u32", "called", wyrand_die32_called, WORDS);
    measure("die, below", "inline", wyrand_die64_inline, WORDS);
    measure("die, below", "called", wyrand_die64_called, WORDS);
    measure("f64", "inline", wyrand_floats_inline, WORDS);
    measure("f64", "called", wyrand_floats_called, WORDS);
    measure("pcg64 die, range_u32", "inline", pcg64_die32_inline, WORDS);
    measure("pcg64 die, range_u32", "called", pcg64_die32_called, WORDS);
    measure("pcg64 die, below", "inline", pcg64_die64_inline, WORDS);
    measure("pcg64 die, below", "called", pcg64_die64_called, WORDS);
    measure("pcg64 f64", "inline", pcg64_floats_inline, WORDS);
    measure("pcg64 f64", "called", pcg64_floats_called, WORDS);
    measure("fill_bytes, a byte", "inline", fills_inline, (double)FILLS * BYTES);
    measure("fill_bytes, a byte", "called", fills_called, (double)FILLS * BYTES);
    measure("shuffle, an item", "inline", shuffles_inline, (double)SHUFFLES * ITEMS);
    measure("shuffle, an item", "called", shuffles_called, (double)SHUFFLES * ITEMS);
    measure("items of 16 bytes", "inline", pairs_inline, (double)SHUFFLES * ITEMS);
    measure("items of 16 bytes", "called", pairs_called, (double)SHUFFLES * ITEMS);
    measure("items of 24 bytes", "inline", triples_inline, (double)SHUFFLES * ITEMS);
    measure("items of 24 bytes", "called", triples_called, (double)SHUFFLES * ITEMS);
#ifdef SODIUM
    if (sodium_init() < 0) {
        return 1;
    }
    measure("keystream, a byte", "libsodium", streams_of_sodium, (double)STREAMS * STREAM);
#endif
    measure("keystream, a byte", "called", streams_called, (double)STREAMS * STREAM);
    return 0;
}
