/*
 * Edge cases of the interface, for every generator: null pointers with length 0, empty and full ranges,
 * samples that are too large, odd addresses, large lengths, parts of a stream, each status that can be
 * reached, and what stays after an error.
 *
 * Not tested: NANORAND_EXHAUSTED and NANORAND_LOTS_EXHAUSTED. No state is known that leads to them.
 */
#include <stdio.h>
#include <stdlib.h>
#include <string.h>

#include "check.h"

/* Does not compile if the condition is false: the array would have the length -1. */
#define HOLDS(name, condition) typedef char holds_##name[(condition) ? 1 : -1]

HOLDS(version, NANORAND_VERSION >= 10000);
HOLDS(ok, NANORAND_OK == 0);
HOLDS(empty, NANORAND_EMPTY == 1);
HOLDS(exhausted, NANORAND_EXHAUSTED == 2);
HOLDS(past_period, NANORAND_PAST_PERIOD == 3);
HOLDS(other_cycle, NANORAND_OTHER_CYCLE == 4);
HOLDS(lots_ok, NANORAND_LOTS_OK == 0);
HOLDS(lots_bad_seed, NANORAND_LOTS_BAD_SEED == 2);
HOLDS(lots_too_few, NANORAND_LOTS_TOO_FEW == 3);
HOLDS(lots_empty_line, NANORAND_LOTS_EMPTY_LINE == 4);
HOLDS(lots_exhausted, NANORAND_LOTS_EXHAUSTED == 8);

#ifdef FEW /* for runs that are slow or repeated, as the library alone computes these */
enum { LARGE = (1 << 14) + 1, ITEMS = (1 << 10) + 3, GREATEST = (1 << 17) + 1 };
#else
enum { LARGE = (1 << 22) + 1, ITEMS = (1 << 18) + 3, GREATEST = (1 << 21) + 1 };
#endif
enum { OFFSETS = 16, SHORT = 200 };

/* Sizes around powers of 2 and of 10, some of them multiples of 64. */
static const size_t great_sizes[] = {
    4095,   4096,    4097,    9999,    10000,   10001,   32767,   32768,   32769,
    65472,  65535,   65536,   65537,   65600,   99999,   100000,  100001,  100032,
    131071, 131072,  131073,  200001,  262143,  262145,  524287,  524288,  524289,
    999999, 1000000, 1000001, 1048575, 1048576, 1048577, 2097151, 2097152, 2097153,
    SIZE_MAX,
};

/* Whether the items have each number below `count` once. */
static int is_permutation(const size_t *items, size_t count)
{
    unsigned char *seen = (unsigned char *)calloc(count + 1, 1);
    int holds = seen != NULL;
    for (size_t place = 0; holds && place < count; place++) {
        holds = items[place] < count && !seen[items[place]];
        if (holds) {
            seen[items[place]] = 1;
        }
    }
    free(seen);
    return holds;
}

static int all_are(const size_t *items, size_t length, size_t wanted)
{
    for (size_t place = 0; place < length; place++) {
        if (items[place] != wanted) {
            return 0;
        }
    }
    return 1;
}

/* Whether the places are distinct numbers below the count. */
static int are_below(const size_t *places, size_t length, size_t count)
{
    for (size_t place = 0; place < length; place++) {
        for (size_t other = 0; other < place; other++) {
            if (places[place] == places[other]) {
                return 0;
            }
        }
        if (places[place] >= count) {
            return 0;
        }
    }
    return 1;
}

/* The tests of one generator. S is the type of its state. */
#define TESTS(G, S)                                                                                \
    static void null_pointers_##G(S start)                                                         \
    {                                                                                              \
        S state = start;                                                                           \
        nanorand_##G##_fill_bytes(&state, NULL, 0);                                                \
        check(#G, "no bytes", memcmp(&state, &start, sizeof state) == 0);                          \
        check(#G, "no items", nanorand_##G##_shuffle(&state, NULL, 0) == NANORAND_OK);             \
        check(#G, "no items of all", nanorand_##G##_shuffle_full(&state, NULL, 0) == NANORAND_OK); \
        check(#G, "no places", nanorand_##G##_sample(&state, 5, NULL, 0) == NANORAND_OK);          \
        check(#G, "none of none", nanorand_##G##_sample(&state, 0, NULL, 0) == NANORAND_OK);       \
        check(#G, "no table", nanorand_##G##_extend_sample(&state, 5, NULL, 0, 0, NULL, 0) == 0);  \
        check(#G, "nothing is drawn", memcmp(&state, &start, sizeof state) == 0);                  \
    }                                                                                              \
                                                                                                   \
    static void empty_ranges_##G(S start)                                                          \
    {                                                                                              \
        S state = start;                                                                           \
        uint32_t narrow = 7;                                                                       \
        uint64_t wide = 7;                                                                         \
        int64_t sign = 7;                                                                          \
        size_t place = 7;                                                                          \
        size_t places[3] = {7, 7, 7};                                                              \
        size_t table[9] = {7, 7, 7, 7, 7, 7, 7, 7, 7};                                             \
        check(#G, "u32", nanorand_##G##_range_u32(&state, 5, 4, &narrow) == NANORAND_EMPTY);       \
        check(#G, "u64", nanorand_##G##_range_u64(&state, UINT64_MAX, 0, &wide) == NANORAND_EMPTY);\
        check(#G, "i64", nanorand_##G##_range_i64(&state, 1, -1, &sign) == NANORAND_EMPTY);        \
        check(#G, "usize", nanorand_##G##_range_usize(&state, 1, 0, &place) == NANORAND_EMPTY);    \
        check(#G, "sample", nanorand_##G##_sample(&state, 2, places, 3) == NANORAND_EMPTY);        \
        check(#G, "more places",                                                                   \
              nanorand_##G##_extend_sample(&state, 2, places, 3, 0, table, 9) == NANORAND_EMPTY);  \
        check(#G, "no numbers",                                                                    \
              nanorand_##G##_extend_sample(&state, 0, places, 3, 3, table, 9) == NANORAND_EMPTY);  \
        check(#G, "fewer than stand",                                                              \
              nanorand_##G##_extend_sample(&state, 9, places, 3, 4, table, 9) == NANORAND_EMPTY);  \
        check(#G, "the greatest filled",                                                           \
              nanorand_##G##_extend_sample(&state, 9, places, 3, SIZE_MAX, table, 9)               \
              == NANORAND_EMPTY);                                                                  \
        check(#G, "the table stays", all_are(table, 9, 7));                                        \
        check(#G, "numbers stay", narrow == 7 && wide == 7 && sign == 7 && place == 7);            \
        check(#G, "places stay", all_are(places, 3, 7));                                           \
        check(#G, "state stays", memcmp(&state, &start, sizeof state) == 0);                       \
    }                                                                                              \
                                                                                                   \
    static void ranges_##G(S start)                                                                \
    {                                                                                              \
        S state = start;                                                                           \
        S other = start;                                                                           \
        uint32_t narrow = 7;                                                                       \
        uint64_t wide = 7;                                                                         \
        int64_t sign = 7;                                                                          \
        uint8_t drawn;                                                                             \
        uint64_t word = nanorand_##G##_u64(&other);                                                \
        check(#G, "all of u64", nanorand_##G##_range_u64(&state, 0, UINT64_MAX, &wide) == 0);      \
        check(#G, "it is the word", wide == word);                                                 \
        state = start;                                                                             \
        drawn = nanorand_##G##_range_i64(&state, INT64_MIN, INT64_MAX, &sign);                     \
        check(#G, "all of i64", drawn == NANORAND_OK);                                             \
        check(#G, "from the least on", (uint64_t)sign == word - ((uint64_t)1 << 63));              \
        check(#G, "one word is drawn", memcmp(&state, &other, sizeof state) == 0);                 \
        check(#G, "one of u32", nanorand_##G##_range_u32(&state, 9, 9, &narrow) == 0);             \
        check(#G, "it is the one", narrow == 9);                                                   \
        check(#G, "a word is drawn", memcmp(&state, &other, sizeof state) != 0);                   \
        for (int count = 0; count < 1000; count++) {                                               \
            nanorand_status status = nanorand_##G##_range_i64(&state, -3, 3, &sign);               \
            if (status != NANORAND_OK || sign < -3 || sign > 3) {                                  \
                check(#G, "within -3..3", 0);                                                      \
            }                                                                                      \
        }                                                                                          \
    }                                                                                              \
                                                                                                   \
    static void addresses_##G(S start)                                                             \
    {                                                                                              \
        static uint8_t wanted[SHORT], bytes[SHORT + OFFSETS + 1];                                  \
        for (size_t length = 0; length <= SHORT; length += length < 70 ? 1 : 13) {                 \
            S state = start;                                                                       \
            nanorand_##G##_fill_bytes(&state, wanted, length);                                     \
            for (size_t offset = 1; offset < OFFSETS; offset++) {                                  \
                S other = start;                                                                   \
                memset(bytes, 0xee, sizeof bytes);                                                 \
                nanorand_##G##_fill_bytes(&other, bytes + offset, length);                         \
                if (memcmp(bytes + offset, wanted, length) != 0 || bytes[offset - 1] != 0xee       \
                    || bytes[offset + length] != 0xee || memcmp(&state, &other, sizeof state)) {   \
                    check(#G, "any address", 0);                                                   \
                }                                                                                  \
            }                                                                                      \
        }                                                                                          \
        check(#G, "every address", 1);                                                             \
    }                                                                                              \
                                                                                                   \
    /* One fill returns the same bytes as fills of 64 bytes. */                                    \
    static void lengths_##G(S start)                                                               \
    {                                                                                              \
        static uint8_t memory[LARGE + 2], pieces[LARGE];                                           \
        const size_t rest = LARGE % 64;                                                            \
        uint8_t *whole = memory + 1; /* an odd address */                                          \
        S state = start;                                                                           \
        S other = start;                                                                           \
        whole[LARGE] = 0xee;                                                                       \
        nanorand_##G##_fill_bytes(&state, whole, LARGE);                                           \
        for (size_t place = 0; place < LARGE - rest; place += 64) {                                \
            nanorand_##G##_fill_bytes(&other, pieces + place, 64);                                 \
        }                                                                                          \
        nanorand_##G##_fill_bytes(&other, pieces + LARGE - rest, rest);                            \
        check(#G, "a large fill", memcmp(whole, pieces, LARGE) == 0 && whole[LARGE] == 0xee);      \
    }                                                                                              \
                                                                                                   \
    /* A large fill returns the same bytes as fills of 64 bytes, and leaves the same state. */     \
    static void sizes_##G(S start)                                                                 \
    {                                                                                              \
        static uint8_t whole[GREATEST + 1], pieces[GREATEST];                                      \
        size_t place = 0;                                                                          \
        S other = start;                                                                           \
        for (const size_t *size = great_sizes; *size <= GREATEST; size++) {                        \
            S state = start;                                                                       \
            S last;                                                                                \
            for (; place + 64 <= *size; place += 64) {                                             \
                nanorand_##G##_fill_bytes(&other, pieces + place, 64);                             \
            }                                                                                      \
            last = other;                                                                          \
            nanorand_##G##_fill_bytes(&last, pieces + place, *size - place);                       \
            whole[*size] = 0xee;                                                                   \
            nanorand_##G##_fill_bytes(&state, whole, *size);                                       \
            check(#G, "a great size", memcmp(whole, pieces, *size) == 0 && whole[*size] == 0xee);  \
            check(#G, "what comes next", nanorand_##G##_u64(&state) == nanorand_##G##_u64(&last)); \
        }                                                                                          \
    }                                                                                              \
                                                                                                   \
    /* Swaps each item with a drawn one: any item, or one that is not before it. */                \
    static int exchange_##G(S *state, size_t *items, int full)                                     \
    {                                                                                              \
        int drawn = 1;                                                                             \
        for (size_t place = 0; place < ITEMS; place++) {                                           \
            size_t other = 0;                                                                      \
            size_t item = items[place];                                                            \
            size_t first = full ? 0 : place;                                                       \
            drawn &= nanorand_##G##_range_usize(state, first, ITEMS - 1, &other) == NANORAND_OK;   \
            items[place] = items[other];                                                           \
            items[other] = item;                                                                   \
        }                                                                                          \
        return drawn;                                                                              \
    }                                                                                              \
                                                                                                   \
    static void shuffles_##G(S start)                                                              \
    {                                                                                              \
        static size_t items[ITEMS];                                                                \
        static size_t same[ITEMS];                                                                 \
        S state = start;                                                                           \
        S other = start;                                                                           \
        for (size_t place = 0; place < ITEMS; place++) {                                           \
            items[place] = place;                                                                  \
            same[place] = place;                                                                   \
        }                                                                                          \
        check(#G, "a large shuffle", nanorand_##G##_shuffle(&state, items, ITEMS) == 0);           \
        check(#G, "its items", is_permutation(items, ITEMS));                                      \
        check(#G, "its indices", exchange_##G(&other, same, 0));                                   \
        check(#G, "its order", memcmp(items, same, sizeof items) == 0);                            \
        check(#G, "a full one", nanorand_##G##_shuffle_full(&state, items, ITEMS) == 0);           \
        check(#G, "the same items", is_permutation(items, ITEMS));                                 \
        check(#G, "their indices", exchange_##G(&other, same, 1));                                 \
        check(#G, "their order", memcmp(items, same, sizeof items) == 0);                          \
        check(#G, "what comes next", nanorand_##G##_u64(&state) == nanorand_##G##_u64(&other));    \
        check(#G, "a sample of all", nanorand_##G##_sample(&state, 1000, items, 1000) == 0);       \
        check(#G, "each once", is_permutation(items, 1000));                                       \
    }                                                                                              \
                                                                                                   \
    /* Samples of three numbers below 2^3, 2^4, .., 2^63, and below one more than these. */        \
    static void samples_##G(S start)                                                               \
    {                                                                                              \
        size_t places[3];                                                                          \
        int holds = 1;                                                                             \
        for (int power = 3; power < 64; power++) {                                                 \
            const size_t count = (size_t)1 << power;                                               \
            S state = start;                                                                       \
            holds = holds && nanorand_##G##_sample(&state, count, places, 3) == NANORAND_OK        \
                && are_below(places, 3, count)                                                     \
                && nanorand_##G##_sample(&state, count | 1, places, 3) == NANORAND_OK              \
                && are_below(places, 3, count | 1);                                                \
        }                                                                                          \
        check(#G, "three of any number", holds);                                                   \
    }                                                                                              \
                                                                                                   \
    /* Draws a sample with a table, in pieces of growing size. The table has old values. */        \
    static int draw_in_pieces_##G(S *state, size_t count, size_t *places, size_t length)           \
    {                                                                                              \
        static size_t table[3 * ITEMS];                                                            \
        size_t filled = 0;                                                                         \
        int holds = 1;                                                                             \
        while (filled < length) {                                                                  \
            size_t next = 2 * filled + 1 < length ? 2 * filled + 1 : length;                       \
            holds = holds && nanorand_##G##_extend_sample(state, count - (length - next), places,  \
                next, filled, table, 3 * next) == NANORAND_OK;                                     \
            filled = next;                                                                         \
        }                                                                                          \
        return holds;                                                                              \
    }                                                                                              \
                                                                                                   \
    static void tables_##G(S start)                                                                \
    {                                                                                              \
        static size_t places[ITEMS], others[ITEMS];                                                \
        for (size_t count = 1000; count < 100000; count = 3 * count + 1) {                         \
            S state = start, other = start;                                                        \
            int holds = nanorand_##G##_sample(&state, count, places, 1000) == NANORAND_OK;         \
            check(#G, "pieces", holds && draw_in_pieces_##G(&other, count, others, 1000));         \
            check(#G, "the sample", memcmp(places, others, 1000 * sizeof *places) == 0);           \
            check(#G, "its state", agree_##G(state, other));                                       \
        }                                                                                          \
        check(#G, "all of many", draw_in_pieces_##G(&start, ITEMS, places, ITEMS));                \
        check(#G, "each of them once", is_permutation(places, ITEMS));                             \
    }                                                                                              \
                                                                                                   \
    static void all_##G(S start)                                                                   \
    {                                                                                              \
        null_pointers_##G(start);                                                                  \
        empty_ranges_##G(start);                                                                   \
        ranges_##G(start);                                                                         \
        addresses_##G(start);                                                                      \
        lengths_##G(start);                                                                        \
        sizes_##G(start);                                                                          \
        shuffles_##G(start);                                                                       \
        samples_##G(start);                                                                        \
        tables_##G(start);                                                                         \
    }

TESTS(wyrand, nanorand_wyrand)
TESTS(pcg64, nanorand_pcg64)
TESTS(chacha8, nanorand_chacha)
TESTS(chacha12, nanorand_chacha)
TESTS(chacha20, nanorand_chacha)
TESTS(stream, nanorand_stream)
TESTS(keystream, nanorand_keystream)

/* The tests of parts, of one generator that has them. */
#define PARTS(G, S)                                                                                \
    static void parts_##G(S start)                                                                 \
    {                                                                                              \
        int follows = 1;                                                                           \
        S state = start;                                                                           \
        S drawn = start;                                                                           \
        for (uint64_t index = 0; index < 40; index++) {                                            \
            uint8_t some[SHORT], same[SHORT];                                                      \
            S after = drawn;                                                                       \
            state = start;                                                                         \
            follows = follows && nanorand_##G##_part(&state, index, 7) == NANORAND_OK;             \
            nanorand_##G##_fill_bytes(&state, some, SHORT);                                        \
            nanorand_##G##_fill_bytes(&after, same, SHORT);                                        \
            follows = follows && memcmp(some, same, SHORT) == 0;                                   \
            for (int draw = 0; draw < 7; draw++) {                                                 \
                nanorand_##G##_u64(&drawn);                                                        \
            }                                                                                      \
        }                                                                                          \
        check(#G, "a part follows the one before it", follows);                                    \
        state = start;                                                                             \
        check(#G, "no draws", nanorand_##G##_part(&state, UINT64_MAX, 0) == NANORAND_OK);          \
        check(#G, "the first part", nanorand_##G##_part(&state, 0, UINT64_MAX) == NANORAND_OK);    \
        check(#G, "begins here", memcmp(&state, &start, sizeof state) == 0);                       \
        check(#G, "a part too far",                                                                \
              nanorand_##G##_part(&state, UINT64_MAX, UINT64_MAX) == NANORAND_PAST_PERIOD);        \
        check(#G, "nothing moves", memcmp(&state, &start, sizeof state) == 0);                     \
    }

PARTS(wyrand, nanorand_wyrand)
PARTS(pcg64, nanorand_pcg64)
PARTS(chacha8, nanorand_chacha)
PARTS(chacha12, nanorand_chacha)
PARTS(chacha20, nanorand_chacha)
PARTS(keystream, nanorand_keystream)

/* Parts of keystreams with different numbers of buffered bytes, from 0 to the maximum. */
static void parts_of_keystream(nanorand_keystream start)
{
    for (start.buffered = 0; start.buffered < 512; start.buffered += 7) {
        parts_keystream(start);
    }
}

/* The distance to a state that a jump of 2^power - 1 or 2^power draws leaves, for every power. */
static void distances_of_wyrand(nanorand_wyrand start)
{
    int holds = 1;
    for (int power = 0; power < 64; power++) {
        for (uint64_t less = 0; less < 2; less++) {
            const uint64_t draws = ((uint64_t)1 << power) - less;
            nanorand_wyrand end = start;
            nanorand_wyrand_jump(&end, draws);
            holds = holds && nanorand_wyrand_distance(&start, &end) == draws
                && nanorand_wyrand_distance(&end, &start) == 0 - draws;
        }
    }
    check("wyrand", "distances", holds);
}

static void distances_of_pcg64(nanorand_pcg64 start)
{
    int holds = 1;
    for (int power = 0; power < 126; power++) {
        const uint64_t bit = (uint64_t)1 << power % 64;
        const nanorand_pcg64 draws = {power < 64 ? bit : 5, power < 64 ? 0 : bit};
        nanorand_pcg64 end = start;
        nanorand_pcg64 found = {77, 77};
        nanorand_pcg64_jump(&end, &draws);
        holds = holds && nanorand_pcg64_distance(&start, &end, &found) == NANORAND_OK
            && found.low == draws.low && found.high == draws.high;
    }
    check("pcg64", "distances", holds);
}

/* A state is in the cycle of another if and only if they are equal modulo 8 or their sum is 7 modulo 8. */
static void cycles_of_pcg64(void)
{
    int holds = 1;
    for (uint64_t one = 0; one < 64; one++) {
        const nanorand_pcg64 start = {one % 8, 77};
        const nanorand_pcg64 end = {one / 8, 99};
        const int joined = one % 8 == one / 8 || one % 8 + one / 8 == 7;
        nanorand_pcg64 draws = {77, 99};
        const nanorand_status status = nanorand_pcg64_distance(&start, &end, &draws);
        holds = holds && status == (joined ? NANORAND_OK : NANORAND_OTHER_CYCLE)
            && (joined || (draws.low == 77 && draws.high == 99));
        nanorand_pcg64 reached = start;
        nanorand_pcg64_jump(&reached, &draws);
        holds = holds && (!joined || (reached.low == end.low && reached.high == end.high));
    }
    check("pcg64", "cycles", holds);
}

/* Counts of buffered bytes above the maximum are clamped to it. */
static void too_many_buffered(nanorand_stream stream, nanorand_keystream keystream)
{
    int holds = 1;
    for (int power = 10; power < 64; power++) {
        for (uint64_t rest = 0; rest < 6; rest += 5) {
            nanorand_stream whole = stream;
            nanorand_keystream group = keystream;
            stream.buffered = ((uint64_t)1 << power) + rest;
            keystream.buffered = stream.buffered;
            whole.buffered = 63;
            group.buffered = 511;
            holds = holds && nanorand_stream_u64(&stream) == nanorand_stream_u64(&whole)
                && nanorand_keystream_u64(&keystream) == nanorand_keystream_u64(&group);
            stream = whole;
            keystream = group;
        }
    }
    check("streams", "too many bytes buffered", holds);
}

static const uint8_t *text_of(const char *text)
{
    return (const uint8_t *)text;
}

static void digests(void)
{
    const uint8_t none[4] = {0xe3, 0xb0, 0xc4, 0x42};
    const uint8_t abc[4] = {0xba, 0x78, 0x16, 0xbf};
    uint8_t out[34];
    memset(out, 0xee, sizeof out);
    nanorand_lots_digest(NULL, 0, out + 1);
    check("lots", "the sum of nothing", memcmp(out + 1, none, 4) == 0);
    nanorand_lots_digest(text_of("abc"), 3, out + 1);
    check("lots", "the sum of abc", memcmp(out + 1, abc, 4) == 0);
    check("lots", "32 bytes", out[0] == 0xee && out[33] == 0xee && out[32] == 0xad);
}

static void lists(void)
{
    size_t number = 7;
    check("lots", "no list", nanorand_lots_count(NULL, 0, &number) == NANORAND_LOTS_OK && number == 0);
    number = 7;
    check("lots", "two lines", nanorand_lots_count(text_of("a\nb"), 3, &number) == NANORAND_LOTS_OK);
    check("lots", "are two", number == 2);
    check("lots", "an empty line",
          nanorand_lots_count(text_of("a\n\nb\n"), 5, &number) == NANORAND_LOTS_EMPTY_LINE);
    check("lots", "is the second", number == 2);
}

static void draws(void)
{
    const uint8_t *seed = text_of("s");
    const uint8_t *no_text = text_of("\xff");
    /* Each begins with its length: NULs, spaces, a byte order mark, line ends, a combining mark without a letter. */
    const char *const seeds[] = {"1\0", "3\0\0\0", "1 ", "2  ", "3\xef\xbb\xbf", "1\n", "2\r\n", "1\t",
                                 "2\xcc\x81", NULL};
    size_t places[3] = {7, 7, 7};
    check("lots", "no seed", nanorand_lots_draw(NULL, 0, places, 3, 1) == NANORAND_LOTS_BAD_SEED);
    check("lots", "no text", nanorand_lots_draw(no_text, 1, places, 3, 1) == NANORAND_LOTS_BAD_SEED);
    check("lots", "seed first", nanorand_lots_draw(NULL, 0, places, 3, 9) == NANORAND_LOTS_BAD_SEED);
    check("lots", "the places stay", all_are(places, 3, 7));
    check("lots", "too few", nanorand_lots_draw(seed, 1, places, 3, 4) == NANORAND_LOTS_TOO_FEW);
    check("lots", "the places in some order", is_permutation(places, 3));
    for (int power = 2; power < 64; power++) {
        const size_t many = (size_t)1 << power;
        check("lots", "many more", nanorand_lots_draw(seed, 1, places, 3, many) == NANORAND_LOTS_TOO_FEW
                  && nanorand_lots_draw(seed, 1, places, 3, many | 1) == NANORAND_LOTS_TOO_FEW);
    }
    for (const char *const *odd = seeds; *odd != NULL; odd++) {
        const uint8_t *text = text_of(*odd + 1);
        const size_t length = (size_t)(**odd - '0');
        check("lots", "an odd seed", nanorand_lots_draw(text, length, places, 3, 2) == NANORAND_LOTS_OK);
    }
    check("lots", "none of none", nanorand_lots_draw(seed, 1, NULL, 0, 0) == NANORAND_LOTS_OK);
    check("lots", "one of none", nanorand_lots_draw(seed, 1, NULL, 0, 1) == NANORAND_LOTS_TOO_FEW);
    check("lots", "all of three", nanorand_lots_draw(seed, 1, places, 3, 3) == NANORAND_LOTS_OK);
    check("lots", "each once", is_permutation(places, 3));
}

/* A keystream delivers the same bytes as the stream, for requests of all sizes up to more than two groups. */
static void one_keystream(nanorand_stream stream, nanorand_keystream keystream)
{
    uint8_t some[1100], same[1100];
    int holds = 1;
    keystream.chacha = stream.chacha;
    for (size_t length = 0; length < sizeof some; length++) {
        nanorand_stream_fill_bytes(&stream, some, length);
        nanorand_keystream_fill_bytes(&keystream, same, length);
        holds = holds && memcmp(some, same, length) == 0 && keystream.buffered < 512;
    }
    check("keystream", "the stream's bytes", holds);
}

/* Gives neighbouring bytes different values. */
static void number_bytes(void *bytes, size_t length)
{
    for (size_t place = 0; place < length; place++) {
        ((uint8_t *)bytes)[place] = (uint8_t)(place * 37 + 90);
    }
}

int main(void)
{
    nanorand_pcg64 pcg64 = {5, 1};
    nanorand_stream stream;
    nanorand_keystream keystream;
    number_bytes(&keystream, sizeof keystream);
    keystream.buffered = 0;
    number_bytes(&stream, sizeof stream);
    stream.chacha.counter = 3;
    stream.buffered = 0;
    check("the library", "version", nanorand_version() == NANORAND_VERSION);
    all_wyrand(nanorand_wyrand_new_seed(42));
    all_pcg64(pcg64);
    all_chacha8(stream.chacha);
    all_chacha12(stream.chacha);
    all_chacha20(stream.chacha);
    all_stream(stream);
    all_keystream(keystream);
    parts_wyrand(nanorand_wyrand_new_seed(42));
    parts_pcg64(pcg64);
    distances_of_wyrand(nanorand_wyrand_new_seed(42));
    distances_of_pcg64(pcg64);
    cycles_of_pcg64();
    parts_chacha8(stream.chacha);
    parts_chacha12(stream.chacha);
    parts_chacha20(stream.chacha);
    parts_of_keystream(keystream);
    one_keystream(stream, keystream);
    too_many_buffered(stream, keystream);
    digests();
    lists();
    draws();
    return finish();
}
