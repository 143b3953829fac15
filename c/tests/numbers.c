/*
 * Tests the calls that return their number, for every generator: nanorand_.._f64 and nanorand_.._below.
 * They draw what nanorand_.._u64 and nanorand_.._range_u64 draw, and leave the same state.
 *
 * Not tested: what nanorand_.._below returns after 128 rejected words. No state is known that leads to them.
 */
#include "check.h"

enum { WORDS = 2000 };

static const double fractions = 9007199254740992.0; /* 2^53 */

/* The tests of one generator. S is the type of its state. */
#define TESTS(G, S)                                                                                \
    /* The same 53 bits as the word, in the same order, and some of them below 1/4 and above 3/4. */ \
    static void fractions_##G(S start)                                                             \
    {                                                                                              \
        S state = start;                                                                           \
        S other = start;                                                                           \
        int holds = 1, low = 0, high = 0;                                                          \
        for (int turn = 0; turn < WORDS; turn++) {                                                 \
            const uint64_t word = nanorand_##G##_u64(&other);                                      \
            const double number = nanorand_##G##_f64(&state);                                      \
            holds = holds && number >= 0 && number < 1                                             \
                && (uint64_t)(number * fractions) == word >> 11                                    \
                && number * fractions == (double)(word >> 11);                                     \
            low = low || number < 0.25;                                                            \
            high = high || number > 0.75;                                                          \
        }                                                                                          \
        check(#G, "the top 53 bits", holds);                                                       \
        check(#G, "low and high fractions", low && high);                                          \
        check(#G, "the state after fractions", agree_##G(state, other));                           \
    }                                                                                              \
                                                                                                   \
    /* The numbers of ranges from 0 and of ranges from 1000, for 2^0 to 2^63 and their neighbours. */ \
    static void below_##G(S start)                                                                 \
    {                                                                                              \
        S state = start;                                                                           \
        S other = start;                                                                           \
        int holds = 1;                                                                             \
        for (int power = 0; power < 64; power++) {                                                 \
            for (uint64_t n = ((uint64_t)1 << power) - (power > 1); n <= ((uint64_t)1 << power) + 1; n++) { \
                uint64_t wanted = 7;                                                               \
                const uint64_t first = power < 60 ? 1000 * (n % 2) : 0;                            \
                const nanorand_status status = nanorand_##G##_range_u64(&other, first, first + n - 1, &wanted); \
                const uint64_t number = nanorand_##G##_below(&state, n);                           \
                holds = holds && status == NANORAND_OK && number == wanted - first && number < n;  \
            }                                                                                      \
        }                                                                                          \
        check(#G, "below", holds);                                                                 \
        check(#G, "below 2^64 - 1", nanorand_##G##_below(&state, UINT64_MAX) < UINT64_MAX);        \
        nanorand_##G##_u64(&other);                                                                \
        check(#G, "the state after numbers", agree_##G(state, other));                             \
    }                                                                                              \
                                                                                                   \
    static void none_below_##G(S start)                                                            \
    {                                                                                              \
        S state = start;                                                                           \
        check(#G, "none below 0", nanorand_##G##_below(&state, 0) == 0);                           \
        check(#G, "nothing is drawn", memcmp(&state, &start, sizeof state) == 0);                  \
        check(#G, "0 is below 1", nanorand_##G##_below(&state, 1) == 0);                           \
        nanorand_##G##_u64(&start);                                                                \
        check(#G, "by one word", agree_##G(state, start));                                         \
    }                                                                                              \
                                                                                                   \
    static void all_##G(S start)                                                                   \
    {                                                                                              \
        fractions_##G(start);                                                                      \
        below_##G(start);                                                                          \
        none_below_##G(start);                                                                     \
    }

TESTS(wyrand, nanorand_wyrand)
TESTS(pcg64, nanorand_pcg64)
TESTS(chacha8, nanorand_chacha)
TESTS(chacha12, nanorand_chacha)
TESTS(chacha20, nanorand_chacha)
TESTS(stream, nanorand_stream)
TESTS(keystream, nanorand_keystream)

/* Too many buffered bytes count as 63 and as 511, also in calls that draw nothing. */
static void too_many_buffered(nanorand_stream stream, nanorand_keystream keystream)
{
    stream.buffered = UINT64_MAX;
    keystream.buffered = UINT64_MAX;
    check("stream", "none below 0, too many bytes", nanorand_stream_below(&stream, 0) == 0 && stream.buffered == 63);
    check("keystream", "none below 0, too many bytes",
          nanorand_keystream_below(&keystream, 0) == 0 && keystream.buffered == 511);
}

int main(void)
{
    uint8_t key[32], nonce[8] = {1, 2, 3, 4, 5, 6, 7, 8};
    for (int place = 0; place < 32; place++) {
        key[place] = (uint8_t)(place * 37 + 90);
    }
    all_wyrand(nanorand_wyrand_new_seed(42));
    all_pcg64(nanorand_pcg64_new_seed(5, 1));
    all_chacha8(nanorand_chacha_new_key(key, nonce));
    all_chacha12(nanorand_chacha_new_key(key, nonce));
    all_chacha20(nanorand_chacha_new_key(key, nonce));
    all_stream(nanorand_stream_new_key(key, nonce));
    all_keystream(nanorand_keystream_new_key(key, nonce));
    too_many_buffered(nanorand_stream_new_key(key, nonce), nanorand_keystream_new_key(key, nonce));
    return finish();
}
