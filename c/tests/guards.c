/*
 * No call accesses memory outside its arrays: each array is at the end of a memory page, and then at the
 * beginning of one, next to pages that can be neither read nor written. One byte too many ends the
 * program. Also tested are the largest counts and numbers that C's types can hold.
 */
#define _DEFAULT_SOURCE
#include <stdio.h>
#include <string.h>
#include <sys/mman.h>

#include "nanorand.h"

enum { PAGE = 65536, LONGEST = 600 };

static unsigned passed = 0;
static unsigned failed = 0;
static uint8_t *page; /* An accessible page between two inaccessible ones. */

static void check(const char *name, int holds)
{
    if (holds) {
        passed++;
    } else {
        failed++;
        printf("FAILED %s\n", name);
    }
}

/* The address of `size` bytes at the end of the page, or at its beginning. */
static uint8_t *placed(int at_end, size_t size)
{
    memset(page, 0x61, PAGE);
    return at_end ? page + PAGE - size : page;
}

#define TESTS(G, S)                                                                                \
    static void arrays_##G(S start, int at_end)                                                    \
    {                                                                                              \
        static uint8_t wanted[LONGEST];                                                            \
        int holds = 1;                                                                             \
        size_t length;                                                                             \
        for (length = 0; length <= LONGEST; length++) {                                            \
            S state = start, other = start;                                                        \
            uint8_t *bytes = placed(at_end, length);                                               \
            nanorand_##G##_fill_bytes(&state, bytes, length);                                      \
            nanorand_##G##_fill_bytes(&other, wanted, length);                                     \
            holds = holds && memcmp(bytes, wanted, length) == 0;                                   \
        }                                                                                          \
        check(#G ": bytes", holds);                                                                \
        for (length = 0; length < 40; length++) {                                                  \
            S state = start;                                                                       \
            size_t *items = (size_t *)(void *)placed(at_end, length * sizeof *items);              \
            holds = holds && nanorand_##G##_sample(&state, SIZE_MAX, items, length) == 0;          \
            holds = holds && nanorand_##G##_sample(&state, length, items, length) == 0;            \
            holds = holds && nanorand_##G##_shuffle(&state, items, length) == 0;                   \
            holds = holds && nanorand_##G##_shuffle_full(&state, items, length) == 0;              \
        }                                                                                          \
        check(#G ": items", holds);                                                                \
        for (length = 0; length < 40; length++) {                                                  \
            static size_t places[40], same[40];                                                    \
            S state = start, other = start;                                                        \
            size_t room = 3 * length / 2;                                                          \
            size_t *table = (size_t *)(void *)placed(at_end, room * sizeof *table);                \
            holds = holds && nanorand_##G##_sample(&other, 60, same, length) == 0;                 \
            holds = holds && nanorand_##G##_extend_sample(&state, 60, places, length, 0, table,    \
                                                          room) == 0                               \
                && memcmp(places, same, length * sizeof *same) == 0;                               \
        }                                                                                          \
        check(#G ": a table", holds);                                                              \
        {                                                                                          \
            S *state = (S *)(void *)placed(at_end, sizeof start);                                  \
            uint64_t number = 7;                                                                   \
            memcpy(state, &start, sizeof start);                                                   \
            nanorand_##G##_u64(state);                                                             \
            holds = nanorand_##G##_range_u64(state, UINT64_MAX, UINT64_MAX, &number) == 0;         \
            check(#G ": a state", holds && number == UINT64_MAX);                                  \
        }                                                                                          \
        {                                                                                          \
            S state = start;                                                                       \
            uint32_t *narrow = (uint32_t *)(void *)placed(at_end, sizeof *narrow);                 \
            holds = nanorand_##G##_range_u32(&state, UINT32_MAX, UINT32_MAX, narrow) == 0;         \
            check(#G ": a number", holds && *narrow == UINT32_MAX);                                \
        }                                                                                          \
    }

TESTS(wyrand, nanorand_wyrand)
TESTS(pcg64, nanorand_pcg64)
TESTS(chacha8, nanorand_chacha)
TESTS(chacha12, nanorand_chacha)
TESTS(chacha20, nanorand_chacha)
TESTS(stream, nanorand_stream)
TESTS(keystream, nanorand_keystream)

#define PARTS(G, S)                                                                                \
    static void part_##G(S start, int at_end)                                                      \
    {                                                                                              \
        S *state = (S *)(void *)placed(at_end, sizeof start);                                      \
        memcpy(state, &start, sizeof start);                                                       \
        check(#G ": a part", nanorand_##G##_part(state, 3, 1000) == NANORAND_OK);                  \
    }

PARTS(wyrand, nanorand_wyrand)
PARTS(pcg64, nanorand_pcg64)
PARTS(chacha8, nanorand_chacha)
PARTS(chacha12, nanorand_chacha)
PARTS(chacha20, nanorand_chacha)
PARTS(keystream, nanorand_keystream)

/* A list, a seed and a digest at the edge of the page, and draws of up to SIZE_MAX entrants. */
static void lots(int at_end)
{
    size_t number = 0, length, places[3] = {7, 7, 7};
    uint8_t sum[32];
    int holds = 1;
    for (length = 1; length <= LONGEST; length++) {
        uint8_t *text = placed(at_end, length);
        nanorand_lots_digest(text, length, sum);
        holds = holds && nanorand_lots_count(text, length, &number) == 0 && number == 1;
        holds = holds && nanorand_lots_draw(text, length, places, 3, 3) == 0;
        text[length - 1] = '\n';
        holds = holds && nanorand_lots_count(text, length, &number) == (length == 1 ? 4 : 0);
        /* The first byte of a character, without the others. */
        text[length - 1] = 0xf0;
        holds = holds && nanorand_lots_draw(text, length, places, 3, 3) == NANORAND_LOTS_BAD_SEED;
    }
    check("lots: texts", holds);
    nanorand_lots_digest(sum, 3, placed(at_end, 32));
    for (length = 0; length < 40; length++) {
        size_t *drawn = (size_t *)(void *)placed(at_end, length * sizeof *drawn);
        holds = holds && nanorand_lots_draw((const uint8_t *)"s", 1, drawn, length, length) == 0;
        holds = holds && nanorand_lots_draw((const uint8_t *)"s", 1, drawn, length, SIZE_MAX) == 3;
    }
    check("lots: places", holds);
}

/* Makes one of all calls, some of which do nothing or return an error. The results are in `out`. */
#define CALLS(G)                                                                                   \
    static void make_call_##G(nanorand_##G *state, int call, uint64_t out[4])                      \
    {                                                                                              \
        uint32_t narrow = 7;                                                                       \
        size_t place = 7, items[3] = {1, 2, 3}, table[9] = {0};                                    \
        int64_t number = 7;                                                                        \
        switch (call) {                                                                            \
        case 0: out[0] = nanorand_##G##_u64(state); break;                                         \
        case 1: nanorand_##G##_fill_bytes(state, (uint8_t *)out, 32); break;                       \
        case 2: nanorand_##G##_fill_bytes(state, NULL, 0); break;                                  \
        case 3: out[3] = nanorand_##G##_range_u32(state, 1, UINT32_MAX, &narrow); break;           \
        case 4: out[3] = nanorand_##G##_range_u64(state, 1, UINT64_MAX, &out[0]); break;           \
        case 5: out[3] = nanorand_##G##_range_i64(state, -5, INT64_MAX, &number); break;           \
        case 6: out[3] = nanorand_##G##_range_usize(state, 1, SIZE_MAX, &place); break;            \
        case 7: out[3] = nanorand_##G##_range_i64(state, 1, -1, &number); break;                   \
        case 8: out[3] = nanorand_##G##_shuffle(state, items, 3); break;                           \
        case 9: out[3] = nanorand_##G##_shuffle_full(state, items, 3); break;                      \
        case 10: out[3] = nanorand_##G##_sample(state, 1000, items, 3); break;                     \
        case 11: out[3] = nanorand_##G##_sample(state, 2, items, 3); break;                        \
        case 12: out[3] = nanorand_##G##_extend_sample(state, 1000, items, 3, 1, table, 9); break; \
        case 13: out[3] = nanorand_##G##_extend_sample(state, 2, items, 3, 1, table, 9); break;    \
        }                                                                                          \
        out[1] += narrow + place + (uint64_t)number;                                               \
        out[2] += items[0] + 1000 * items[1] + 1000000 * items[2];                                 \
    }

CALLS(stream)
CALLS(keystream)

/* For each call, a count of buffered bytes above the maximum is clamped to the maximum. */
#define TOO_MANY_BUFFERED(G, MOST)                                                                 \
    static void too_many_buffered_##G(uint64_t buffered)                                           \
    {                                                                                              \
        for (int call = 0; call < 14; call++) {                                                    \
            nanorand_##G state, other;                                                             \
            uint64_t some[4] = {0}, same[4] = {0};                                                 \
            memset(&state, 0x5a, sizeof state);                                                    \
            for (size_t place = 0; place < MOST; place++) {                                        \
                ((uint8_t *)&state)[sizeof state.chacha + place] = (uint8_t)(place * 7);           \
            }                                                                                      \
            other = state;                                                                         \
            state.buffered = buffered;                                                             \
            other.buffered = MOST;                                                                 \
            make_call_##G(&state, call, some);                                                     \
            make_call_##G(&other, call, same);                                                     \
            check(#G ": too many buffered", memcmp(some, same, sizeof some) == 0                   \
                && memcmp(&state, &other, sizeof state) == 0 && state.buffered <= MOST);           \
        }                                                                                          \
    }

TOO_MANY_BUFFERED(stream, 63)
TOO_MANY_BUFFERED(keystream, 511)

/* The same for parts: one within the buffered bytes, one behind them, and one past the end of the period. */
static void too_many_buffered_parts(uint64_t buffered)
{
    const uint64_t draws[3] = {3, 1000, UINT64_MAX};
    for (int place = 0; place < 3; place++) {
        nanorand_keystream state, other;
        memset(&state, 0x5a, sizeof state);
        other = state;
        state.buffered = buffered;
        other.buffered = 511;
        check("keystream: too many buffered, in parts",
              nanorand_keystream_part(&state, 20, draws[place])
                      == nanorand_keystream_part(&other, 20, draws[place])
                  && memcmp(&state, &other, sizeof state) == 0 && state.buffered <= 511);
    }
}

int main(void)
{
    nanorand_pcg64 pcg64 = {5, 1};
    nanorand_stream stream;
    nanorand_keystream keystream;
    uint8_t *pages =
        (uint8_t *)mmap(NULL, (size_t)3 * PAGE, PROT_NONE, MAP_PRIVATE | MAP_ANONYMOUS, -1, 0);
    int at_end;
    memset(&stream, 0x5a, sizeof stream);
    stream.buffered = 0;
    memset(&keystream, 0x5a, sizeof keystream);
    keystream.buffered = 0;
    page = pages + PAGE;
    if (pages == (uint8_t *)MAP_FAILED || mprotect(page, PAGE, PROT_READ | PROT_WRITE) != 0) {
        puts("no pages\n0 passed, 1 failed");
        return 1;
    }
    for (at_end = 0; at_end < 2; at_end++) {
        arrays_wyrand(nanorand_wyrand_new_seed(42), at_end);
        arrays_pcg64(pcg64, at_end);
        arrays_chacha8(stream.chacha, at_end);
        arrays_chacha12(stream.chacha, at_end);
        arrays_chacha20(stream.chacha, at_end);
        arrays_stream(stream, at_end);
        arrays_keystream(keystream, at_end);
        part_wyrand(nanorand_wyrand_new_seed(42), at_end);
        part_pcg64(pcg64, at_end);
        part_chacha8(stream.chacha, at_end);
        part_chacha12(stream.chacha, at_end);
        part_chacha20(stream.chacha, at_end);
        part_keystream(keystream, at_end);
        lots(at_end);
    }
    too_many_buffered_stream(64);
    too_many_buffered_stream(UINT64_MAX);
    too_many_buffered_keystream(512);
    too_many_buffered_keystream(UINT64_MAX);
    too_many_buffered_parts(512);
    too_many_buffered_parts(UINT64_MAX);
    printf("%u passed, %u failed\n", passed, failed);
    return failed == 0 ? 0 : 1;
}
