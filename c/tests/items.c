/*
 * Tests the shuffles of items of any type, for every generator: nanorand_.._shuffle_items and
 * nanorand_.._shuffle_bytes. For each size of an item and each number of items, the order and the state are
 * those of nanorand_.._shuffle for the indices, and no byte beside the items changes.
 */
#include <stdio.h>
#include <string.h>

#include "check.h"

enum { GREATEST = 300, MOST = 70, GUARD = 0xee };

/* Sizes of types, and odd ones. */
static const size_t sizes[] = {1, 2, 3, 4, 5, 7, 8, 9, 12, 15, 16, 17, 24, 31, 32, 33, 63, 64, 65, 100, 128, 255, GREATEST, 0};

static uint8_t memory[GREATEST * (MOST + 1) + 2];
static uint8_t *const items = memory + 1; /* an odd address */

static void check_items(const char *generator, const char *name, size_t size, int holds)
{
    char text[80];
    snprintf(text, sizeof text, "%s, items of %u bytes", name, (unsigned)size);
    check(generator, text, holds);
}

/* A byte of an item. Two items differ in each of their bytes, and so do neighbouring bytes of an item. */
static uint8_t byte_of(size_t item, size_t place)
{
    return (uint8_t)(item + 101 * place);
}

static void begin(size_t length, size_t size)
{
    memset(memory, GUARD, sizeof memory);
    for (size_t item = 0; item < length; item++) {
        for (size_t place = 0; place < size; place++) {
            items[item * size + place] = byte_of(item, place);
        }
    }
}

/* Whether the items are in this order, and the bytes around them are unchanged. */
static int are_in_order(const size_t *order, size_t length, size_t size)
{
    for (size_t item = 0; item < length; item++) {
        for (size_t place = 0; place < size; place++) {
            if (items[item * size + place] != byte_of(order[item], place)) {
                return 0;
            }
        }
    }
    for (const uint8_t *byte = items + length * size; byte < memory + sizeof memory; byte++) {
        if (*byte != GUARD) {
            return 0;
        }
    }
    return memory[0] == GUARD;
}

static void number(size_t *order, size_t length)
{
    for (size_t place = 0; place < length; place++) {
        order[place] = place;
    }
}

struct card {
    char name[3];
    int value;
    double weight;
};

/* The tests of one generator. S is the type of its state. */
#define TESTS(G, S)                                                                                \
    static void sizes_##G(S start)                                                                 \
    {                                                                                              \
        size_t order[MOST];                                                                        \
        for (const size_t *size = sizes; *size != 0; size++) {                                     \
            int holds = 1;                                                                         \
            for (size_t length = 0; length <= MOST; length += length < 9 ? 1 : 20) {               \
                S state = start;                                                                   \
                S other = start;                                                                   \
                number(order, length);                                                             \
                begin(length, *size);                                                              \
                holds = holds && nanorand_##G##_shuffle(&state, order, length) == NANORAND_OK      \
                    && nanorand_##G##_shuffle_items(&other, items, length, *size) == NANORAND_OK   \
                    && are_in_order(order, length, *size) && agree_##G(state, other);              \
            }                                                                                      \
            check_items(#G, "any number of items", *size, holds);                                        \
        }                                                                                          \
    }                                                                                              \
                                                                                                   \
    /* Bytes after the last whole item stay, and draw nothing. */                                  \
    static void rests_##G(S start)                                                                 \
    {                                                                                              \
        size_t order[5];                                                                           \
        for (const size_t *size = sizes; *size != 0; size++) {                                     \
            int holds = 1;                                                                         \
            for (size_t rest = 0; rest < *size; rest += *size < 20 ? 1 : 11) {                     \
                S state = start;                                                                   \
                S other = start;                                                                   \
                number(order, 5);                                                                  \
                begin(5, *size);                                                                   \
                holds = holds && nanorand_##G##_shuffle(&state, order, 5) == NANORAND_OK           \
                    && nanorand_##G##_shuffle_bytes(&other, items, 5 * *size + rest, *size) == NANORAND_OK \
                    && are_in_order(order, 5, *size) && agree_##G(state, other);                   \
                begin(0, *size);                                                                   \
                other = start;                                                                     \
                holds = holds && nanorand_##G##_shuffle_bytes(&other, items, rest, *size) == NANORAND_OK \
                    && are_in_order(order, 0, *size) && memcmp(&other, &start, sizeof start) == 0; \
            }                                                                                      \
            check_items(#G, "a rest", *size, holds);                                                     \
        }                                                                                          \
    }                                                                                              \
                                                                                                   \
    /* Items of no bytes, and no items, draw nothing. */                                           \
    static void nothing_##G(S start)                                                               \
    {                                                                                              \
        S state = start;                                                                           \
        begin(0, 0);                                                                               \
        check_items(#G, "no size", 0, nanorand_##G##_shuffle_items(&state, items, MOST, 0) == NANORAND_OK); \
        check_items(#G, "bytes and no size", 0, nanorand_##G##_shuffle_bytes(&state, items, MOST, 0) == NANORAND_OK); \
        check_items(#G, "no items", 8, nanorand_##G##_shuffle_items(&state, NULL, 0, 8) == NANORAND_OK); \
        check_items(#G, "nothing is written", 0, are_in_order(NULL, 0, 0));                              \
        check_items(#G, "nothing is drawn", 0, memcmp(&state, &start, sizeof state) == 0);               \
    }                                                                                              \
                                                                                                   \
    static void structs_##G(S start)                                                               \
    {                                                                                              \
        struct card cards[3] = {{"A", 1, 0.5}, {"B", 2, 0.25}, {"C", 3, 0.125}};                   \
        size_t order[3] = {0, 1, 2};                                                               \
        S other = start;                                                                           \
        int holds = nanorand_##G##_shuffle(&other, order, 3) == NANORAND_OK                        \
            && nanorand_##G##_shuffle_items(&start, cards, 3, sizeof cards[0]) == NANORAND_OK;     \
        for (size_t place = 0; place < 3; place++) {                                               \
            const int value = (int)order[place] + 1;                                               \
            holds = holds && cards[place].value == value && cards[place].name[0] == "ABC"[order[place]] \
                && cards[place].weight * (1 << value) == 1;                                        \
        }                                                                                          \
        check_items(#G, "structs", sizeof cards[0], holds);                                              \
    }                                                                                              \
                                                                                                   \
    static void all_##G(S start)                                                                   \
    {                                                                                              \
        sizes_##G(start);                                                                          \
        rests_##G(start);                                                                          \
        nothing_##G(start);                                                                        \
        structs_##G(start);                                                                        \
    }

TESTS(wyrand, nanorand_wyrand)
TESTS(pcg64, nanorand_pcg64)
TESTS(chacha8, nanorand_chacha)
TESTS(chacha12, nanorand_chacha)
TESTS(chacha20, nanorand_chacha)
TESTS(stream, nanorand_stream)
TESTS(keystream, nanorand_keystream)

int main(void)
{
    const uint8_t key[32] = {1, 2, 3}, nonce[8] = {4, 5, 6};
    all_wyrand(nanorand_wyrand_new_seed(42));
    all_pcg64(nanorand_pcg64_new_seed(5, 1));
    all_chacha8(nanorand_chacha_new_key(key, nonce));
    all_chacha12(nanorand_chacha_new_key(key, nonce));
    all_chacha20(nanorand_chacha_new_key(key, nonce));
    all_stream(nanorand_stream_new_key(key, nonce));
    all_keystream(nanorand_keystream_new_key(key, nonce));
    return finish();
}
