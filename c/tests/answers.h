/* Parts of answers.c: counted rows, guarded arrays, and the table's states. */
#ifndef ANSWERS_H
#define ANSWERS_H

#include <stdio.h>
#include <string.h>

#include "nanorand.h"

enum { MOST = 1 << 12, GUARD = 0xee };

static unsigned passed = 0;
static unsigned failed = 0;

/* Byte arrays begin at an odd address. */
static uint8_t bytes[MOST + 16];
static uint8_t *const odd_bytes = bytes + 1;
static size_t items[MOST + 2];
static size_t *const inner_items = items + 1;
static size_t table[MOST]; /* The table for drawing a sample. It begins with what the last call left. */

static void check(unsigned row, const char *generator, const char *call, int holds)
{
    if (holds) {
        passed++;
    } else {
        failed++;
        printf("FAILED row %u: %s, %s\n", row, generator, call);
    }
}

static void begin(size_t count)
{
    memset(bytes, GUARD, sizeof bytes);
    memset(items, GUARD, sizeof items);
    for (size_t place = 0; place < count; place++) {
        inner_items[place] = place;
    }
}

/* Whether the first `length` bytes are the wanted ones, and the bytes around them were not written. */
static int bytes_are(const uint8_t *wanted, size_t length)
{
    return bytes[0] == GUARD && odd_bytes[length] == GUARD
        && (length == 0 || memcmp(odd_bytes, wanted, length) == 0);
}

static int items_are(const size_t *wanted, size_t length)
{
    size_t guard;
    memset(&guard, GUARD, sizeof guard);
    return items[0] == guard && inner_items[length] == guard
        && (length == 0 || memcmp(inner_items, wanted, length * sizeof *wanted) == 0);
}

/* Whether none of the first `length` items was written. */
static int are_untouched(size_t length)
{
    const uint8_t *inner = (const uint8_t *)inner_items;
    for (size_t place = 0; place < length * sizeof *items; place++) {
        if (inner[place] != GUARD) {
            return 0;
        }
    }
    return 1;
}

static uint64_t number_of(const uint8_t *from)
{
    uint64_t number = 0;
    for (int place = 7; place >= 0; place--) {
        number = number << 8 | from[place];
    }
    return number;
}

static nanorand_wyrand wyrand_of(const uint8_t *from, size_t length)
{
    nanorand_wyrand state;
    (void)length;
    state.seed = number_of(from);
    return state;
}

static int same_wyrand(const nanorand_wyrand *one, const nanorand_wyrand *other)
{
    return one->seed == other->seed;
}

static nanorand_pcg64 pcg64_of(const uint8_t *from, size_t length)
{
    nanorand_pcg64 state;
    (void)length;
    state.low = number_of(from);
    state.high = number_of(from + 8);
    return state;
}

static int same_pcg64(const nanorand_pcg64 *one, const nanorand_pcg64 *other)
{
    return one->low == other->low && one->high == other->high;
}

static nanorand_chacha chacha_of(const uint8_t *from, size_t length)
{
    nanorand_chacha state;
    (void)length;
    memcpy(state.key, from, 32);
    memcpy(state.nonce, from + 32, 8);
    state.counter = number_of(from + 40);
    return state;
}

static int same_chacha(const nanorand_chacha *one, const nanorand_chacha *other)
{
    return memcmp(one->key, other->key, 32) == 0 && memcmp(one->nonce, other->nonce, 8) == 0
        && one->counter == other->counter;
}

/* A state of the table. The bytes of the block before the buffered ones do not count. */
static nanorand_stream stream_of(const uint8_t *from, size_t length)
{
    nanorand_stream state;
    memset(&state, GUARD, sizeof state);
    state.chacha = chacha_of(from, length);
    state.buffered = length - 48;
    memcpy(state.block + 64 - (length - 48), from + 48, length - 48);
    return state;
}

static int same_stream(const nanorand_stream *one, const nanorand_stream *other)
{
    return same_chacha(&one->chacha, &other->chacha) && one->buffered == other->buffered
        && memcmp(one->block + 64 - one->buffered, other->block + 64 - other->buffered,
                  (size_t)one->buffered) == 0;
}

static nanorand_keystream keystream_of(const uint8_t *from, size_t length)
{
    nanorand_keystream state;
    memset(&state, GUARD, sizeof state);
    state.chacha = chacha_of(from, length);
    state.buffered = length - 48;
    memcpy(state.group + 512 - (length - 48), from + 48, length - 48);
    return state;
}

/*
 * Whether both deliver the same bytes next. One may have whole blocks buffered that the counter of the
 * other has not reached yet.
 */
static int same_keystream(const nanorand_keystream *one, const nanorand_keystream *other)
{
    nanorand_chacha mine = one->chacha, its = other->chacha;
    mine.counter -= one->buffered / 64;
    its.counter -= other->buffered / 64;
    return same_chacha(&mine, &its) && one->buffered % 64 == other->buffered % 64
        && memcmp(one->group + 512 - one->buffered, other->group + 512 - other->buffered,
                  (size_t)(one->buffered % 64)) == 0;
}

#endif
