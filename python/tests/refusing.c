/*
 * A library that replaces nanorand's and returns error statuses, which nanorand's own calls return in fewer than one of
 * 2^128 draws.
 *
 * The first byte of a state is the status that its draws return, and the second byte counts the draws that succeed
 * before. The third byte counts the draws that returned the status. refusals.py tests how the Python package reacts.
 *
 * Words that are drawn by fill_bytes reject themselves: a word of zeros names no number of a range whose size is not a
 * power of two. The bytes 4 to 7 of a state are the position in the bytes that it fills, as a number of 32 bits in
 * little-endian order. The bytes before 16 * the second byte are 0x77, and zeros follow, unless the status is 0.
 */
#include "nanorand.h"

#include <stdlib.h>
#include <string.h>

/* Counts a draw. */
static nanorand_status drawn(void *state)
{
    uint8_t *bytes = state;
    if (bytes[1] > 0) {
        bytes[1]--;
        return NANORAND_OK;
    }
    bytes[2]++;
    return bytes[0];
}

static nanorand_status permuted(void *state, size_t *items, size_t length)
{
    size_t first = items[0];
    items[0] = items[length - 1];
    items[length - 1] = first;
    return drawn(state);
}

#define RANGE(name, state_type, size, number_type)                                                           \
    nanorand_status nanorand_##name##_range_##size(state_type *state, number_type first, number_type last,   \
                                           number_type *number)                                              \
    {                                                                                                        \
        nanorand_status status = drawn(state);                                                               \
        if (status == NANORAND_OK) {                                                                         \
            *number = first + (last - first) / 2;                                                            \
        }                                                                                                    \
        return status;                                                                                       \
    }

/* Fills bytes. A request takes a multiple of `block` bytes. */
static void fill(void *state, uint8_t *buffer, size_t length, size_t block)
{
    uint8_t *bytes = state;
    uint32_t position;
    memcpy(&position, bytes + 4, sizeof position);
    size_t end = 16 * (size_t)bytes[1], good = position < end ? end - position : 0;
    if (bytes[0] == NANORAND_OK || good > length) {
        good = length;
    }
    memset(buffer, 0x77, good);
    memset(buffer + good, 0, length - good);
    position += (uint32_t)((length + block - 1) / block * block);
    memcpy(bytes + 4, &position, sizeof position);
}

#define GENERATOR(name, state_type, block)                                                                   \
    void nanorand_##name##_seed_from_u64(state_type *state, uint64_t number)                                 \
    {                                                                                                        \
        memcpy(state, &number, sizeof number);                                                               \
    }                                                                                                        \
    uint64_t nanorand_##name##_u64(state_type *state)                                                        \
    {                                                                                                        \
        return drawn(state);                                                                                 \
    }                                                                                                        \
    void nanorand_##name##_fill_bytes(state_type *state, uint8_t *buffer, size_t length)                     \
    {                                                                                                        \
        fill(state, buffer, length, block);                                                                  \
    }                                                                                                        \
    RANGE(name, state_type, u32, uint32_t)                                                                   \
    RANGE(name, state_type, u64, uint64_t)                                                                   \
    RANGE(name, state_type, i64, int64_t)                                                                    \
    nanorand_status nanorand_##name##_shuffle(state_type *state, size_t *items, size_t length)               \
    {                                                                                                        \
        return permuted(state, items, length);                                                               \
    }                                                                                                        \
    nanorand_status nanorand_##name##_shuffle_full(state_type *state, size_t *items, size_t length)          \
    {                                                                                                        \
        return permuted(state, items, length);                                                               \
    }                                                                                                        \
    nanorand_status nanorand_##name##_extend_sample(state_type *state, size_t population, size_t *places,    \
                                                    size_t wanted, size_t filled, size_t *table, size_t room) \
    {                                                                                                        \
        (void)population, (void)table, (void)room;                                                           \
        memset(places + filled, 0, (wanted - filled) * sizeof *places);                                      \
        return drawn(state);                                                                                 \
    }                                                                                                        \
    nanorand_status nanorand_##name##_part(state_type *state, uint64_t index, uint64_t draws)                \
    {                                                                                                        \
        (void)index, (void)draws;                                                                            \
        return drawn(state);                                                                                 \
    }

#define BLOCK(name)                                                                                          \
    void nanorand_##name##_block(nanorand_chacha *state, uint8_t out[64])                                    \
    {                                                                                                        \
        memset(out, drawn(state), 64);                                                                       \
    }

GENERATOR(wyrand, nanorand_wyrand, 8)
GENERATOR(pcg64, nanorand_pcg64, 8)
GENERATOR(chacha8, nanorand_chacha, 64)
GENERATOR(chacha12, nanorand_chacha, 64)
GENERATOR(chacha20, nanorand_chacha, 64)
GENERATOR(keystream, nanorand_keystream, 1)
BLOCK(chacha8)
BLOCK(chacha12)
BLOCK(chacha20)

void nanorand_wyrand_jump(nanorand_wyrand *rng, uint64_t draws)
{
    rng->seed += draws;
}

void nanorand_pcg64_jump(nanorand_pcg64 *rng, const nanorand_pcg64 *draws)
{
    rng->low += draws->low;
}

uint64_t nanorand_wyrand_distance(const nanorand_wyrand *rng, const nanorand_wyrand *other)
{
    return other->seed - rng->seed;
}

/* The first byte of the other state is the status. */
nanorand_status nanorand_pcg64_distance(const nanorand_pcg64 *rng, const nanorand_pcg64 *other, nanorand_pcg64 *draws)
{
    draws->low = other->low - rng->low;
    draws->high = 0;
    return (nanorand_status)(uint8_t)other->low;
}

/* In place of a digest it returns the length. */
void nanorand_lots_digest(const uint8_t *text, size_t length, uint8_t digest[32])
{
    (void)text;
    memset(digest, 0, 32);
    memcpy(digest, &length, sizeof length);
}

/* The first byte of the list is the status, and its length the number. */
nanorand_lots_status nanorand_lots_count(const uint8_t *list, size_t length, size_t *number)
{
    *number = length;
    return list[0];
}

/* The first byte of the seed is the status. */
nanorand_lots_status nanorand_lots_draw(const uint8_t *seed, size_t seed_length, size_t *places, size_t population,
                                        size_t wanted)
{
    (void)wanted;
    memset(places, 0, population * sizeof *places);
    return seed_length == 0 ? NANORAND_LOTS_OK : seed[0];
}

/* Returns the variable NANORAND_TEST_VERSION, or else the version in the header. */
uint32_t nanorand_version(void)
{
    const char *version = getenv("NANORAND_TEST_VERSION");
    return version == NULL ? NANORAND_VERSION : (uint32_t)strtoul(version, NULL, 10);
}
