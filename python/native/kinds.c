/* The kinds of generators: for each of them a table of its functions of nanorand.h, with uniform types. */
#include "native.h"

#include <string.h>

/* Wraps a function of nanorand.h to take its state as a `void *`: FUNCTION with a result, PROCEDURE without one. */
#define FUNCTION(result, name, call, parameters, arguments)                                                   \
    static result name##_##call parameters                                                                    \
    {                                                                                                         \
        return nanorand_##name##_##call arguments;                                                            \
    }
#define PROCEDURE(name, call, parameters, arguments)                                                          \
    static void name##_##call parameters                                                                      \
    {                                                                                                         \
        nanorand_##name##_##call arguments;                                                                   \
    }
#define RANGE(name, call, type)                                                                               \
    FUNCTION(nanorand_status, name, call, (void *state, type first, type last, type *number),                 \
             (state, first, last, number))

/* The functions that every kind has. */
#define FUNCTIONS(name)                                                                                       \
    PROCEDURE(name, seed_from_u64, (void *state, uint64_t number), (state, number))                           \
    FUNCTION(uint64_t, name, u64, (void *state), (state))                                                     \
    PROCEDURE(name, fill_bytes, (void *state, uint8_t *buffer, size_t length), (state, buffer, length))       \
    RANGE(name, range_u32, uint32_t)                                                                          \
    RANGE(name, range_u64, uint64_t)                                                                          \
    RANGE(name, range_i64, int64_t)                                                                           \
    FUNCTION(nanorand_status, name, shuffle, (void *state, size_t *items, size_t length),                     \
             (state, items, length))                                                                          \
    FUNCTION(nanorand_status, name, shuffle_full, (void *state, size_t *items, size_t length),                \
             (state, items, length))                                                                          \
    FUNCTION(nanorand_status, name, extend_sample,                                                            \
             (void *state, size_t population, size_t *places, size_t wanted, size_t filled, size_t *table,    \
              size_t room),                                                                                   \
             (state, population, places, wanted, filled, table, room))                                        \
    FUNCTION(nanorand_status, name, part, (void *state, uint64_t index, uint64_t draws), (state, index, draws))

#define BLOCKS(name) PROCEDURE(name, block, (void *state, uint8_t *block), (state, block))

#define TABLE(name)                                                                                           \
    .seed = name##_seed_from_u64, .u64 = name##_u64, .fill_bytes = name##_fill_bytes,                         \
    .range_u32 = name##_range_u32, .range_u64 = name##_range_u64, .range_i64 = name##_range_i64,              \
    .shuffle = name##_shuffle, .shuffle_full = name##_shuffle_full, .extend_sample = name##_extend_sample,    \
    .part = name##_part

/* For a kind whose state, as bytes, is its structure. */
#define PLAIN(structure)                                                                                      \
    .size = sizeof(structure), .shortest = sizeof(structure), .longest = sizeof(structure), .save = save_plain, \
    .load = load_plain

static size_t save_plain(const void *state, size_t size, uint8_t *bytes)
{
    memcpy(bytes, state, size);
    return size;
}

static void load_plain(void *state, const uint8_t *bytes, size_t length)
{
    memcpy(state, bytes, length);
}

/*
 * The library computes eight blocks at once and buffers them. In the saved state, a whole buffered block counts as not
 * yet computed: the counter is that of the first such block, and only the rest of a block is saved as buffered.
 */
static size_t save_stream(const void *state, size_t size, uint8_t *bytes)
{
    nanorand_keystream stream;
    memcpy(&stream, state, size);
    size_t rest = stream.buffered % 64;
    const uint8_t *first = stream.group + sizeof stream.group - stream.buffered;
    stream.chacha.counter -= stream.buffered / 64;
    memcpy(bytes, &stream.chacha, sizeof stream.chacha);
    memcpy(bytes + sizeof stream.chacha, first, rest);
    return sizeof stream.chacha + rest;
}

static void load_stream(void *state, const uint8_t *bytes, size_t length)
{
    nanorand_keystream stream = {.buffered = length - sizeof stream.chacha};
    memcpy(&stream.chacha, bytes, sizeof stream.chacha);
    memcpy(stream.group + sizeof stream.group - stream.buffered, bytes + sizeof stream.chacha, stream.buffered);
    memcpy(state, &stream, sizeof stream);
}

FUNCTIONS(wyrand)
FUNCTIONS(pcg64)
FUNCTIONS(chacha8)
FUNCTIONS(chacha12)
FUNCTIONS(chacha20)
FUNCTIONS(keystream)
BLOCKS(chacha8)
BLOCKS(chacha12)
BLOCKS(chacha20)

/* The system provides the key and the nonce; the counter is 0. */
enum { KEY_AND_NONCE = 40 };

#define SEEDED(class_name, generator)                                                                         \
    {                                                                                                         \
        .name = class_name, PLAIN(nanorand_##generator), TABLE(generator),                                    \
        .entropy = sizeof(nanorand_##generator), .block_length = 8, .correlated = 1,                          \
    }
#define CHACHA(class_name, generator)                                                                         \
    {                                                                                                         \
        .name = class_name, PLAIN(nanorand_chacha), TABLE(generator), .entropy = KEY_AND_NONCE,               \
        .block_length = 64, .block = generator##_block,                                                       \
    }

const Kind wyrand_kind = SEEDED("WyRand", wyrand);
const Kind pcg64_kind = SEEDED("Pcg64", pcg64);
const Kind chacha8_kind = CHACHA("ChaCha8", chacha8);
const Kind chacha12_kind = CHACHA("ChaCha12", chacha12);
const Kind chacha20_kind = CHACHA("ChaCha20", chacha20);
const Kind stream_kind = {
    .name = "Stream",
    TABLE(keystream),
    .size = sizeof(nanorand_keystream),
    .shortest = sizeof(nanorand_chacha),
    .longest = LONGEST_STATE,
    .entropy = KEY_AND_NONCE,
    .save = save_stream,
    .load = load_stream,
};
