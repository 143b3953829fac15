/* Parts of the test programs: counted cases, and a comparison of two states of a generator. */
#ifndef CHECK_H
#define CHECK_H

#include <stdio.h>
#include <string.h>

#include "nanorand.h"

enum { AHEAD = 1025 };

static unsigned passed = 0;
static unsigned failed = 0;

static void check(const char *generator, const char *name, int holds)
{
    if (holds) {
        passed++;
    } else {
        failed++;
        printf("FAILED %s: %s\n", generator, name);
    }
}

/* Prints the counts, and returns the status of the program. */
static int finish(void)
{
    printf("%u passed, %u failed\n", passed, failed);
    return failed == 0 ? 0 : 1;
}

/* Whether two states of the generator G deliver the same bytes from here on. S is the type of its state. */
#define AGREE(G, S)                                                                                \
    static int agree_##G(S state, S other)                                                         \
    {                                                                                              \
        static uint8_t next[AHEAD], others[AHEAD];                                                 \
        nanorand_##G##_fill_bytes(&state, next, AHEAD);                                            \
        nanorand_##G##_fill_bytes(&other, others, AHEAD);                                          \
        return memcmp(next, others, AHEAD) == 0;                                                   \
    }

AGREE(wyrand, nanorand_wyrand)
AGREE(pcg64, nanorand_pcg64)
AGREE(chacha8, nanorand_chacha)
AGREE(chacha12, nanorand_chacha)
AGREE(chacha20, nanorand_chacha)
AGREE(stream, nanorand_stream)
AGREE(keystream, nanorand_keystream)

#endif
