/*
 * Fills bytes by each generator and prints their SHA-256. c/tests/install.sh runs it on several processors, on which it
 * must print the same.
 */
#include <stdio.h>
#include <string.h>

#include "nanorand.h"

static uint8_t bytes[5000], digest[32];

#define FILL(generator, state)                                                                                         \
    do {                                                                                                               \
        state rng;                                                                                                     \
        memset(&rng, 0, sizeof rng);                                                                                   \
        nanorand_##generator##_seed_from_u64(&rng, 42);                                                                \
        nanorand_##generator##_fill_bytes(&rng, bytes, sizeof bytes);                                                  \
        nanorand_lots_digest(bytes, sizeof bytes, digest);                                                             \
        for (size_t place = 0; place < sizeof digest; place++) {                                                       \
            printf("%02x", digest[place]);                                                                             \
        }                                                                                                              \
        printf(" " #generator "\n");                                                                                   \
    } while (0)

int main(void)
{
    FILL(wyrand, nanorand_wyrand);
    FILL(pcg64, nanorand_pcg64);
    FILL(chacha8, nanorand_chacha);
    FILL(chacha12, nanorand_chacha);
    FILL(chacha20, nanorand_chacha);
    FILL(stream, nanorand_stream);
    FILL(keystream, nanorand_keystream);
    return 0;
}
