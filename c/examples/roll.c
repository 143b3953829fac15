/* Rolls a die. Each run prints the same. */
#include <inttypes.h>
#include <stdio.h>

#include "nanorand.h"

int main(void)
{
    nanorand_wyrand rng;
    nanorand_wyrand_seed_from_u64(&rng, 42);
    uint64_t pips = 1 + nanorand_wyrand_below(&rng, 6);
    printf("You rolled %" PRIu64 ".\n", pips);
    return 0;
}
