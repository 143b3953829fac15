/* Runs COUNT tasks of the percolation threshold from task FIRST on, as a job of a job array: job FIRST COUNT. */
#include <inttypes.h>
#include <stdio.h>
#include <stdlib.h>

#include "nanorand.h"
#include "percolation.h"

int main(int argc, char **argv)
{
    sums totals[SIDES] = {{0, 0, 0}};
    if (argc != 3) {
        fprintf(stderr, "usage: job FIRST COUNT\n");
        return 2;
    }
    const uint64_t first = strtoull(argv[1], NULL, 10), count = strtoull(argv[2], NULL, 10);
    for (uint64_t i = 0; i < count; i++) {
        uint8_t status = add_task(first + i, totals);
        if (status != NANORAND_OK) {
            fprintf(stderr, "job: task %" PRIu64 " failed with status %d\n", first + i, status);
            return 1;
        }
    }
    print_table(totals);
    return 0;
}
