/* Site percolation on square lattices: tasks that draw from parts of one random stream, and their sums. */
#ifndef PERCOLATION_H
#define PERCOLATION_H

#include <stdint.h>

enum { TASKS = 1000, SIDES = 4 };

/*
 * For the lattices of one side length: their number, the number of sites that are open when open sites first connect
 * top and bottom, and the squares of these numbers, each summed up. These are whole numbers, so their sums are the same
 * in any order.
 */
typedef struct sums {
    uint64_t lattices, sites, squares;
} sums;

/*
 * Adds the sums of the task with this index, for each side length. Returns the library's status: NANORAND_OK;
 * NANORAND_PAST_PERIOD if the stream has no such part, and then adds nothing; or NANORAND_EXHAUSTED if 128 words in a
 * row were rejected, and then what was added before stays.
 */
uint8_t add_task(uint64_t index, sums totals[SIDES]);

/* Prints for each side length the sums, the mean share of open sites, and its standard error. */
void print_table(const sums totals[SIDES]);

#endif
