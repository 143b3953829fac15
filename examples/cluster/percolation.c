/* The tasks of percolation.py, in C. The same parts of the same stream produce the same sums. */
#include "percolation.h"

#include <inttypes.h>
#include <math.h>
#include <stdio.h>

#include "nanorand.h"

static const nanorand_pcg64 seed = {2026, 0};
static const size_t sides[SIDES] = {8, 16, 32, 64};

/*
 * For each side length, a task shuffles SITES sites. A shuffle draws at most 128 words (64-bit random numbers) for each
 * site, so no task leaves its part. The length of a part is odd, as docs/SCALE.md advises.
 */
enum { SITES = 4 * 64 * 64, LARGEST = 64, DRAWS = SIDES * SITES * 128 + 1 };

/*
 * The sites of a lattice are numbered row by row from `side` on, so that the edges above and below it are rows as well.
 * The parents of an open site lead to the root of its cluster. A closed site has no parent.
 */
static const size_t CLOSED = SIZE_MAX;

static size_t root_of(size_t *parents, size_t site)
{
    while (parents[site] != site) {
        parents[site] = parents[parents[site]];
        site = parents[site];
    }
    return site;
}

static void join(size_t *parents, size_t site, size_t neighbour)
{
    if (parents[neighbour] != CLOSED) {
        parents[root_of(parents, neighbour)] = root_of(parents, site);
    }
}

static void open_site(size_t *parents, size_t side, size_t site)
{
    parents[site] = site;
    join(parents, site, site - side);
    join(parents, site, site + side);
    if (site % side != 0) {
        join(parents, site, site - 1);
    }
    if (site % side != side - 1) {
        join(parents, site, site + 1);
    }
}

/* The number of open sites when open sites first connect top and bottom, if they are opened in this order. */
static uint64_t sites_until_spanning(const size_t *order, size_t side)
{
    size_t parents[LARGEST * (LARGEST + 2)];
    const size_t top = 0, bottom = side * (side + 1);
    for (size_t site = 0; site < side * (side + 2); site++) {
        parents[site] = site < side ? top : site < bottom ? CLOSED : bottom;
    }
    uint64_t opened = 0;
    while (root_of(parents, top) != root_of(parents, bottom)) {
        open_site(parents, side, order[opened]);
        opened++;
    }
    return opened;
}

/* Adds the lattices of one side length that a task fills. Each shuffle starts from the order before it. */
static uint8_t add_lattices(nanorand_pcg64 *rng, size_t side, sums *total)
{
    size_t order[LARGEST * LARGEST];
    const size_t count = side * side;
    for (size_t i = 0; i < count; i++) {
        order[i] = side + i;
    }
    for (size_t shuffled = 0; shuffled < SITES; shuffled += count) {
        uint8_t status = nanorand_pcg64_shuffle(rng, order, count);
        if (status != NANORAND_OK) {
            return status;
        }
        uint64_t sites = sites_until_spanning(order, side);
        total->lattices += 1;
        total->sites += sites;
        total->squares += sites * sites;
    }
    return NANORAND_OK;
}

uint8_t add_task(uint64_t index, sums totals[SIDES])
{
    nanorand_pcg64 rng = seed;
    uint8_t status = nanorand_pcg64_part(&rng, index, DRAWS);
    for (size_t i = 0; i < SIDES && status == NANORAND_OK; i++) {
        status = add_lattices(&rng, sides[i], &totals[i]);
    }
    return status;
}

void print_table(const sums totals[SIDES])
{
    printf("side  lattices     sites      squares  estimate\n");
    for (size_t i = 0; i < SIDES; i++) {
        const double count = (double)totals[i].lattices, area = (double)(sides[i] * sides[i]);
        const double mean = (double)totals[i].sites / count;
        const double error = sqrt(((double)totals[i].squares / count - mean * mean) / count);
        printf("%4zu %9" PRIu64 " %9" PRIu64 " %12" PRIu64 "  %.5f +- %.5f\n", sides[i], totals[i].lattices,
               totals[i].sites, totals[i].squares, mean / area, error / area);
    }
}
