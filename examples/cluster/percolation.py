"""Estimates the site percolation threshold of the square lattice, by 1000 tasks on Dask or by one plain loop.

The sites of a lattice are opened one by one, in random order, until open sites connect its top and its bottom. The mean
share of sites that are open then tends to the threshold, 0.592746, as lattices grow (Newman and Ziff, 2000).

Task i draws only from part i of one random stream, and its results are whole numbers. So the sum of all results is the
same to the last digit, whichever workers run the tasks, in any order, and even if some are repeated.
"""

import argparse

from dask.distributed import Client, progress
from nanorand import Pcg64

SEED = 2026
TASKS = 1000
SIDES = [8, 16, 32, 64]
# For each side length, a task shuffles SITES sites. A shuffle draws at most 128 words (64-bit random numbers) for each
# site, so no task leaves its part. The length of a part is odd, as docs/SCALE.md advises.
SITES = 4 * 64 * 64
DRAWS = len(SIDES) * SITES * 128 + 1


def task(index):
    """The sums for each side length, as `sums_of` returns them, from part `index` of the stream."""
    return sums_from(Pcg64(SEED).part(index, DRAWS))


def sums_from(rng):
    """The sums for each side length, drawn from this generator."""
    return [sums_of(rng, side) for side in SIDES]


def sums_of(rng, side):
    """The number of lattices, their open sites when first spanned, and the squares of these numbers, summed up."""
    order, neighbours = sites_of(side), neighbours_of(side)
    lattices = sites = squares = 0
    for _ in range(0, SITES, side * side):
        rng.shuffle(order)
        opened = sites_until_spanning(order, neighbours, side)
        lattices, sites, squares = lattices + 1, sites + opened, squares + opened * opened
    return lattices, sites, squares


def sites_of(side):
    """The sites, numbered row by row from `side` on, so that the edges above and below the lattice are rows as well."""
    return list(range(side, side * (side + 1)))


def neighbours_of(side):
    """The neighbours of each site: above, below, and in its row."""
    neighbours = {}
    for site in sites_of(side):
        beside = [near for near in (site - 1, site + 1) if near // side == site // side]
        neighbours[site] = [site - side, site + side, *beside]
    return neighbours


def sites_until_spanning(order, neighbours, side):
    """The number of open sites when open sites first connect the edges above and below, opened in this order."""
    above, below = 0, side + len(order)
    parents = [above] * side + [None] * len(order) + [below] * side  # a closed site has no parent
    for opened, site in enumerate(order, 1):
        parents[site] = site
        for neighbour in neighbours[site]:
            if parents[neighbour] is not None:
                parents[root_of(parents, neighbour)] = root_of(parents, site)
        if root_of(parents, above) == root_of(parents, below):
            return opened


def root_of(parents, site):
    """The root of the site's cluster. The search shortens the path for the next one (path halving)."""
    while parents[site] != site:
        parents[site] = parents[parents[site]]
        site = parents[site]
    return site


def plain(tasks):
    """The same results from one loop over one generator, which moves ahead by `DRAWS` draws for each task."""
    rng, results = Pcg64(SEED), []
    for _ in range(tasks):
        results.append(sums_from(rng.copy()))
        rng.jump(DRAWS)
    return results


def by_dask(client, tasks):
    """The results of the tasks, computed by the workers of a cluster."""
    futures = client.map(task, range(tasks))
    progress(futures)
    return client.gather(futures)


def client_of(scheduler, workers):
    """A client of the cluster whose scheduler has this address, or of `workers` local processes."""
    if scheduler:
        return Client(scheduler)
    here = "127.0.0.1:0"  # the dashboards are only for this machine
    return Client(n_workers=workers, threads_per_worker=1, dashboard_address=here, worker_dashboard_address=here)


def added(results):
    """The sums of all results."""
    return [tuple(map(sum, zip(*of_side))) for of_side in zip(*results)]


def estimate(side, lattices, sites, squares):
    """The mean share of open sites, and its standard error."""
    mean = sites / lattices
    error = ((squares / lattices - mean**2) / lattices) ** 0.5
    return mean / side**2, error / side**2


def print_table(totals):
    print("side  lattices     sites      squares  estimate")
    for side, (lattices, sites, squares) in zip(SIDES, totals):
        mean, error = estimate(side, lattices, sites, squares)
        print(f"{side:4} {lattices:9} {sites:9} {squares:12}  {mean:.5f} +- {error:.5f}")


def arguments():
    parser = argparse.ArgumentParser(description="Estimates the site percolation threshold of the square lattice.")
    parser.add_argument("--plain", action="store_true", help="run one loop over one generator, without Dask")
    parser.add_argument("--scheduler", metavar="ADDRESS", help="a cluster's scheduler, such as tcp://scheduler:8786")
    parser.add_argument("--workers", type=int, default=4, help="how many local processes there are without a scheduler")
    parser.add_argument("--tasks", type=int, default=TASKS, help="how many tasks there are")
    parser.add_argument("--picture", metavar="FILE", help="draw the estimates into this file")
    return parser.parse_args()


def main():
    given = arguments()
    if given.plain:
        results = plain(given.tasks)
    else:
        with client_of(given.scheduler, given.workers) as client:
            results = by_dask(client, given.tasks)
    totals = added(results)
    print_table(totals)
    if given.picture:
        import picture

        picture.draw(totals, given.picture)


if __name__ == "__main__":
    main()
