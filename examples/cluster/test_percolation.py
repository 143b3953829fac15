"""Tests percolation.py: its parts, its lattices, its picture, and Dask when a worker is killed.

tests/cluster.sh runs it in the folder of the C program `job`, which has to compute the same sums, and of the picture
first.svg, which percolation.py has drawn of the first 40 tasks.
"""

import heapq
import json
import os
import random
import re
import signal
import subprocess
import sys
import tempfile
import time
import unittest
from pathlib import Path
from unittest import mock

import matplotlib
import percolation
import picture
import psutil
from dask.distributed import Client
from nanorand import PastPeriod, Pcg64

HERE = Path(__file__).parent
TABLE = (HERE / "percolation.out").read_text(encoding="utf-8")
# The time in seconds that a process may take on a busy machine.
PATIENCE = 300


def table_by_job(first, count):
    """The table that the C program prints for the tasks."""
    return subprocess.run(["./job", str(first), str(count)], check=True, stdout=subprocess.PIPE, text=True).stdout


def sums_in(table):
    """The sums for each side length in a table."""
    return [tuple(map(int, line.split()[1:4])) for line in table.splitlines()[1:]]


def by_job(first, count):
    """The sums of the tasks, computed by the C program."""
    return sums_in(table_by_job(first, count))


def percent(bar):
    """The percentage that a progress bar showed last."""
    shown = re.findall(r"(\d+)% Completed", bar)
    return int(shown[-1]) if shown else 0


def ended(process):
    """Ends a process that the test has started, if it still runs."""
    process.kill()
    process.communicate()


class Tasks(unittest.TestCase):
    def test_in_any_order_and_twice(self):
        chosen = [0, 1, 2, 3, 500, 998, 999, 2**32, 2**63, 2**64 - 1]
        order = chosen * 2
        random.Random(1).shuffle(order)
        for index in order:
            with self.subTest(index=index):
                self.assertEqual(percolation.task(index), by_job(index, 1))

    def test_results_added_in_any_order(self):
        results = [percolation.task(index) for index in range(20)]
        random.Random(2).shuffle(results)
        self.assertEqual(percolation.added(results), by_job(0, 20))

    def test_tasks_differ(self):
        results = [tuple(by_job(index, 1)) for index in range(200)]
        self.assertEqual(len(set(results)), len(results))


class Parts(unittest.TestCase):
    def test_each_part_begins_where_the_one_before_it_ends(self):
        for index in [0, 1, 998, 2**63]:
            rng = Pcg64(percolation.SEED).part(index, percolation.DRAWS)
            rng.jump(percolation.DRAWS)
            self.assertEqual(rng, Pcg64(percolation.SEED).part(index + 1, percolation.DRAWS))

    def test_no_task_can_leave_its_part(self):
        class Counting:
            shuffled = 0

            def shuffle(self, items):
                self.shuffled += len(items)
                Pcg64(self.shuffled).shuffle(items)

        rng = Counting()
        for side in percolation.SIDES:
            percolation.sums_of(rng, side)
        self.assertEqual(128 * rng.shuffled + 1, percolation.DRAWS)

    def test_a_part_past_the_period_is_refused(self):
        draws, percolation.DRAWS = percolation.DRAWS, 2**64 - 1
        try:
            percolation.task(2**61)
            with self.assertRaises(PastPeriod):
                percolation.task(2**62)
        finally:
            percolation.DRAWS = draws


def last_of_best_path(order, side):
    """The least n such that the first n sites connect top and bottom, by Dijkstra's algorithm."""
    rank = {site: place for place, site in enumerate(order, 1)}
    heap = [(rank[site], site) for site in range(side, 2 * side)]
    heapq.heapify(heap)
    reached = set()
    while True:
        last, site = heapq.heappop(heap)
        if site // side == side:
            return last
        if site in reached:
            continue
        reached.add(site)
        for near, joined in [(site - side, True), (site + side, True), (site - 1, site % side > 0),
                             (site + 1, (site + 1) % side > 0)]:
            if joined and near in rank:
                heapq.heappush(heap, (max(last, rank[near]), near))


class Lattices(unittest.TestCase):
    def test_the_best_path_has_the_last_site(self):
        rng = Pcg64(1)
        for side, count in [(1, 1), (2, 50), (3, 50), (8, 50), (64, 3)]:
            order, neighbours = percolation.sites_of(side), percolation.neighbours_of(side)
            for _ in range(count):
                rng.shuffle(order)
                found = percolation.sites_until_spanning(order, neighbours, side)
                self.assertEqual(found, last_of_best_path(order, side))

    def test_neighbours_are_mutual_and_within_the_lattice(self):
        for side in percolation.SIDES:
            neighbours = percolation.neighbours_of(side)
            pairs = {(site, near) for site in neighbours for near in neighbours[site] if near in neighbours}
            self.assertEqual(pairs, {(near, site) for site, near in pairs})
            self.assertEqual(len(pairs), 4 * side * (side - 1))


class Estimate(unittest.TestCase):
    def test_it_is_near_the_published_threshold(self):
        *_, (side, lattices, sites, squares) = [map(int, line.split()[:4]) for line in TABLE.splitlines()[1:]]
        mean, error = percolation.estimate(side, lattices, sites, squares)
        self.assertLess(abs(mean - 0.592746), 2 * error)


class Arguments(unittest.TestCase):
    def test_all_tasks_by_four_workers(self):
        with mock.patch.object(sys, "argv", ["percolation.py"]):
            given = percolation.arguments()
        self.assertEqual((given.tasks, given.workers, percolation.TASKS), (1000, 4, 1000))


class Pictures(unittest.TestCase):
    def test_the_committed_one(self):
        """It shows the committed sums, if this version of Matplotlib drew it."""
        committed = (HERE.parents[1] / "docs/percolation.svg").read_bytes()
        version = f"Matplotlib v{matplotlib.__version__}"
        if f"{version},".encode() not in committed:
            self.skipTest(f"{version} did not draw the picture of the estimates")
        picture.draw(sums_in(TABLE), "all.svg")
        self.assertEqual(Path("all.svg").read_bytes(), committed)

    def test_the_one_of_some_tasks(self):
        """The option --picture draws the sums that are printed."""
        picture.draw(by_job(0, 40), "wanted.svg")
        self.assertEqual(Path("first.svg").read_bytes(), Path("wanted.svg").read_bytes())


class JobArray(unittest.TestCase):
    def test_a_failed_job_fails_the_array(self):
        with tempfile.TemporaryDirectory() as room:
            Path(room, "lib").symlink_to(Path("lib").resolve())
            job = Path(room, "job")
            job.write_text("#!/bin/sh\necho side\ntest $1 -ne 300\n", encoding="utf-8")
            job.chmod(0o755)
            run = subprocess.run([HERE / "run", "array"], env={**os.environ, "ROOM": room}, stdout=subprocess.PIPE)
            self.assertNotEqual(run.returncode, 0)
            self.assertEqual(run.stdout, b"")

    def test_a_file_without_a_table_is_refused(self):
        with tempfile.TemporaryDirectory() as folder:
            whole, failed = Path(folder, "whole"), Path(folder, "failed")
            whole.write_text(TABLE, encoding="utf-8")
            for text in ["", "job: task 7 failed with status 2\n"]:
                failed.write_text(text, encoding="utf-8")
                for files in [[whole, failed], [failed, whole], [failed]]:
                    added = subprocess.run(["awk", "-f", HERE / "sum.awk", *files], capture_output=True)
                    self.assertEqual((added.returncode, added.stdout), (1, b""))
                    self.assertIn(f"{len(files) - 1} of {len(files)} files".encode(), added.stderr)


class LocalWorkers(unittest.TestCase):
    def test_there_are_as_many_as_asked_for(self):
        for count in [1, 3]:
            with percolation.client_of(None, count) as client:
                client.wait_for_workers(count, timeout=PATIENCE)
                workers = client.scheduler_info()["workers"].values()
                self.assertEqual([worker["nthreads"] for worker in workers], [1] * count)

    def test_all_that_listens_is_of_this_machine_alone(self):
        with percolation.client_of(None, 2) as client:
            client.wait_for_workers(2, timeout=PATIENCE)
            processes = [psutil.Process(), *psutil.Process().children(recursive=True)]
            sockets = [socket for process in processes for socket in process.connections("inet")]
            listening = [socket.laddr.ip for socket in sockets if socket.status == psutil.CONN_LISTEN]
            self.assertGreater(len(listening), 2)
            self.assertEqual(set(listening), {"127.0.0.1"})


class KilledWorker(unittest.TestCase):
    """Dask with a scheduler and two workers. One of them is killed while it has results and more tasks to run."""

    TASKS = 100

    def start(self, *arguments, **options):
        process = subprocess.Popen([sys.executable, *arguments], text=True, **options)
        self.addCleanup(ended, process)
        return process

    def server(self, module, *arguments):
        """Starts a scheduler or a worker. It can import nanorand but not percolation.py, as on another machine."""
        return self.start("-m", f"distributed.cli.{module}", "--scheduler-file", "scheduler.json", "--host",
                          "127.0.0.1", "--dashboard-address", "127.0.0.1:0", *arguments, stderr=subprocess.DEVNULL)

    def address(self):
        """The scheduler's address, which it writes once it listens."""
        for _ in range(10 * PATIENCE):
            try:
                return json.loads(Path("scheduler.json").read_text(encoding="utf-8"))["address"]
            except (FileNotFoundError, json.JSONDecodeError):
                time.sleep(0.1)
        self.fail("the scheduler does not listen")

    def wait_for(self, wanted, process):
        """Reads the progress bar of a process until it shows at least `wanted` percent. Returns what it shows."""
        bar = ""
        while percent(bar) < wanted:
            read = process.stdout.read(1)
            self.assertTrue(read, bar)
            bar += read
        return percent(bar)

    def test_a_killed_worker_changes_no_sum(self):
        Path("scheduler.json").unlink(missing_ok=True)
        self.server("dask_scheduler", "--port", "0")
        address = self.address()
        workers = [self.server("dask_worker", "--no-nanny", "--nthreads", "1") for _ in range(2)]
        with Client(address, timeout=PATIENCE) as client:
            client.wait_for_workers(2, timeout=PATIENCE)
            run = self.start(str(HERE / "percolation.py"), "--scheduler", address, "--tasks", str(self.TASKS),
                             stdout=subprocess.PIPE)
            self.assertLess(self.wait_for(20, run), 100)
            workers[0].kill()
            self.assertEqual(workers[0].wait(PATIENCE), -signal.SIGKILL)
            self.assertIsNone(run.poll())
            printed, _ = run.communicate(timeout=PATIENCE)
            self.assertEqual(printed[printed.index("side"):], table_by_job(0, self.TASKS))
            self.assertGreater(client.run_on_scheduler(results_finished), self.TASKS)


def results_finished(dask_scheduler):
    """The number of results that a scheduler received. It exceeds the number of tasks if lost ones were repeated."""
    return sum(finish == "memory" for key, start, finish, *_ in dask_scheduler.transition_log)


if __name__ == "__main__":
    unittest.main()
