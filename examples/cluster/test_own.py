"""Tests the programs of the README's section "Your own simulation", and what it says of draws.

tests/cluster.sh runs it. Its working folder is a folder for what it writes.
"""

import array
import os
import re
import runpy
import subprocess
import sys
import unittest
from pathlib import Path

from nanorand import Pcg64, WyRand

README = Path(__file__).with_name("README.md").read_text(encoding="utf-8")
SCALE = (Path(__file__).parents[2] / "docs/SCALE.md").read_text(encoding="utf-8")
PROGRAMS = {name: text for text, name in re.findall(r"^```python\n(# (\w+\.py)\n.*?)^```$", README, re.M | re.S)}
[PRINTED] = re.findall(r"Each of the programs below prints ([\d.]+),", README)
# The time in seconds that a program may take on a busy machine.
PATIENCE = 300
[TABLE] = re.findall(r"^\| Call of `Pcg64` or `WyRand` \| Draws \|\n.*\n((?:\|.*\n)+)", README, re.M)


def module(path):
    """Whether Python finds a module at this path of dist-packages."""
    return any(Path(folder, path).exists() for folder in sys.path)


def output(*command, **variables):
    """What a command prints in the working folder. It has to succeed."""
    environment = {**os.environ, **variables, "PYTHONPATH": f".:{os.environ['PYTHONPATH']}"}
    return subprocess.run(command, env=environment, check=True, stdout=subprocess.PIPE, text=True,
                          timeout=PATIENCE).stdout


class Programs(unittest.TestCase):
    @classmethod
    def setUpClass(cls):
        for name, text in PROGRAMS.items():
            Path(name).write_text(text, encoding="utf-8")

    def test_all_are_tested(self):
        tested = ["pi.py", "pi_dask.py", "floats_dask.py", "pi_mpi.py", "pi_array.py", "normals.py"]
        self.assertEqual(list(PROGRAMS), tested)

    def test_plain(self):
        pi = runpy.run_path("pi.py")
        total = sum(map(pi["inside"], range(pi["TASKS"])))
        self.assertEqual(f"{4 * total / (pi['TASKS'] * pi['POINTS']):.6f}", PRINTED)
        self.assertGreater(pi["DRAWS"], 2 * pi["POINTS"])

    @unittest.skipUnless(module("distributed"), "there is no Dask")
    def test_dask(self):
        self.assertEqual(output(sys.executable, "pi_dask.py"), f"{PRINTED}\n")

    @unittest.skipUnless(module("distributed"), "there is no Dask")
    def test_arrays_of_dask(self):
        """The numbers are those of one generator, whatever the size of the chunks."""
        [mean] = re.findall(r"This prints ([\d.]+),", README)
        self.assertEqual(output(sys.executable, "floats_dask.py"), f"{mean}\n")
        program = runpy.run_path("floats_dask.py")
        wanted = array.array("d", bytes(8 * program["LENGTH"]))
        Pcg64.seed_from_u64(program["SEED"]).fill_random(wanted)
        for length in 250_000, 333_333, 10**6, 2 * 10**6:
            self.assertEqual(program["floats"](length).compute().tobytes(), wanted.tobytes())

    @unittest.skipUnless(module("mpi4py"), "there is no mpi4py")
    def test_mpi(self):
        as_root = {"OMPI_ALLOW_RUN_AS_ROOT": "1", "OMPI_ALLOW_RUN_AS_ROOT_CONFIRM": "1",
                   "OMPI_MCA_rmaps_base_oversubscribe": "1"}
        for count in "1", "3":
            printed = output("mpirun", "-n", count, sys.executable, "pi_mpi.py", **as_root)
            self.assertEqual(printed, f"{PRINTED}\n")

    def test_job_array(self):
        [(first, last)] = re.findall(r"^\$ sbatch --array=(\d+)-(\d+) --wrap 'python3 pi_array.py'$", README, re.M)
        [command] = re.findall(r"^\$ (cat slurm-.*)$", README, re.M)
        jobs = range(int(first), int(last) + 1)
        self.assertEqual(len(jobs), runpy.run_path("pi.py")["TASKS"])
        for job in jobs:
            printed = output(sys.executable, "pi_array.py", SLURM_ARRAY_TASK_ID=str(job))
            Path(f"slurm-1_{job}.out").write_text(printed, encoding="utf-8")
        self.assertEqual(output("sh", "-c", command), f"{PRINTED}\n")
        Path("slurm-1_3.out").write_text("", encoding="utf-8")
        self.assertEqual(output("sh", "-c", command), f"{len(jobs) - 1} of {len(jobs)}\n")

    @unittest.skipUnless(module("numpy"), "there is no NumPy")
    def test_normals(self):
        """They take 1.02 words on average, as the README says."""
        drawn = int(output(sys.executable, "normals.py"))
        self.assertEqual(f"{drawn / 10**6:.2f}", "1.02")


@unittest.skipUnless(module("numpy"), "there is no NumPy")
class WordsOfNumPy(unittest.TestCase):
    """The number of words for a number, on average over 10^5 numbers."""

    COUNT = 10**5

    def average(self, name, *arguments, **options):
        import numpy
        from nanorand.numpy import Pcg64Bits

        start = Pcg64.seed_from_u64(1)
        bits = Pcg64Bits.of(start)
        getattr(numpy.random.Generator(bits), name)(*arguments, size=self.COUNT, **options)
        return start.distance(bits.generator) / self.COUNT

    def test_one_word(self):
        self.assertEqual((self.average("random"), self.average("uniform", 1, 2)), (1, 1))

    def test_averages(self):
        self.assertAlmostEqual(self.average("normal"), 1.02, delta=0.005)
        for shape in 0.01, 0.3, 0.5, 0.7, 0.9, 1.1, 2, 5, 1000:
            self.assertTrue(2 <= self.average("gamma", shape) <= 2.3, shape)
        for mean in 1, 5, 9, 9.9, 10, 100, 10**6:
            self.assertLess(self.average("poisson", mean), 11, mean)
        for size in 6, 200, 2**32 - 1, 2**63, 2**63 + 1, 2**64 - 1:
            self.assertLess(self.average("integers", size, dtype="uint64"), 2.02, size)


class Draws(unittest.TestCase):
    def drawn(self, call):
        """The numbers of draws that a call makes from 200 states."""
        found = []
        for seed in range(200):
            start = Pcg64.seed_from_u64(seed)
            end = start.copy()
            call(end)
            found.append(start.distance(end))
        return found

    def test_calls_of_one_draw(self):
        calls = {
            "u64": Pcg64.u64, "random": Pcg64.random, "uniform": lambda rng: rng.uniform(1, 2),
            "fill_random": lambda rng: rng.fill_random(array.array("d", [0.0])),
        }
        for name, call in calls.items():
            self.assertEqual(set(self.drawn(call)), {1}, name)

    def test_calls_of_bytes(self):
        for length in 0, 1, 7, 8, 9, 100, 4096:
            for call in (lambda rng: rng.bytes(length)), (lambda rng: rng.fill(bytearray(length))):
                self.assertEqual(set(self.drawn(call)), {(length + 7) // 8})

    def test_calls_that_reject_words(self):
        """With these sizes, so many words are rejected that a call takes two words on average; a choice takes 1.5."""
        worst, third = 2**63 + 1, 2**64 // 3 + 2
        calls = {
            "below": lambda rng: rng.below(worst), "range": lambda rng: rng.range(0, worst - 1),
            "randint": lambda rng: rng.randint(0, worst - 1), "range32": lambda rng: rng.range32(0, 2**31),
            "choice": lambda rng: rng.choice(range(third)), "choices": lambda rng: rng.choices("ab", [worst - 1, 1]),
            "fill_range": lambda rng: rng.fill_range(array.array("Q", [0]), 0, worst - 1),
        }
        for name, call in calls.items():
            with self.subTest(name=name):
                found = self.drawn(call)
                self.assertEqual(min(found), 1)
                self.assertLessEqual(max(found), 128)
                self.assertAlmostEqual(sum(found) / len(found), 1.5 if name == "choice" else 2, delta=0.3)

    def test_calls_of_items(self):
        calls = {
            "shuffle": lambda rng: rng.shuffle(list(range(50))), "sample": lambda rng: rng.sample(range(10**6), 50),
            "sample_below": lambda rng: rng.sample_below(10**6, 50), "choices": lambda rng: rng.choices("abc", k=50),
        }
        for name, call in calls.items():
            with self.subTest(name=name):
                found = self.drawn(call)
                self.assertEqual(min(found), 50)
                self.assertLess(max(found), 60)

    def test_calls_of_the_table_are_those_tested(self):
        calls = {name for row in TABLE.splitlines() for name in re.findall(r"`([a-z]\w+)", row.split(" | ")[0])}
        tested = {"u64", "random", "uniform", "fill_random", "bytes", "fill", "below", "range", "randint", "range32",
                  "choice", "fill_range", "choices", "shuffle", "sample", "sample_below"}
        self.assertEqual(calls, tested)

    def test_wyrand_draws_as_many(self):
        start, end = WyRand.seed_from_u64(1), WyRand.seed_from_u64(1)
        end.bytes(100)
        end.random()
        start.jump(14)
        self.assertEqual(start, end)


class Documents(unittest.TestCase):
    def test_scale_begins_with_the_rule(self):
        """In two lines, with lengths that this page explains."""
        title, rule, *_ = SCALE.split("\n\n")
        self.assertTrue(title.startswith("# "))
        self.assertEqual(len(rule.splitlines()), 2)
        lengths = re.findall(r"`(\d+\*\*\d+ [+] 1)`", rule)
        self.assertEqual(len(lengths), 2)
        for length in lengths:
            self.assertIn(f"\n- `{length}`, if", README)

    def test_times_of_parts(self):
        """At 10^9 words a second."""
        self.assertEqual((round(2**40 / 10**9 / 60), round(2**50 / 10**9 / 86400)), (18, 13))
        self.assertIn("takes 18 minutes", README)
        self.assertIn("take 13 days", README)


if __name__ == "__main__":
    unittest.main()
