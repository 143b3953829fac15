"""What the package does with error statuses that the library returns in fewer than one of 2^128 draws.

These tests run with the library of refusing.c in place of nanorand's. The first byte of a state is the status, and the
second byte counts the draws that succeed before it.
"""

import array
import os
import subprocess
import sys
import unittest

from makers import CLASSES, WINDOW, long_memory, stays_itself

from nanorand import EmptyRange, Exhausted, PastPeriod, lots
from nanorand.errors import SeedNotText, TooFew

CALLS = {
    "range": lambda rng: rng.range(0, 9),
    "range, signed": lambda rng: rng.range(-9, 9),
    "range32": lambda rng: rng.range32(0, 9),
    "randint": lambda rng: rng.randint(0, 9),
    "below": lambda rng: rng.below(9),
    "choice": lambda rng: rng.choice("abc"),
    "choices": lambda rng: rng.choices("abc", k=3),
    "choices, weighted": lambda rng: rng.choices("abc", [1, 2, 3], k=3),
    "sample": lambda rng: rng.sample("abc", 2),
    "sample_below": lambda rng: rng.sample_below(9, 2),
    "shuffle": lambda rng: rng.shuffle([1, 2, 3]),
    "shuffle, any": lambda rng: rng.shuffle(bytearray(3)),
    "shuffle_full": lambda rng: rng.shuffle_full([1, 2, 3]),
    "shuffle_full, any": lambda rng: rng.shuffle_full(bytearray(3)),
}
PIECES = ["choices", "choices, weighted"]


def refusing(kind, status, after=0):
    """A generator whose draws return a status after a number of successful draws."""
    state = bytearray(48 if kind not in ("wyrand", "pcg64") else {"wyrand": 8, "pcg64": 16}[kind])
    state[0], state[1] = status, after
    return CLASSES[kind].from_state(state)


class Refusals(unittest.TestCase):
    def test_every_status_of_every_call(self):
        for kind in CLASSES:
            for name, call in CALLS.items():
                for status, error in ((1, EmptyRange), (2, Exhausted), (7, Exhausted), (255, Exhausted)):
                    with self.subTest(kind=kind, name=name, status=status):
                        rng = refusing(kind, status)
                        with self.assertRaises(error) as caught:
                            call(rng)
                        self.assertIs(type(caught.exception), error)
                        self.assertEqual(caught.exception.args, ())
                        stays_itself(self, caught.exception)
                        self.assertEqual(rng.state[2], 1)

    def test_parts(self):
        """For every status but 0, `part` raises an error, and leaves the generator unchanged."""
        for kind in CLASSES:
            self.assertEqual(refusing(kind, 0).part(1, 1).state[:3], bytes([0, 0, 1]))
            for status in (1, 2, 3, 7, 255):
                rng = refusing(kind, status)
                before = rng.state
                with self.assertRaises(PastPeriod) as caught:
                    rng.part(1, 1)
                self.assertIs(type(caught.exception), PastPeriod)
                stays_itself(self, caught.exception)
                self.assertEqual(rng.state, before)

    def test_texts(self):
        with self.assertRaisesRegex(Exhausted, "^128 words in a row were rejected$"):
            refusing("wyrand", 2).below(9)

    def test_a_refusal_in_the_middle(self):
        for kind in CLASSES:
            for name in PIECES:
                with self.subTest(kind=kind, name=name):
                    rng = refusing(kind, 2, after=1)
                    with self.assertRaises(Exhausted):
                        CALLS[name](rng)
                    self.assertEqual(rng.state[:3], bytes([2, 0, 1]))

    def test_a_shuffle_stays_as_far_as_it_came(self):
        for kind in CLASSES:
            for name in ("shuffle", "shuffle_full"):
                for items in (list(b"abc"), bytearray(b"abc")):
                    with self.assertRaises(Exhausted):
                        getattr(refusing(kind, 2), name)(items)
                    self.assertEqual(bytes(items), b"cba")

    def test_long_calls(self):
        """They draw numbers one by one, and stop at the first status."""
        length = 2**17 + 2
        for kind in CLASSES:
            for name in ("shuffle", "shuffle_full"):
                for items in (list(range(length)), array.array("q", range(length))):
                    rng, wanted = refusing(kind, 2, after=1), list(range(length))
                    wanted[0], wanted[(length - 1) // 2] = wanted[(length - 1) // 2], wanted[0]
                    with self.assertRaises(Exhausted):
                        getattr(rng, name)(items)
                    self.assertTrue(list(items) == wanted)
                    self.assertEqual(rng.state[:3], bytes([2, 0, 1]))
            for call in (lambda rng: rng.sample_below(10**6, length), lambda rng: rng.choices("abc", k=length),
                         lambda rng: rng.sample("abc", length, counts=[length] * 3)):
                rng = refusing(kind, 2, after=3)
                with self.assertRaises(Exhausted):
                    call(rng)
                self.assertEqual(rng.state[:3], bytes([2, 0, 1]))

    def test_items_before_128_rejected_words_are_written(self):
        """The words up to the last rejected one are consumed, and no item after the written ones is changed."""
        for kind in CLASSES:
            for letter in "BHILQbhilq":
                width = array.array(letter).itemsize
                word = 8 if width == 8 else 4
                step = {"wyrand": 8, "pcg64": 8, "stream": word}.get(kind, 64)
                for after in (0, 1, 2, 8, 100, 128, 255):
                    good = (16 * after - word) // step + 1 if after else 0
                    for length in (1, 2, 3, 4, 8, 255, 256, 257, 511, 513, 1000, 20_000):
                        rng, items = refusing(kind, 2, after), array.array(letter, [7] * length)
                        if length <= good:
                            rng.fill_range(items, 1, 3)
                            words = length
                        else:
                            with self.assertRaises(Exhausted) as caught:
                                rng.fill_range(items, 1, 3)
                            self.assertIs(type(caught.exception), Exhausted)
                            stays_itself(self, caught.exception)
                            words = good + 128
                        self.assertEqual(items.tolist(), [2] * min(good, length) + [7] * (length - good))
                        self.assertEqual(int.from_bytes(rng.state[4:8], "little"), words * step, (kind, letter, after))

    def test_more_than_two_gib(self):
        memory = long_memory(self)
        for letter, middle in ("Q", 2), ("q", 3), ("i", 4):
            rng, items = refusing("wyrand", 0), memoryview(memory).cast(letter)[5:]
            rng.fill_range(items, middle - 1, middle + 1)
            self.assertEqual(int.from_bytes(rng.state[4:8], "little"), 8 * len(items) % 2**32)
            self.assertTrue(memory[:WINDOW] == array.array(letter, [middle] * (WINDOW // items.itemsize)).tobytes())

    def test_lots(self):
        for status, error in ((b"\2", SeedNotText), (b"\3", TooFew), (b"\x08", Exhausted), (b"\x09", Exhausted)):
            with self.assertRaises(error) as caught:
                lots.draw(status, ["a", "b", "c"], 2)
            self.assertIs(type(caught.exception), error)
            stays_itself(self, caught.exception)
        with self.assertRaises(TooFew) as caught:
            lots.draw(b"\3", ["a", "b", "c"], 2)
        self.assertEqual((caught.exception.entrants, caught.exception.count), (3, 2))

    def test_lists_of_more_than_four_gib(self):
        """The library gets the whole length."""
        zeros = bytes(2**32 + 5)
        self.assertEqual(int.from_bytes(lots.digest(zeros), "little"), len(zeros))
        self.assertEqual(lots.count(zeros), len(zeros))

    def test_versions(self):
        """The library must have the header's major version, and must not be older."""
        for version in (10000, 10001, 19999, 9999, 20000, 0):
            environment = {**os.environ, "NANORAND_TEST_VERSION": str(version)}
            command = [sys.executable, "-c", "import nanorand"]
            done = subprocess.run(command, env=environment, capture_output=True, text=True)
            accepted = 10000 <= version < 20000
            self.assertEqual(done.returncode == 0, accepted, done.stderr)
            if not accepted:
                self.assertIn(f"LibraryRefused: the library has version {version}, not ", done.stderr)


if __name__ == "__main__":
    unittest.main()
