"""Choices by weight: exact shares for whole weights, those of random.choices for floats, and errors."""

import collections
import decimal
import fractions
import itertools
import math
import random
import unittest

from makers import KEY, generators, refuses

from nanorand import EmptyRange, OutOfBounds, Stream, WrongLength, WyRand

LAST = 2**64 - 1


def place_of(weights, number):
    """The item whose share contains the number."""
    return next(place for place, end in enumerate(itertools.accumulate(weights)) if number < end)


class Index:
    def __init__(self, number):
        self.number = number

    def __index__(self):
        return self.number


class Python(random.Random):
    """Python's own class, with the floats of a generator."""

    def __new__(cls, rng):
        return super().__new__(cls)

    def __init__(self, rng):
        self.rng = rng
        super().__init__()

    def seed(self, *arguments):
        pass

    def random(self):
        return self.rng.random()


class Choices(unittest.TestCase):
    def test_without_weights(self):
        for rng in generators():
            for population in ("abcde", list("abcde"), tuple("abcde"), range(5), collections.UserList("abcde")):
                same = rng.copy()
                drawn = rng.choices(population, k=50)
                self.assertEqual(drawn, [population[same.below(5)] for _ in range(50)])
                self.assertIs(type(drawn), list)
                self.assertEqual(rng, same)
            self.assertEqual(len(rng.choices("ab")), 1)
            self.assertEqual(set(rng.choices("abc", k=200)), set("abc"))

    def test_whole_weights(self):
        lists = [[1], [5, 0, 1], [0, 0, 7], [7, 0, 0], [1] * 9, [3, 1, 4, 1, 5]]
        lists += [[2**63, 2**63 - 1], [LAST], [0, LAST, 0]]
        for rng in generators():
            for weights in lists:
                population = range(len(weights))
                same = rng.copy()
                wanted = [place_of(weights, same.below(sum(weights))) for _ in range(60)]
                sums = list(itertools.accumulate(weights))
                for given in ({"weights": weights}, {"weights": tuple(map(Index, weights))}, {"cum_weights": sums},
                              {"weights": iter(weights)}, {"cum_weights": tuple(sums)}):
                    again = rng.copy()
                    self.assertEqual(again.choices(population, k=60, **given), wanted)
                    self.assertEqual(again, same)
                self.assertEqual(rng.choices(population, weights, k=60), wanted)

    def test_every_number_of_a_share(self):
        """Words that select each of 16 numbers: the shares have no gaps and do not overlap."""
        weights = [3, 0, 1, 7, 0, 5]
        for number in range(16):
            low = -(-number * 2**64 // 16)
            for word in (low, low + 2**60 - 1):
                rng, same = Stream(KEY, rest=word.to_bytes(8, "little")), Stream(KEY, rest=word.to_bytes(8, "little"))
                self.assertEqual(rng.choices(range(6), weights), [place_of(weights, same.below(16))])

    def test_whole_weights_are_exact_where_floats_are_not(self):
        weights = [2**53, 1, 2**53]
        drawn = {WyRand(seed).choices("abc", weights)[0] for seed in range(50)}
        self.assertEqual(drawn, {"a", "c"})
        numbers = [2**53 - 1, 2**53, 2**53 + 1]
        self.assertEqual([place_of(weights, number) for number in numbers], [0, 1, 2])
        for rng in generators():
            same = rng.copy()
            many = rng.choices(range(2000), [2**53 + 1] * 2000, k=100)
            self.assertEqual(many, [same.below(2000 * (2**53 + 1)) // (2**53 + 1) for _ in range(100)])

    def test_floats_are_python_s(self):
        lists = [[1.0], [0.5, 0.25, 0.25], [1, 2.5, 0], [0.0, 3.0, 0.0], [1e-300, 1e300], [0.1] * 10]
        lists += [[fractions.Fraction(1, 3), 2], [decimal.Decimal("0.5"), decimal.Decimal("1.5")]]
        for rng in generators():
            for weights in lists:
                weights = [float(weight) for weight in weights] if weights[0] == decimal.Decimal("0.5") else weights
                sums = list(itertools.accumulate(map(float, weights)))
                for given in ({"weights": weights}, {"cum_weights": sums}):
                    python = Python(rng.copy())
                    wanted = python.choices(range(len(weights)), k=50, **given)
                    same = rng.copy()
                    self.assertEqual(same.choices(range(len(weights)), k=50, **given), wanted)
                    self.assertEqual(same, python.rng)

    def test_no_weight_is_no_draw(self):
        """Even if the greatest float below 1.0, times the sum, is rounded up to the sum."""
        last = (LAST).to_bytes(8, "little")
        for total in (5e-324, 0.1 + 0.2, 1.0, 1e308):
            for weights in ([total, 0.0], [0.0, total, 0.0, 0.0]):
                rng = Stream(KEY, rest=last)
                self.assertEqual(weights[rng.choices(range(len(weights)), weights)[0]], total)
                rng = Stream(KEY, rest=bytes(8))
                self.assertEqual(weights[rng.choices(range(len(weights)), weights)[0]], total)

    def test_none_at_all(self):
        for rng in generators():
            before = rng.state
            for given in ({}, {"weights": [1, 2, 3]}, {"cum_weights": [1, 2, 3.5]}, {"weights": [0, 0, 0]}):
                self.assertEqual(rng.choices("abc", k=0, **given), [])
            self.assertEqual(rng.choices([], k=0), [])
            self.assertEqual(rng.choices([], [], k=0), [])
            self.assertEqual(rng.state, before)

    def test_nothing_to_draw(self):
        for rng in generators():
            for population, weights in (([], None), ("", []), ("ab", [0, 0]), ("ab", [0.0, -0.0]), ((), ())):
                refuses(self, rng, EmptyRange, lambda rng, p=population, w=weights: rng.choices(p, w))
            refuses(self, rng, EmptyRange, lambda rng: rng.choices("ab", cum_weights=[0, 0]))
            error = refuses(self, rng, EmptyRange, lambda rng: rng.choices("ab", [0, 0]))
            self.assertEqual(str(error), "no item has a weight")

    def test_weights_out_of_bounds(self):
        lists = [[1, -1], [-1, 5], [2**64, 0], [LAST, 1], [2**63, 2**63], [-(10**5000), 1], [1, 2, -0.5], [-1.0, 5]]
        lists += [[1.0, math.nan], [math.inf, 1], [-math.inf, 1], [1e308, 1e308], [math.nan, math.nan], [0.5, -0.6]]
        # A negative weight, with one so large that the sum does not change.
        lists += [[great, less] for great in (1.0, 1e16, 1e17, 1e300, 1.7e308) for less in (-5e-324, -1e-20, -1.0)]
        lists += [[less, great] for great in (1.0, 1e300) for less in (-5e-324, -1.0)]
        sums = [[5, 3], [1, 2**64], [-1, 5], [1.0, 0.5], [1.0, math.nan], [1.0, math.inf], [-1.0, 1]]
        for rng in generators():
            for weights in lists:
                population = range(len(weights))
                refuses(self, rng, OutOfBounds, lambda rng, w=weights, p=population: rng.choices(p, w))
            for weights in sums:
                refuses(self, rng, OutOfBounds, lambda rng, w=weights: rng.choices("ab", cum_weights=w))

    def test_another_number_of_weights(self):
        for rng in generators():
            for weights in ([], [1], [1, 2, 3, 4], [0.5], ()):
                for name in ("weights", "cum_weights"):
                    error = refuses(self, rng, WrongLength, lambda rng, n=name, w=weights: rng.choices("abc", **{n: w}))
                    self.assertEqual(str(error), f"{name} has {len(weights)} items, not 3")

    def test_other_types(self):
        for rng in generators():
            for weights in (5, object(), ["a", "b"], [None, 1], [1j, 1], [[1], 2]):
                for name in ("weights", "cum_weights"):
                    refuses(self, rng, TypeError, lambda rng, n=name, w=weights: rng.choices("ab", **{n: w}))
            for population in (None, 5, {1, 2}, {0: 1}, iter("ab")):
                refuses(self, rng, TypeError, lambda rng, p=population: rng.choices(p))
            for k in (1.0, "1", None):
                refuses(self, rng, TypeError, lambda rng, k=k: rng.choices("ab", k=k))
            for k in (-1, 2**63):
                refuses(self, rng, OutOfBounds, lambda rng, k=k: rng.choices("ab", k=k))
            refuses(self, rng, MemoryError, lambda rng: rng.choices("ab", k=2**62))
            refuses(self, rng, TypeError, lambda rng: rng.choices("ab", [1, 2], cum_weights=[1, 3]))
            refuses(self, rng, TypeError, lambda rng: rng.choices("ab", None, [1, 3]))

    def test_a_population_that_fails(self):
        """The state is unchanged, even after the draw."""
        class Fails:
            def __init__(self, error):
                self.error = error

            def __len__(self):
                return 3

            def __getitem__(self, place):
                raise self.error

        for rng in generators():
            for error in (KeyError, KeyboardInterrupt):
                for call in (lambda rng, items: rng.choice(items), lambda rng, items: rng.choices(items, k=5),
                             lambda rng, items: rng.choices(items, [1, 2, 3]), lambda rng, items: rng.sample(items, 2)):
                    refuses(self, rng, error, lambda rng, call=call, error=error: call(rng, Fails(error)))


if __name__ == "__main__":
    unittest.main()
