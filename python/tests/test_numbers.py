"""Calls with the names of Python's module `random`: floats, `randint`, `uniform`; and the numbers in errors."""

import decimal
import fractions
import math
import random
import unittest

from makers import KEY, generators, refuses

from nanorand import EmptyRange, OutOfBounds, Pcg64, Stream, WyRand

BOUNDS = "-9223372036854775808..=18446744073709551615"


def stream_of(*words):
    """A generator whose next words are these."""
    return Stream(KEY, rest=b"".join(word.to_bytes(8, "little") for word in words))


class Raising:
    """A number one of whose operations raises an error. Every other operation returns the number itself."""

    def __init__(self, error, operation):
        self.error, self.operation = error, operation

    def after(self, operation):
        if operation == self.operation:
            raise self.error
        return self

    def __sub__(self, _):
        return self.after("-")

    def __mul__(self, _):
        return self.after("*")

    def __radd__(self, _):
        return self.after("+")


class Kept:
    """A number that operations must not change in place."""

    def __init__(self, value):
        self.value = value

    def __add__(self, other):
        return Kept(self.value + getattr(other, "value", other))

    def __sub__(self, other):
        return Kept(self.value - getattr(other, "value", other))

    def __mul__(self, other):
        return Kept(self.value * getattr(other, "value", other))

    def in_place(self, _):
        raise AssertionError("an operation in place")

    __iadd__ = __isub__ = __imul__ = in_place


class Floats(unittest.TestCase):
    def test_random(self):
        for rng in generators():
            same = rng.copy()
            for _ in range(200):
                number = rng.random()
                self.assertIs(type(number), float)
                self.assertEqual(number, (same.u64() >> 11) / 2**53)
            self.assertEqual(rng, same)

    def test_ends_of_random(self):
        ends = {0: 0.0, 2**11 - 1: 0.0, 2**11: 2**-53, 2**63: 0.5, 2**64 - 1: 1 - 2**-53}
        rng = stream_of(*ends)
        self.assertEqual([rng.random() for _ in ends], list(ends.values()))

    def test_uniform(self):
        pairs = [(0, 1), (0.0, 1.0), (-1.5, 2), (5, 5), (3, -3), (10**20, 10**20 + 5), (-(2**70), 2**70), (True, 2)]
        pairs += [(fractions.Fraction(1, 3), 2), (1, fractions.Fraction(7, 2)), (-math.inf, 0.0), (1e308, -1e308)]
        for rng in generators():
            for a, b in pairs:
                same = rng.copy()
                unit = same.random()
                drawn = rng.uniform(a, b)
                self.assertEqual(repr(drawn), repr(a + (b - a) * unit))
                self.assertIs(type(drawn), float)
                self.assertEqual(rng, same)

    def test_uniform_is_python_s(self):
        class Fixed(random.Random):
            def random(self):
                return unit

        for a, b in ((1, 6), (-2.5, 1e10), (10**18, 10**18 + 3)):
            rng = Pcg64(5)
            unit = rng.copy().random()
            self.assertEqual(rng.uniform(a, b), Fixed().uniform(a, b))

    def test_uniform_changes_no_number(self):
        for rng in generators():
            unit = rng.copy().random()
            self.assertEqual(rng.uniform(Kept(2.5), Kept(4.0)).value, 2.5 + (4.0 - 2.5) * unit)

    def test_what_uniform_refuses(self):
        pairs = [("a", "b"), (None, 1), (1, None), ([], []), ({1}, {2}), (decimal.Decimal(1), decimal.Decimal(2))]
        for rng in generators():
            for pair in pairs:
                refuses(self, rng, TypeError, lambda rng, pair=pair: rng.uniform(*pair))
            refuses(self, rng, OverflowError, lambda rng: rng.uniform(0, 10**400))

    def test_what_the_numbers_of_uniform_raise(self):
        for error in (TypeError, ValueError, OverflowError, ArithmeticError, MemoryError, KeyboardInterrupt):
            for end in (Raising(error, operation) for operation in "-*+"):
                for rng in generators():
                    refuses(self, rng, error, lambda rng, end=end: rng.uniform(0, end))


class WholeNumbers(unittest.TestCase):
    def test_randint_is_range(self):
        for rng in generators():
            for a, b in ((1, 6), (0, 0), (-5, 5), (0, 2**64 - 1), (-(2**63), 2**63 - 1), (2**63, 2**64 - 1)):
                same = rng.copy()
                self.assertEqual(rng.randint(a, b), same.range(a, b))
                self.assertEqual(rng.randint(b=b, a=a), same.range(last=b, first=a))
                self.assertEqual(rng, same)
            error = refuses(self, rng, EmptyRange, lambda rng: rng.randint(6, 1))
            self.assertEqual(str(error), "no number from 6 to 1")
            for a, b in ((-1, 2**63), (0, 2**64), (-(2**63) - 1, 0), (10**100, 10**101), (-(10**5000), 10**5000)):
                refuses(self, rng, OutOfBounds, lambda rng, a=a, b=b: rng.randint(a, b))
            for bad in (1.0, "1", None, 1j, [1]):
                for call in (lambda rng, bad=bad: rng.randint(bad, 9), lambda rng, bad=bad: rng.randint(0, bad)):
                    refuses(self, rng, TypeError, call)


class Texts(unittest.TestCase):
    def test_errors_name_what_was_given_and_the_bounds(self):
        cases = [
            (lambda: WyRand(2**64), "seed is 18446744073709551616, not in 0..=18446744073709551615"),
            (lambda: WyRand(-1), "seed is -1, not in 0..=18446744073709551615"),
            (lambda: Pcg64(2**128), f"seed is {2**128}, not in 0..={2**128 - 1}"),
            (lambda: Pcg64(-1), f"seed is -1, not in 0..={2**128 - 1}"),
            (lambda: Stream(KEY, counter=-1), "counter is -1, not in 0..=18446744073709551615"),
            (lambda: WyRand(1).range(2**64, 0), f"first is {2**64}, not in {BOUNDS}"),
            (lambda: WyRand(1).range(0, -(2**63) - 1), f"last is {-(2**63) - 1}, not in {BOUNDS}"),
            (lambda: WyRand(1).randint(0, 2**64), f"b is {2**64}, not in {BOUNDS}"),
            (lambda: WyRand(1).range(-1, 2**63),
             f"last is {2**63}, not in -9223372036854775808..=9223372036854775807, as first is negative"),
            (lambda: WyRand(1).randint(-1, 2**63),
             f"b is {2**63}, not in -9223372036854775808..=9223372036854775807, as a is negative"),
            (lambda: WyRand(1).range32(0, 2**32), "last is 4294967296, not in 0..=4294967295"),
            (lambda: WyRand(1).range32(-1, 0), "first is -1, not in 0..=4294967295"),
            (lambda: WyRand(1).below(2**64 + 1),
             f"end is {2**64 + 1}, not in -9223372036854775808..=18446744073709551616"),
            (lambda: WyRand(1).bytes(-1), "length is -1, not in 0..=9223372036854775807"),
            (lambda: WyRand(1).jump(2**64), f"draws is {2**64}, not in 0..=18446744073709551615"),
            (lambda: WyRand(1).sample_below(-5, 1), "count is -5, not in 0..=18446744073709551615"),
            (lambda: WyRand(1).choices("ab", k=-1), "k is -1, not in 0..=9223372036854775807"),
            (lambda: WyRand(True - 2), "seed is -1, not in 0..=18446744073709551615"),
        ]
        for call, text in cases:
            with self.assertRaises(OutOfBounds) as caught:
                call()
            self.assertEqual(str(caught.exception), text)

    def test_empty_ranges_say_what_was_asked_for(self):
        cases = [
            (lambda rng: rng.range(6, 1), "no number from 6 to 1"),
            (lambda rng: rng.range(2**64 - 1, -(2**63)), f"no number from {2**64 - 1} to {-(2**63)}"),
            (lambda rng: rng.range32(6, 1), "no number from 6 to 1"),
            (lambda rng: rng.below(0), "no number below 0"),
            (lambda rng: rng.below(-(2**63)), f"no number below {-(2**63)}"),
            (lambda rng: rng.below(False), "no number below 0"),
            (lambda rng: rng.choice([]), "items is empty"),
            (lambda rng: rng.choice(range(0)), "items is empty"),
            (lambda rng: rng.choices(""), "population is empty"),
            (lambda rng: rng.sample("abc", 4), "no sample of 4 from 3"),
            (lambda rng: rng.sample_below(0, 2**64 - 1), f"no sample of {2**64 - 1} from 0"),
            (lambda rng: rng.fill_range(bytearray(1), 6, 1), "no number from 6 to 1"),
        ]
        for rng in generators():
            for call, text in cases:
                self.assertEqual(str(refuses(self, rng, EmptyRange, call)), text)

    def test_long_numbers_are_told_by_their_length(self):
        for power, told in ((99, str(10**99)), (4300, "a number of 14285 bits"), (100_000, "a number of 332193 bits")):
            with self.assertRaisesRegex(OutOfBounds, f"^seed is {told}, not in 0"):
                WyRand(10**power)
        for call in (WyRand, Pcg64, WyRand(1).below, lambda number: WyRand(1).range(number, 0)):
            with self.assertRaisesRegex(OutOfBounds, "is a negative number of 14285 bits, not in "):
                call(-(10**4300))
        self.assertIn(f"is {2**332 - 1}, not", self.text_of(2**332 - 1))
        self.assertIn("is a number of 333 bits, not", self.text_of(2**332))

    def text_of(self, seed):
        with self.assertRaises(OutOfBounds) as caught:
            WyRand(seed)
        return str(caught.exception)

    def test_numbers_that_write_themselves(self):
        """A subclass of int may have its own texts, which are not used."""
        class Own(int):
            def __str__(self):
                raise AssertionError

            __repr__ = __format__ = bit_length = __str__

        self.assertIn("seed is -1, not", self.text_of(Own(-1)))
        self.assertIn("seed is a number of 14285 bits", self.text_of(Own(10**4300)))
        with self.assertRaises(EmptyRange):
            WyRand(1).range(Own(6), Own(1))
        with self.assertRaisesRegex(EmptyRange, "no number below -1"):
            WyRand(1).below(Own(-1))


if __name__ == "__main__":
    unittest.main()
