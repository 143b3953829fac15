"""Parts of a stream, for every class: each begins where the one before it ends, and none ends past the period."""

import contextlib
import pickle
import random
import unittest
import warnings

from makers import CHACHAS, CLASSES, KEY, NONCE, generators, refuses

from nanorand import NanorandError, OutOfBounds, PastPeriod, Pcg64, Stream, WyRand, errors

LAST = 2**64 - 1
PERIODS = {WyRand: 2**64, Pcg64: 2**126, **dict.fromkeys(CHACHAS, 2**64), Stream: 2**67}
# In the middle of a period and at its end, where a counter is 0 again.
LATE = [WyRand(LAST), Pcg64(2**128 - 1), *[kind(KEY, NONCE, LAST) for kind in CHACHAS]]
LATE += [Stream(KEY, NONCE, LAST - 8, NONCE)]


def ahead(rng, draws):
    """A generator that is a number of draws ahead, by other calls."""
    made = rng.copy()
    if type(rng) is not Stream:
        made.jump(draws)
        return made
    buffered = min(8 * draws, len(rng.rest))
    made.bytes(buffered)
    blocks, rest = divmod(8 * draws - buffered, 64)
    made = Stream(made.key, made.nonce, (made.counter + blocks) % 2**64, made.rest)
    made.bytes(rest)
    return made


class Parts(unittest.TestCase):
    @contextlib.contextmanager
    def quiet(self):
        """Lengths of parts are not warned of."""
        with warnings.catch_warnings():
            warnings.simplefilter("ignore", UserWarning)
            yield

    def test_a_length_of_0(self):
        for rng in [*generators(), *LATE]:
            for index in (0, 1, LAST):
                error = refuses(self, rng, OutOfBounds, lambda rng, i=index: rng.part(i, 0))
                self.assertEqual(str(error), f"draws is 0, not in 1..={LAST}")

    def test_lengths_that_are_warned_of(self):
        """Multiples of 2^16 are, for the generators whose draws are correlated. An error leaves out the warning."""
        warned = [2**16, 2**44, 3 * 2**16, 2**63, LAST - 2**16 + 1]
        others = [1, 10**6, 10**9 + 1, 2**15, 3 * 2**15, 2**44 + 1, LAST]
        for rng in generators():
            correlated = type(rng) in (WyRand, Pcg64)
            for draws in warned + others:
                with warnings.catch_warnings(record=True) as caught:
                    warnings.simplefilter("always")
                    self.assertEqual(rng.part(0, draws), rng)
                    self.assertEqual(len(caught), int(correlated and draws in warned), draws)
                for one in caught:
                    self.assertIs(one.category, UserWarning)
                    self.assertEqual(one.filename, __file__)
                    self.assertEqual(str(one.message), f"parts of {draws} draws may be correlated, as a large power of "
                                     f"two divides this length: take an odd one, such as {draws + 1}")
            with warnings.catch_warnings():
                warnings.simplefilter("error")
                if correlated:
                    refuses(self, rng, UserWarning, lambda rng: rng.part(1, 2**44))
                refuses(self, rng, PastPeriod, lambda rng: rng.part(LAST, LAST - 2**16 + 1))

    def test_a_part_begins_where_the_one_before_it_ends(self):
        for start in [*generators(), *LATE]:
            for taken in (0, 1, 8, 63, 64, 65, 500, 512):
                start.bytes(taken)
                for draws in (1, 7, 8, 9, 64, 65):
                    drawn = start.copy()
                    for index in range(12):
                        self.assertEqual(start.part(index, draws), drawn, (taken, index, draws))
                        for _ in range(draws):
                            drawn.u64()

    def test_every_number_of_buffered_bytes(self):
        for buffered in range(64):
            rng = Stream(KEY, NONCE, LAST - 3, bytes(range(buffered)))
            words = rng.copy().bytes(8 * 80)
            for index in range(70):
                self.assertEqual(rng.part(index, 1).bytes(80), words[8 * index : 8 * index + 80])
                self.assertEqual(rng.part(1, index + 1), ahead(rng, index + 1))

    def test_far_parts(self):
        numbers = random.Random(5)
        for rng in [*generators(), *LATE]:
            for _ in range(300):
                bits = numbers.randrange(65)
                index = numbers.getrandbits(bits)
                draws = numbers.randrange(1, min(2**64, PERIODS[type(rng)] // (index + 1) + 1))
                with self.quiet():
                    self.assertEqual(rng.part(index, draws), ahead(rng, index * draws), (index, draws))

    def test_the_period_is_the_end(self):
        """For each index, the longest part within the period, and one that is a draw longer."""
        indices = [0, 1, 2, 3, 4, 6, 7, 8, 15, 16, 274176, 2**32 - 1, 2**32, 2**61, 2**62, 2**63 - 1, 2**63, LAST]
        for rng in [*generators(), *LATE]:
            for index in indices:
                longest = min(PERIODS[type(rng)] // (index + 1), LAST)
                with self.quiet():
                    self.assertEqual(rng.part(index, longest), ahead(rng, index * longest))
                for draws in {longest + 1, LAST} - {longest, LAST + 1}:
                    refuses(self, rng, PastPeriod, lambda rng, i=index, n=draws: rng.part(i, n))

    def test_numbers_out_of_bounds(self):
        """They are errors even if the other number is 0, and no part would end past the period."""
        for rng in generators():
            for number in (-1, -(2**64), LAST + 1, 2**64 + 1, 10**40):
                for other in (0, 1, LAST):
                    refuses(self, rng, OutOfBounds, lambda rng, n=number, o=other: rng.part(n, o or 1))
                    refuses(self, rng, OutOfBounds, lambda rng, n=number, o=other: rng.part(o, n))
            for other in (1.0, "1", None, b"1", [1], 1j):
                for arguments in ((other, 1), (1, other)):
                    refuses(self, rng, TypeError, lambda rng, a=arguments: rng.part(*a))

    def test_a_part_is_apart(self):
        """It has the same class, and neither generator changes the other."""
        for name, kind in CLASSES.items():
            own = type("Own", (kind,), {})
            for made in (kind, own):
                rng = made.from_entropy()
                before = rng.state
                for index in (0, 5):
                    part = rng.part(index, draws=10)
                    self.assertIs(type(part), made, name)
                    state = part.state
                    part.u64()
                    self.assertEqual(rng.state, before)
                    rng.u64()
                    self.assertEqual(kind.from_state(part.state), ahead(kind.from_state(state), 1))
                    rng.state = before

    def test_what_a_class_makes(self):
        """If a class's `__new__` creates an object of another class, `part` raises an error."""

        class Other(WyRand):
            made = None

            def __new__(cls, *arguments):
                return super().__new__(cls) if cls.made is None else cls.made.__new__(cls.made)

        rng = Other(42)
        for Other.made, error in ((Pcg64, errors.WrongLength), (Stream, errors.WrongLength), (int, TypeError)):
            refuses(self, rng, error, lambda rng: rng.part(1, 1))
        self.assertRaises(RuntimeError, WyRand.__new__(WyRand).part, 1, 1)

    def test_a_part_goes_to_another_process(self):
        for rng in generators():
            part = rng.part(3, 1000)
            self.assertEqual(pickle.loads(pickle.dumps(part)), part)

    def test_distances(self):
        numbers = random.Random(7)
        for kind, period in ((WyRand, 2**64), (Pcg64, 2**126)):
            for start in (kind(42), kind(0), kind(256 ** len(kind(0).state) - 1)):
                for bits in range(period.bit_length() + 1):
                    draws = numbers.getrandbits(bits) % period
                    other = start.copy()
                    other.jump(draws)
                    before = start.state, other.state
                    self.assertEqual(start.distance(other), draws)
                    self.assertEqual(other.distance(other=start), -draws % period)
                    self.assertEqual((start.state, other.state), before)
            self.assertEqual(start.distance(start), 0)
            own = type("Own", (kind,), {})
            self.assertEqual(kind(7).distance(own(7)), 0)
            self.assertEqual(own(7).distance(kind(7).part(3, 5)), 15)

    def test_states_in_another_cycle(self):
        """Two seeds of Pcg64 are in one cycle if and only if they are equal or opposite modulo 8."""
        for one in range(16):
            for two in range(2**100, 2**100 + 16):
                distance = Pcg64(one).distance(Pcg64(two))
                self.assertEqual(distance is not None, one % 8 == two % 8 or (one + two) % 8 == 7)
                if distance is not None:
                    there = Pcg64(one)
                    there.jump(distance)
                    self.assertEqual(there, Pcg64(two))

    def test_distances_to_other_things(self):
        for rng in (WyRand(42), Pcg64(42)):
            for other in [None, 5, "WyRand", object(), *(one for one in generators() if type(one) is not type(rng))]:
                error = refuses(self, rng, TypeError, lambda rng, other=other: rng.distance(other))
                self.assertRegex(str(error), f"^other is a {type(other).__name__}, not a")
            empty = type(rng).__new__(type(rng))
            refuses(self, rng, RuntimeError, lambda rng, empty=empty: rng.distance(empty))
            self.assertRaises(RuntimeError, empty.distance, rng)

    def test_a_refusal_says_what_was_asked_for(self):
        for index, draws in ((1, LAST), (LAST, 2), (2**32, 2**32)):
            error = refuses(self, WyRand(42), PastPeriod, lambda rng, i=index, n=draws: rng.part(draws=n, index=i))
            self.assertEqual(str(error), f"part {index}, of {draws} draws, ends past the period")
        self.assertTrue(isinstance(error, ValueError) and isinstance(error, NanorandError))
        self.assertIs(errors.PastPeriod, PastPeriod)


if __name__ == "__main__":
    unittest.main()
