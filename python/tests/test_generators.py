"""Generators: states, copies, texts, sequences of every kind, and errors."""

import array
import collections
import copy
import fractions
import pickle
import threading
import unittest
from unittest import mock

from makers import (
    CHACHAS,
    CLASSES,
    COPIES,
    KEY,
    NONCE,
    Index,
    generators,
    once,
    refuses,
    views_of,
)

from nanorand import (
    ChaCha8,
    ChaCha12,
    ChaCha20,
    EmptyRange,
    Exhausted,
    Generator,
    NanorandError,
    OutOfBounds,
    Pcg64,
    Stream,
    WrongLength,
    WyRand,
)

LAST = 2**64 - 1
LENGTHS_OF_SEEDS = {"wyrand": 8, "pcg64": 16, "chacha8": 40, "chacha12": 40, "chacha20": 40, "stream": 40}


class SetOfPlaces(collections.abc.Set):
    """A set whose items have indices."""

    def __contains__(self, item):
        return item in "abc"

    def __iter__(self):
        return iter("abc")

    def __len__(self):
        return 3

    def __getitem__(self, place):
        return "abc"[place]

    def __setitem__(self, place, item):
        raise AssertionError


class OwnList(collections.abc.MutableSequence):
    """A mutable sequence without slices, which raises an error when some items have been set."""

    def __init__(self, items, room=None, error=KeyError):
        self.items = list(items)
        self.room = room
        self.error = error

    def __len__(self):
        return len(self.items)

    def __getitem__(self, place):
        return self.items[int(place)]

    def __setitem__(self, place, item):
        if self.room is not None and place >= self.room:
            raise self.error(place)
        self.items[int(place)] = item

    def __delitem__(self, place):
        raise NotImplementedError

    def insert(self, place, item):
        raise NotImplementedError


class FailsOnce(list):
    """A list that fails once to assign an item at an index, before or after it has assigned it."""

    def __init__(self, items, at, late):
        super().__init__(items)
        self.at, self.late = at, late

    def __setitem__(self, place, item):
        fails, self.at = place == self.at, None if place == self.at else self.at
        if not fails or self.late:
            super().__setitem__(place, item)
        if fails:
            raise KeyError(place)


class FailsForGood(list):
    """A list to which nothing can be assigned after some items."""

    def __init__(self, items, room):
        super().__init__(items)
        self.room = room

    def __setitem__(self, place, item):
        if self.room == 0:
            raise KeyError(place)
        self.room -= 1
        super().__setitem__(place, item)


class Matrix(OwnList):
    """Rows that are views of one memory, as in NumPy."""

    def __init__(self, rows):
        super().__init__([array.array("q", row) for row in rows])

    def __getitem__(self, place):
        return memoryview(self.items[place])

    def __setitem__(self, place, item):
        memoryview(self.items[place])[:] = item


class OwnWyRand(WyRand):
    """A user's subclass, in a module where pickles find it."""


class OwnStream(Stream):
    """The same for a stream."""


class Unseeded:
    """A user's base class, before a class of the package, whose instances are made without arguments."""

    def __init__(self):
        super().__init__(*{WyRand: [7], Pcg64: [7]}.get(type(self).__bases__[1], (KEY, NONCE)))


class Named(Pcg64):
    """A user's subclass: its `__init__` needs two arguments, and it has an attribute."""

    def __init__(self, seed, names):
        super().__init__(seed)
        self.names = names


class Slotted(WyRand):
    """The same with slots, of which one may have no value."""

    __slots__ = ("name", "unset")


class Both(Slotted):
    """The same with slots and attributes."""


# A subclass of each class, in this module, where pickles find them.
UNSEEDED = {kind: type(f"Unseeded{kind.__name__}", (Unseeded, kind), {}) for kind in CLASSES.values()}
globals().update({own.__name__: own for own in UNSEEDED.values()})


class States(unittest.TestCase):
    def test_saved_and_restored(self):
        for rng in generators():
            for length in (0, 1, 8, 63, 64, 65):
                rng.bytes(length)
                saved = rng.state
                made = type(rng).from_state(saved)
                self.assertIs(type(made), type(rng))
                self.assertEqual(made.state, saved)
                wanted = [rng.u64() for _ in range(20)]
                self.assertEqual([made.u64() for _ in range(20)], wanted)
                rng.state = bytearray(saved)
                self.assertEqual([rng.u64() for _ in range(20)], wanted)

    def test_a_state_of_any_other_byte_is_another(self):
        for rng in [*generators(), *(Stream(KEY, rest=bytes(range(length))) for length in (1, 8, 63))]:
            saved = rng.state
            for place, byte in enumerate(saved):
                try:
                    other = type(rng).from_state(saved[:place] + bytes([byte ^ 1]) + saved[place + 1:])
                except NanorandError:
                    continue
                self.assertNotEqual(rng, other, place)
                self.assertNotEqual(rng.state, other.state)

    def test_copies_are_apart(self):
        ways = [copy.copy, copy.deepcopy, lambda rng: rng.copy()]
        ways += [
            lambda rng, protocol=protocol: pickle.loads(pickle.dumps(rng, protocol))
            for protocol in range(pickle.HIGHEST_PROTOCOL + 1)
        ]
        for way in ways:
            for rng in generators():
                rng.bytes(5)
                before = rng.state
                made = way(rng)
                self.assertIs(type(made), type(rng))
                self.assertEqual(made, rng)
                made.u64()
                self.assertEqual(rng.state, before)
                self.assertNotEqual(made, rng)
                rng.u64()
                self.assertEqual(made, rng)

    def test_copies_of_subclasses(self):
        """Every kind of copy has the class of its generator."""
        for rng in (OwnWyRand(42), OwnStream(KEY, NONCE, 5, b"abc")):
            copies = [rng.copy(), rng.part(0, 1), copy.copy(rng), copy.deepcopy(rng), copy.deepcopy([rng])[0]]
            copies += [pickle.loads(pickle.dumps(rng, protocol)) for protocol in range(pickle.HIGHEST_PROTOCOL + 1)]
            for made in copies:
                self.assertIs(type(made), type(rng))
                self.assertEqual(made, rng)

    def test_copies_keep_attributes(self):
        """Copies and pickles keep the attributes and the slots of a subclass, like those of a class of `randoms`."""
        named, slotted, both = Named(5, ["a"]), Slotted(5), Both(5)
        slotted.name = both.name = "b"
        both.other = None
        protocols = range(pickle.HIGHEST_PROTOCOL + 1)
        pickled = [lambda rng, number=number: pickle.loads(pickle.dumps(rng, number)) for number in protocols]
        for way in [*COPIES, *pickled]:
            self.assertEqual((way(named), vars(way(named))), (named, {"names": ["a"]}))
            self.assertEqual((way(slotted), way(slotted).name), (slotted, "b"))
            self.assertFalse(hasattr(way(slotted), "unset"))
            self.assertEqual((way(both), way(both).name, vars(way(both))), (both, "b", {"other": None}))
        self.assertIs(copy.copy(named).names, named.names)
        self.assertIsNot(copy.deepcopy(named).names, named.names)
        named.names.append(named)
        made = copy.deepcopy(named)
        self.assertIs(made.names[1], made)
        self.assertEqual(len(WyRand(5).__reduce__()), len(Slotted(5).__reduce__()))
        self.assertIsNone(Slotted(5).__reduce__()[2])

    def test_names_of_slots(self):
        """An exception at a slot, or of what should name the slots, is that of the copy."""
        class Wrong(Slotted):
            __slotnames__ = 5

        class Refusing(WyRand):
            def __getattribute__(self, name):
                if name == refused:
                    raise KeyError(name)
                return super().__getattribute__(name)

        class RefusingSlots(Refusing):
            __slots__ = ("slot",)

        for refused, own in (("__dict__", Refusing), ("slot", RefusingSlots)):
            with self.assertRaises(KeyError):
                copy.copy(own(5))
        with self.assertRaises(TypeError):
            copy.copy(Wrong(5))

    def test_copies_of_one_made_of_nothing(self):
        """Every kind of copy works, although the class is called without a seed."""
        for kind, own in UNSEEDED.items():
            rng = own()
            rng.bytes(5)
            makers = [*COPIES, kind.copy, lambda rng: rng.part(0, 1), lambda rng: own.from_state(rng.state)]
            for way in makers:
                made = way(rng)
                self.assertIs(type(made), own)
                self.assertEqual((made, made.state), (rng, rng.state))
                self.assertEqual(made.u64(), rng.copy().u64())

    def test_pickles_of_version_1(self):
        """Pickles that the package wrote when it was still implemented in Python."""
        oldest = (
            b"c__builtin__\ngetattr\np0\n(cnanorand.generators\nWyRand\np1\nVfrom_state\np2\ntp3\nRp4\n(c_codecs\n"
            b"encode\np5\n(V*" + 7 * b"\\u0000" + b"\np6\nVlatin1\np7\ntp8\nRp9\ntp10\nRp11\n."
        )
        head = b"\0\0\0\0\0\0\0\x8c\x08builtins\x94\x8c\x07getattr\x94\x93\x94\x8c\x13nanorand.generators\x94\x8c\x06"
        call = b"\x94\x93\x94\x8c\nfrom_state\x94\x86\x94R\x94C"
        newer = b"\x80\x04\x95Y" + head + b"WyRand" + call + b"\x08*" + bytes(7) + b"\x94\x85\x94R\x94."
        stream = b"\x80\x04\x95\x84" + head + b"Stream" + call + b"3" + KEY + bytes(16) + b"abc\x94\x85\x94R\x94."
        self.assertEqual([pickle.loads(oldest), pickle.loads(newer)], [WyRand(42), WyRand(42)])
        self.assertEqual(pickle.loads(stream), Stream(KEY, rest=b"abc"))
        for rng in generators():
            for protocol in range(pickle.HIGHEST_PROTOCOL + 1):
                self.assertIn(b"from_state", pickle.dumps(rng, protocol))

    def test_wrong_lengths(self):
        lengths = {"wyrand": {8}, "pcg64": {16}, "stream": set(range(48, 112))}
        for name, kind in CLASSES.items():
            good = lengths.get(name, {48})
            for length in range(130):
                if length in good:
                    self.assertEqual(kind.from_state(bytes(length)).state, bytes(length))
                else:
                    with self.assertRaises(WrongLength):
                        kind.from_state(bytes(length))
        for rng in generators():
            for state in (b"", bytes(7), bytes(112)):
                refuses(self, rng, WrongLength, lambda rng, state=state: setattr(rng, "state", state))
            for state in (None, 42, "x" * 8, [0] * 8, 1.5, array.array("B", rng.state)):
                error = refuses(self, rng, TypeError, lambda rng, state=state: setattr(rng, "state", state))
                self.assertRegex(str(error), r"^state is a .*, not bytes or a dict$")

    def test_equality(self):
        self.assertEqual(WyRand(42), WyRand(42))
        self.assertNotEqual(WyRand(42), Pcg64(42))
        self.assertNotEqual(ChaCha8(KEY), ChaCha20(KEY))
        self.assertNotEqual(ChaCha20(KEY), ChaCha20(KEY, counter=1))
        self.assertNotEqual(ChaCha20(KEY), ChaCha20(KEY, b"12345678"))
        self.assertNotEqual(Stream(KEY), Stream(KEY, rest=b"\0"))
        self.assertNotEqual(WyRand(42), 42)
        self.assertNotEqual(WyRand(42), None)
        self.assertEqual(WyRand(42), mock.ANY)
        for rng in generators():
            with self.assertRaises(TypeError):
                hash(rng)

    def test_delivered_bytes_do_not_count(self):
        rng = Stream(KEY)
        rng.bytes(64)
        self.assertEqual(rng, Stream(KEY, counter=1))

    def test_parts(self):
        self.assertEqual(WyRand(LAST).seed, LAST)
        self.assertEqual(Pcg64(2**128 - 5).seed, 2**128 - 5)
        self.assertEqual(Pcg64(2**64 + 5).state, (2**64 + 5).to_bytes(16, "little"))
        for kind in CHACHAS:
            rng = kind(KEY, NONCE, 2**63 + 1)
            self.assertEqual((rng.key, rng.nonce, rng.counter), (KEY, NONCE, 2**63 + 1))
        rng = Stream(KEY, NONCE, LAST, b"rest")
        self.assertEqual((rng.key, rng.nonce, rng.counter, rng.rest), (KEY, NONCE, LAST, b"rest"))
        self.assertEqual(rng.bytes(4), b"rest")
        self.assertEqual(rng.rest, b"")
        rng.bytes(1)
        self.assertEqual((rng.counter, len(rng.rest)), (0, 63))

    def test_seeds_of_numbers(self):
        """The words of `splitmix64.c` for the seed 1234567."""
        words = "599ed017fb08fc85 2c73f08458540fa5 883ebce5a3f27c77 3fbef740e9177b3f e3b8346708cb5ecd".split()
        seed = b"".join(bytes.fromhex(word)[::-1] for word in words)
        for name, kind in CLASSES.items():
            own = type("Own", (kind,), {})
            for made in kind.seed_from_u64(1234567), own.seed_from_u64(number=1234567):
                length = LENGTHS_OF_SEEDS[name]
                self.assertEqual(made.state, seed[:length] + bytes(len(made.state) - length))
            self.assertEqual((type(kind.seed_from_u64(0)), type(own.seed_from_u64(0))), (kind, own))
            self.assertEqual(len({kind.seed_from_u64(number).state for number in range(1000)}), 1000)
            self.assertEqual(kind.seed_from_u64(True), kind.seed_from_u64(1))

    def test_numbers_that_are_no_seeds(self):
        for kind in CLASSES.values():
            for number in (-1, -(2**63), 2**64, 2**128):
                with self.assertRaisesRegex(OutOfBounds, "^number is "):
                    kind.seed_from_u64(number)
            for number in (None, "7", b"7", 7.0):
                with self.assertRaisesRegex(TypeError, "^number is "):
                    kind.seed_from_u64(number)

    def test_entropy(self):
        for kind in CLASSES.values():
            made = [kind.from_entropy() for _ in range(8)]
            self.assertEqual(len({rng.state for rng in made}), 8)
            self.assertTrue(all(type(rng) is kind for rng in made))
        for kind in [*CHACHAS, Stream]:
            rng = kind.from_entropy()
            self.assertEqual((rng.counter, len(rng.state)), (0, 48))
            self.assertNotEqual(rng.nonce, bytes(8))

    def test_entropy_fills_every_byte_of_a_seed(self):
        for name, length in LENGTHS_OF_SEEDS.items():
            with mock.patch("os.urandom", side_effect=lambda count: bytes(range(1, count + 1))):
                state = CLASSES[name].from_entropy().state
            self.assertEqual(state[:length], bytes(range(1, length + 1)))
            self.assertEqual(set(state[length:]), {0} if state[length:] else set())

    def test_texts(self):
        self.assertEqual(repr(WyRand(42)), "WyRand(0x2a)")
        self.assertEqual(repr(Pcg64(2**64)), "Pcg64(0x10000000000000000)")
        for counter in (0, 7, 2**31, 2**32, 2**63 - 1, 2**63, 2**64 - 1):
            for kind in (ChaCha8, ChaCha12, ChaCha20):
                self.assertEqual(repr(kind(KEY, counter=counter)), f"<{kind.__name__} counter={counter}>")
            self.assertEqual(repr(Stream(KEY, counter=counter)), f"<Stream counter={counter} buffered=0>")
        self.assertEqual(repr(Stream(KEY, counter=7, rest=b"abc")), "<Stream counter=7 buffered=3>")
        self.assertEqual(eval(repr(Pcg64(99))), Pcg64(99))

    def test_views(self):
        """A view of a part, of every second byte or from the end counts as the bytes that it shows."""
        key, nonce, state = bytes(range(32)), bytes(range(8)), bytes(range(48))
        for one, other, whole in zip(views_of(key), views_of(nonce), views_of(state)):
            for kind in (*CHACHAS, Stream):
                self.assertEqual(kind(one, other), kind(key, nonce))
                self.assertEqual(kind.from_state(whole), kind.from_state(state))
            self.assertEqual(Stream(key, rest=other), Stream(key, rest=nonce))
            self.assertEqual(WyRand.from_state(other), WyRand.from_state(nonce))

    def test_the_state_of_a_stream(self):
        """After any number of bytes it equals that after single blocks, and the same bytes follow."""
        whole = Stream(KEY, NONCE, LAST - 3).bytes(1200)
        blocks = [ChaCha20(KEY, NONCE, counter % 2**64).block() for counter in range(LAST - 3, LAST + 17)]
        self.assertEqual(whole, b"".join(blocks)[:1200])
        for taken in range(1000):
            rng = Stream(KEY, NONCE, LAST - 3)
            rng.bytes(taken)
            drawn = -(-taken // 64)
            self.assertEqual(rng.counter, (LAST - 3 + drawn) % 2**64)
            self.assertEqual(rng.rest, whole[taken : drawn * 64])
            self.assertEqual(rng.copy().bytes(200), whole[taken : taken + 200])
            self.assertEqual(rng.bytes(200), whole[taken : taken + 200])

    def test_subclasses(self):
        class Own(WyRand):
            pass

        rng = Own(42)
        self.assertEqual(repr(rng), "Own(0x2a)")
        self.assertIs(type(rng.copy()), Own)
        self.assertNotEqual(rng, WyRand(42))

    def test_generator_alone_is_none(self):
        for call in (Generator, Generator.from_entropy, lambda: Generator.from_state(bytes(8))):
            with self.assertRaisesRegex(TypeError, "Generator cannot be instantiated"):
                call()

    def test_threads_take_turns(self):
        """Every number is drawn exactly once."""
        rng, drawn = WyRand(0), []

        def draw():
            drawn.extend([rng.u64() for _ in range(2000)])

        threads = [threading.Thread(target=draw) for _ in range(4)]
        for thread in threads:
            thread.start()
        for thread in threads:
            thread.join()
        again = WyRand(0)
        self.assertEqual(sorted(drawn), sorted(again.u64() for _ in range(8000)))


class Numbers(unittest.TestCase):
    def test_below(self):
        for rng in generators():
            for end in (1, 2, 3, 100, 2**32, 2**63, 2**63 + 1, LAST, 2**64):
                same = rng.copy()
                self.assertEqual(rng.below(end), same.range(0, end - 1))
                self.assertEqual(rng, same)
            refuses(self, rng, EmptyRange, lambda rng: rng.below(0))
            refuses(self, rng, EmptyRange, lambda rng: rng.below(-1))
            refuses(self, rng, EmptyRange, lambda rng: rng.below(-(2**63)))
            for end in (2**64 + 1, 2**65 - 1, 2**65, 2**65 + 2**64, 2**127, 2**128, 2**192, -(2**63) - 1, -(2**64)):
                refuses(self, rng, OutOfBounds, lambda rng, end=end: rng.below(end))

    def test_ranges_between_types(self):
        """A range that fits into both i64 and u64 draws the same with both."""
        for rng in generators():
            same = rng.copy()
            self.assertEqual(rng.range(0, 99), same.range(-50, 49) + 50)
            self.assertEqual(rng, same)
            for first, last in ((-1, 1), (-(2**63), 2**63 - 1), (2**63, LAST), (0, LAST), (-5, -5), (LAST, LAST)):
                self.assertTrue(first <= rng.range(first, last) <= last)

    def test_ends_are_drawn(self):
        for rng in generators():
            self.assertEqual({rng.range(-1, 1) for _ in range(200)}, {-1, 0, 1})
            self.assertEqual({rng.range(5, 7) for _ in range(200)}, {5, 6, 7})
            self.assertEqual({rng.range32(5, 7) for _ in range(200)}, {5, 6, 7})
            self.assertEqual({rng.below(3) for _ in range(200)}, {0, 1, 2})
            self.assertEqual({rng.choice("abc") for _ in range(200)}, {"a", "b", "c"})

    def test_refused_ranges(self):
        empty = [(1, 0), (0, -1), (5, -5), (-1, -2), (LAST, 0), (LAST, -(2**63)), (2**63, -1)]
        wide = [(-(2**63) - 1, 0), (0, 2**64), (-1, 2**63), (-(2**63), LAST), (2**64, 0), (0, 2**200)]
        for rng in generators():
            for bounds in empty:
                refuses(self, rng, EmptyRange, lambda rng, bounds=bounds: rng.range(*bounds))
            for bounds in wide:
                refuses(self, rng, OutOfBounds, lambda rng, bounds=bounds: rng.range(*bounds))
            for bounds in ((1, 0), (2**32 - 1, 0)):
                refuses(self, rng, EmptyRange, lambda rng, bounds=bounds: rng.range32(*bounds))
            for bounds in ((-1, 0), (0, 2**32), (2**32, 0), (0, 2**64 + 5), (-(2**64), 5)):
                refuses(self, rng, OutOfBounds, lambda rng, bounds=bounds: rng.range32(*bounds))

    def test_refused_bytes(self):
        for rng in generators():
            self.assertEqual(rng.bytes(0), b"")
            for length in (-1, 2**63, LAST, 2**64 + 1, -(2**64) + 1):
                refuses(self, rng, OutOfBounds, lambda rng, length=length: rng.bytes(length))
            refuses(self, rng, MemoryError, lambda rng: rng.bytes(2**63 - 1))
            refuses(self, rng, MemoryError, lambda rng: rng.bytes(2**62))

    def test_long_fills(self):
        for kind in CLASSES.values():
            state = kind.from_entropy().state
            whole = kind.from_state(state).bytes(1_000_001)
            parts = kind.from_state(state)
            size = 64 if kind is not Stream else 77
            self.assertEqual(b"".join(parts.bytes(size) for _ in range(200)), whole[: 200 * size])
            self.assertEqual(len(whole), 1_000_001)
            self.assertGreater(len(set(whole)), 255)

    def test_whole_numbers_of_every_kind(self):
        for rng in generators():
            same = rng.copy()
            self.assertEqual(rng.range(Index(-5), Index(5)), same.range(-5, 5))
            self.assertEqual(rng.bytes(Index(9)), same.bytes(9))
            self.assertEqual(rng.range32(False, True), same.range32(0, 1))

    def test_other_types(self):
        others = [1.0, 5.5, "5", b"5", None, [5], float("nan"), 5j, fractions.Fraction(5), object()]
        for rng in generators():
            for other in others:
                for call in (
                    lambda rng, other=other: rng.below(other),
                    lambda rng, other=other: rng.range(other, 9),
                    lambda rng, other=other: rng.range(0, other),
                    lambda rng, other=other: rng.range32(other, 9),
                    lambda rng, other=other: rng.range32(0, other),
                    lambda rng, other=other: rng.bytes(other),
                    lambda rng, other=other: rng.sample([1, 2, 3], other),
                    lambda rng, other=other: rng.sample_below(other, 0),
                    lambda rng, other=other: rng.sample_below(9, other),
                ):
                    error = refuses(self, rng, TypeError, call)
                    self.assertIn(f" is a {type(other).__name__}, not an integer", str(error))
                if hasattr(rng, "jump"):
                    refuses(self, rng, TypeError, lambda rng, other=other: rng.jump(other))

    def test_refused_makers(self):
        for kind, last in ((WyRand, LAST), (Pcg64, 2**128 - 1)):
            for seed in (-1, last + 1, 2**200):
                with self.assertRaises(OutOfBounds):
                    kind(seed)
            for seed in (1.0, "1", None, b"12345678"):
                with self.assertRaises(TypeError):
                    kind(seed)
        for kind in [*CHACHAS, Stream]:
            for key in (b"", bytes(31), bytes(33), bytes(64)):
                with self.assertRaises(WrongLength):
                    kind(key)
            for nonce in (b"", bytes(7), bytes(9), bytes(12)):
                with self.assertRaises(WrongLength):
                    kind(KEY, nonce)
            for counter in (-1, LAST + 1):
                with self.assertRaises(OutOfBounds):
                    kind(KEY, NONCE, counter)
            for wrong in (42, "x" * 32, None, 1.5, [0] * 32, 32, array.array("B", KEY), array.array("B", NONCE)):
                with self.assertRaises(TypeError):
                    kind(wrong)
                with self.assertRaises(TypeError):
                    kind(KEY, wrong)
            self.assertEqual(kind(bytearray(KEY), memoryview(NONCE)), kind(KEY, NONCE, 0))
        with self.assertRaises(WrongLength):
            Stream(KEY, rest=bytes(64))
        with self.assertRaises(TypeError):
            Stream(KEY, rest=5)

    def test_jumps(self):
        for rng in (WyRand(42), Pcg64(42), *[kind(KEY, NONCE, LAST - 10) for kind in CHACHAS]):
            for draws in (0, 1, 2, 20):
                drawn, jumped = rng.copy(), rng.copy()
                for _ in range(draws):
                    drawn.u64()
                jumped.jump(draws)
                self.assertEqual(jumped, drawn)
            last = 2**128 - 1 if type(rng) is Pcg64 else LAST
            for draws in (-1, last + 1):
                refuses(self, rng, OutOfBounds, lambda rng, draws=draws: rng.jump(draws))
            once, twice = rng.copy(), rng.copy()
            once.jump(last)
            twice.jump(last - 1)
            twice.jump(1)
            self.assertEqual(once, twice)
        self.assertFalse(hasattr(Stream, "jump"))

    def test_blocks(self):
        for kind in CHACHAS:
            rng, same = kind(KEY, NONCE, LAST), kind(KEY, NONCE, LAST)
            self.assertEqual(rng.block() + rng.block(), same.bytes(128))
            self.assertEqual((rng, rng.counter), (same, 1))
        for kind in (WyRand, Pcg64, Stream):
            self.assertFalse(hasattr(kind, "block"))


class Lists(unittest.TestCase):
    def test_mutable_sequences_of_every_kind(self):
        makers = [
            *[list, bytearray, collections.deque, OwnList, lambda items: array.array("q", items)],
            *[collections.UserList, lambda items: memoryview(bytearray(items))],
        ]
        for rng in generators():
            for length in (0, 1, 2, 10, 65):
                for name in ("shuffle", "shuffle_full"):
                    wanted = list(range(length))
                    state = rng.state
                    getattr(rng, name)(wanted)
                    after = rng.state
                    self.assertEqual(sorted(wanted), list(range(length)))
                    for maker in makers:
                        rng.state = state
                        items = maker(range(length))
                        self.assertIsNone(getattr(rng, name)(items))
                        self.assertEqual(list(items), wanted)
                        self.assertEqual(rng.state, after)

    def test_items_are_moved_and_not_copied(self):
        items = [[place] for place in range(20)]
        before = {id(item) for item in items}
        rng, same = WyRand(42), WyRand(42)
        rng.shuffle(items)
        self.assertEqual({id(item) for item in items}, before)
        places = list(range(20))
        same.shuffle(places)
        self.assertEqual(items, [[place] for place in places])

    def test_what_cannot_be_shuffled(self):
        refused = [
            *[(1, 2, 3), "abc", b"abc", range(3), None, 5, {1, 2, 3}, frozenset({1}), {0: 1, 1: 2}],
            *[(place for place in range(3)), iter([1, 2]), object(), SetOfPlaces(), collections.UserDict({0: 1, 1: 2})],
        ]
        for rng in generators():
            for items in refused:
                refuses(self, rng, TypeError, lambda rng, items=items: rng.shuffle(items))
                refuses(self, rng, TypeError, lambda rng, items=items: rng.shuffle_full(items))
            refuses(self, rng, TypeError, lambda rng: rng.shuffle(memoryview(b"abc")))
            error = refuses(self, rng, TypeError, lambda rng: rng.shuffle("abc"))
            self.assertEqual(str(error), "items is a str, not a sequence whose items can be replaced")
            error = refuses(self, rng, TypeError, lambda rng: rng.choice(5))
            self.assertEqual(str(error), "items is a int, not a sequence")

    def test_a_sequence_that_refuses_an_item(self):
        for rng in generators():
            for error in (KeyError, KeyboardInterrupt):
                for room in (0, 5):
                    items = OwnList(range(9), room, error)
                    refuses(self, rng, error, lambda rng, items=items: rng.shuffle(items))

    def test_items_are_put_back_when_an_assignment_fails(self):
        """At each index: before the item is replaced, or after."""
        for rng in generators():
            for length in (2, 3, 6, 20):
                for name in ("shuffle", "shuffle_full"):
                    for at in range(length):
                        for late in (False, True):
                            items = FailsOnce(range(length), at, late)
                            error = refuses(self, rng, KeyError, lambda rng: getattr(rng, name)(items))
                            self.assertEqual((error.args, items), ((at,), list(range(length))))
                            getattr(rng, name)(items)
                            self.assertEqual(sorted(items), list(range(length)))

    def test_a_sequence_that_fails_for_good(self):
        """The items cannot be put back. The first error propagates, and the state is unchanged."""
        for rng in generators():
            for length in (2, 3, 6, 20):
                for at in range(length):
                    items = OwnList(range(length), 0)
                    items.room = at
                    error = refuses(self, rng, KeyError, lambda rng: rng.shuffle(items))
                    self.assertEqual((error.args, items.items), ((at,), list(range(length))))
                    given = FailsForGood(range(length), at)
                    places = list(range(length))
                    rng.copy().shuffle(places)
                    error = refuses(self, rng, KeyError, lambda rng: rng.shuffle(given))
                    self.assertEqual((error.args, given), ((at,), places[:at] + list(range(at, length))))

    def exchanged(self, rng, length, full):
        """The numbers below a length, as a shuffle leaves them, with a range drawn for each of them."""
        items = list(range(length))
        for place in range(length):
            drawn = rng.range(0 if full else place, length - 1)
            items[place], items[drawn] = items[drawn], items[place]
        return items

    @once
    def test_long_shuffles_are_those_of_the_library(self):
        """Of lists and of arrays. Both make steps of their own above a length. One class draws all lengths again in
        Python, and one that holds a buffer a great one, since that takes long."""
        for kind in CLASSES.values():
            for length in (2**13, 2**13 + 1, 2**17, 2**17 + 1, 2**17 + 31, 2**17 + 2**13 + 33):
                for name in ("shuffle", "shuffle_full"):
                    rng = kind.from_entropy()
                    same, other, items = rng.copy(), rng.copy(), list(range(length))
                    getattr(rng, name)(items)
                    array_of = array.array("q", range(length))
                    getattr(other, name)(array_of)
                    self.assertTrue(array_of.tolist() == items, (kind, length, name))
                    self.assertEqual(rng, other)
                    if length < 2**14 or kind is Pcg64 or (kind, length) == (Stream, 2**17 + 31):
                        self.assertTrue(items == self.exchanged(same, length, name == "shuffle_full"))
                        self.assertEqual(rng, same)

    def test_a_sequence_of_views(self):
        """Rows that were moved over one another would be lost."""
        for rng in generators():
            for rows in ([[1, 2], [3, 4]], [[1, 2], [3, 4], [5, 6]], [[place, -place] for place in range(100)]):
                matrix = Matrix(rows)
                for name in ("shuffle", "shuffle_full"):
                    refuses(self, rng, TypeError, lambda rng, name=name: getattr(rng, name)(matrix))
                self.assertEqual([list(row) for row in matrix], rows)
                self.assertIn(list(rng.choice(matrix)), rows)

    def test_choices(self):
        for rng in generators():
            for items in ("abc", [1, 2, 3], (1, 2, 3), range(3), b"abc", array.array("q", [1, 2, 3])):
                same = rng.copy()
                self.assertEqual(rng.choice(items), items[same.below(3)])
            for count in (2**32, 2**40 + 1, 2**63 - 1):
                same = rng.copy()
                self.assertEqual(rng.choice(range(count)), same.below(count))
            for items in ("", [], (), range(0)):
                refuses(self, rng, EmptyRange, lambda rng, items=items: rng.choice(items))
            for items in (None, 5, {1, 2}, {0: 1}, iter("abc"), SetOfPlaces(), collections.UserDict({0: 1})):
                refuses(self, rng, TypeError, lambda rng, items=items: rng.choice(items))
                refuses(self, rng, TypeError, lambda rng, items=items: rng.choices(items))

    def test_samples(self):
        for rng in generators():
            letters = b"abcdefghij"
            for population in ("abcdefghij", list("abcdefghij"), tuple("abcdefghij"), OwnList("abcdefghij"), letters,
                               bytearray(letters), array.array("B", letters), range(97, 107)):
                for length in (0, 1, 3, 10):
                    same = rng.copy()
                    drawn = rng.sample(population, length)
                    self.assertEqual(drawn, [population[place] for place in same.sample_below(10, length)])
                    self.assertEqual(len(set(drawn)), length)
                    self.assertIs(type(drawn), list)
            for length in (11, 2**63, LAST):
                refuses(self, rng, EmptyRange, lambda rng, length=length: rng.sample("abcdefghij", length))
            refuses(self, rng, EmptyRange, lambda rng: rng.sample_below(0, 1))
            for length in (-1, 2**64, 2**64 + 1):
                refuses(self, rng, OutOfBounds, lambda rng, length=length: rng.sample("abc", length))
            for count in (-1, 2**64, 2**64 + 5):
                refuses(self, rng, OutOfBounds, lambda rng, count=count: rng.sample_below(count, 1))
            for length in (2**60, 2**63, LAST):
                refuses(self, rng, MemoryError, lambda rng, length=length: rng.sample_below(LAST, length))
            for population in (None, 5, {1, 2, 3}, {0: 1, 1: 2}, iter("abc")):
                refuses(self, rng, TypeError, lambda rng, population=population: rng.sample(population, 1))
            self.assertTrue(all(0 <= number < 10**18 for number in rng.sample(range(10**18), 5)))

    def test_samples_of_every_length(self):
        """Floyd's algorithm: for the last `length` numbers j, j is added if the number drawn from 0 to j is there."""
        for rng in generators():
            for length in (*range(14, 19), 31, 32, 33, 100, 128, 129, 1000, 2**13, 2**13 + 1, 3 * 2**13):
                for count in (length, length + 1, 2 * length, 10**6, 2**63 + 1, LAST):
                    same, wanted = rng.copy(), {}
                    for last in range(count - length, count):
                        drawn = same.range(0, last)
                        wanted[last if drawn in wanted else drawn] = None
                    self.assertEqual(rng.sample_below(count, length), list(wanted), (length, count))
                    self.assertEqual(rng, same)

    @once
    def test_samples_in_pieces(self):
        """The first places of a sample are themselves a sample: of fewer numbers, less one for each place left out."""
        for rng, lengths in ((WyRand(5), (10**6, 2**20, 2**20 + 1, 2**21 + 5)), (Stream(bytes(32)), (2**20 + 1,))):
            for length in lengths:
                same = rng.copy()
                drawn = rng.sample_below(2**40, length)
                self.assertEqual(len(set(drawn)), length)
                self.assertLess(max(drawn), 2**40)
                begun = same.sample_below(2**40 - (length - 10**6), 10**6)
                self.assertEqual(drawn[:10**6], begun)

    def test_samples_with_counts(self):
        """They are samples of positions among the repeated items."""
        for rng in generators():
            for counts in ([3, 0, 1, 7, 0, 5], [1] * 6, [0, 0, 0, 0, 0, 16], [5, 0, 0, 0, 0, 0], [2**13] * 6):
                letters = [letter for letter, count in zip("abcdef", counts) for _ in range(count)]
                for k in {0, 1, len(letters) // 2, len(letters)}:
                    for given in (counts, tuple(map(Index, counts)), iter(counts)):
                        same, other = rng.copy(), rng.copy()
                        drawn = same.sample("abcdef", k, counts=given)
                        self.assertEqual(drawn, [letters[place] for place in other.sample_below(len(letters), k)])
                        self.assertEqual(same, other)
                    self.assertEqual(rng.copy().sample("abcdef", counts=counts, length=k), drawn)
            self.assertEqual(rng.sample("ab", 0, counts=[0, 0]), [])
            self.assertEqual(rng.sample([], 0, counts=[]), [])
            same = rng.copy()
            self.assertEqual(rng.sample("abc", 2, counts=None), same.sample("abc", k=2))
            last = rng.copy().sample_below(LAST, 3)
            drawn = rng.sample(range(2), 3, counts=[2**63, 2**63 - 1])
            self.assertEqual(drawn, [place >> 63 for place in last])

    def test_refused_counts(self):
        rows = [([1, -1], OutOfBounds, "a count is -1, not in 0..=18446744073709551615"),
                ([LAST, 1], OutOfBounds, "a count of 1 after 18446744073709551615 leaves 64 bits"),
                ([2**64, 0], OutOfBounds, "a count is 18446744073709551616, not in 0..=18446744073709551615"),
                ([1], WrongLength, "counts has 1 items, not 2"), ([], WrongLength, "counts has 0 items, not 2"),
                ([1, 2, 3], WrongLength, "counts has 3 items, not 2"),
                ([1.0, 2], TypeError, "a count is a float, not an integer"),
                (["1", "2"], TypeError, "a count is a str, not an integer"),
                (5, TypeError, "'int' object is not iterable"),
                ([1, 0], EmptyRange, "no sample of 2 from 1"), ([0, 0], EmptyRange, "no sample of 2 from 0")]
        for rng in generators():
            for counts, kind, text in rows:
                error = refuses(self, rng, kind, lambda rng: rng.sample("ab", 2, counts=counts))
                self.assertEqual(str(error), text)

    def test_the_length_of_a_sample_has_two_names(self):
        for rng in generators():
            drawn = rng.copy().sample("abcdef", 3)
            self.assertEqual(rng.copy().sample("abcdef", k=3), drawn)
            self.assertEqual(rng.copy().sample(population="abcdef", length=3), drawn)
            numbers = rng.copy().sample_below(100, 3)
            self.assertEqual(rng.copy().sample_below(100, k=3), numbers)
            self.assertEqual(rng.copy().sample_below(count=100, length=3), numbers)
            for call in (lambda rng, **named: rng.sample("abc", **named),
                         lambda rng, **named: rng.sample_below(9, **named)):
                for named in ({}, {"k": 1, "length": 1}, {"k": None}, {"length": None}, {"k": None, "length": None}):
                    refuses(self, rng, TypeError, lambda rng: call(rng, **named))
                self.assertEqual(call(rng.copy(), k=None, length=2), call(rng.copy(), k=2, length=None))
                for name in ("k", "length"):
                    error = refuses(self, rng, OutOfBounds, lambda rng: call(rng, **{name: -1}))
                    self.assertRegex(str(error), f"^{name} is -1, not in ")


class Errors(unittest.TestCase):
    def test_errors_are_of_one_family(self):
        for error in (EmptyRange, Exhausted, OutOfBounds, WrongLength):
            self.assertTrue(issubclass(error, NanorandError))
        for error in (EmptyRange, OutOfBounds, WrongLength):
            self.assertTrue(issubclass(error, ValueError))
        self.assertTrue(issubclass(OutOfBounds, OverflowError))
        self.assertTrue(issubclass(Exhausted, RuntimeError))


if __name__ == "__main__":
    unittest.main()
