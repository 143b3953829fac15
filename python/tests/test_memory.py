"""References and memory: no call leaks or loses any, whether it succeeds or fails; and lists that change meanwhile."""

import _imp
import array
import collections
import contextlib
import copy
import ctypes
import functools
import gc
import importlib.util
import pickle
import sys
import tracemalloc
import unittest
import weakref
from unittest import mock

try:
    import _testcapi
except ImportError:
    _testcapi = None

from makers import CLASSES, KEY, NONCE, RANDOMS, generators, once, uncounted

from nanorand import ChaCha8, Generator, Pcg64, Stream, WyRand, _native, lots
from nanorand.randoms import WyRandRandom

TIMES, ROUNDS = 300, 20
BIG = 10**40
ITEMS = ["an item %d" % place for place in range(9)]


class Fails:
    """A sequence and a number. Everything but its length raises an error."""

    def __len__(self):
        return 3

    def __getitem__(self, place):
        raise KeyError(place)

    def __setitem__(self, place, item):
        raise KeyError(place)

    def __index__(self):
        raise KeyError


class FailsLate(list):
    """A list that raises an error from its sixth item on."""

    def __getitem__(self, place):
        if place > 4:
            raise KeyError(place)
        return super().__getitem__(place)


class NoLength(list):
    """A list whose length is an error."""

    def __len__(self):
        raise KeyError


class Refuses(list):
    """A list to which no items can be assigned."""

    def __setitem__(self, place, item):
        raise KeyError(place)


LIST, TUPLE, TEXT, BUFFER = ITEMS, tuple(ITEMS), "text", bytearray(16)
WORDS, DOUBLES, READ_ONLY = array.array("Q", [0] * 9), array.array("d", [0] * 9), memoryview(b"12345678")
MANY, LARGE = array.array("Q", range(600)), array.array("Q", [2**63] * 9)
LONG_LIST, LONG_WORDS = list(range(9000)), array.array("Q", range(9000))
FAILS, REFUSES, REALS, WHOLES, OTHER = Fails(), Refuses(ITEMS), [1.5] * 9, [2] * 9, object()
LATE, NO_LENGTH = FailsLate(ITEMS), NoLength(ITEMS)
# Sequences other than plain lists, with mutable items.
ROWS = [[1], {"a": 1}, bytearray(5), array.array("Q", [7]), [2], Refuses()]
OF_ROWS = [collections.deque(ROWS), collections.UserList(ROWS), type("Own", (list,), {})(ROWS)]
# Its items are new views of it at each reading.
MATRIX = (ctypes.c_int * 2 * 3)((1, 2), (3, 4), (5, 6))
SHARED = [LIST, TUPLE, TEXT, BUFFER, WORDS, DOUBLES, READ_ONLY, FAILS, LATE, REFUSES, REALS, WHOLES, OTHER, BIG]
SHARED += [KEY, NONCE, NO_LENGTH, MANY, *ROWS, *OF_ROWS]

SUCCEED = {
    "u64": lambda rng: rng.u64(),
    "random": lambda rng: rng.random(),
    "bytes": lambda rng: rng.bytes(100),
    "below": lambda rng: (rng.below(1000), rng.below(2**64)),
    "range": lambda rng: (rng.range(1, 1000), rng.range(-1000, 1000), rng.range(first=1, last=1000)),
    "range32": lambda rng: rng.range32(1, 1000),
    "randint": lambda rng: rng.randint(1, 1000),
    "uniform": lambda rng: rng.uniform(1, 2.5),
    "choice": lambda rng: (rng.choice(LIST), rng.choice(TUPLE), rng.choice(TEXT), rng.choice(WORDS)),
    "choices": lambda rng: (rng.choices(LIST, k=5), rng.choices(TUPLE, WHOLES, k=5), rng.choices(LIST, REALS, k=5)),
    "sample": lambda rng: (rng.sample(LIST, 5), rng.sample(TUPLE, 5), rng.sample(TEXT, 2)),
    "sample with counts": lambda rng: rng.sample(LIST, 15, counts=WHOLES),
    "sample_below": lambda rng: rng.sample_below(10**6, 5),
    "shuffle": lambda rng: (rng.shuffle(LIST), rng.shuffle(BUFFER), rng.shuffle(WORDS)),
    "shuffle_full": lambda rng: (rng.shuffle_full(LIST), rng.shuffle_full(BUFFER)),
    "shuffles of rows": lambda rng: [(rng.shuffle(rows), rng.shuffle_full(rows)) for rows in OF_ROWS],
    "rows": lambda rng: [(rng.choice(rows), rng.choices(rows, k=5), rng.sample(rows, 3)) for rows in OF_ROWS],
    "fill": lambda rng: (rng.fill(BUFFER), rng.fill(WORDS)),
    "fill_range": lambda rng: (rng.fill_range(BUFFER, 1, 6), rng.fill_range(WORDS, 1, 2**60)),
    "fill_random": lambda rng: rng.fill_random(DOUBLES),
    "states": lambda rng: (rng.state, setattr(rng, "state", rng.state), type(rng).from_state(rng.state), rng.copy()),
    "state_dict": lambda rng: (setattr(rng, "state", rng.state_dict), type(rng).from_state(rng.state_dict)),
    "copied": lambda rng: (copy.copy(rng), copy.deepcopy(rng)),
    "from_entropy": lambda rng: type(rng).from_entropy(),
    "seed_from_u64": lambda rng: (type(rng).seed_from_u64(7), type(rng).seed_from_u64(number=2**64 - 1)),
    "part": lambda rng: (rng.part(2**60, 3), rng.part(index=1, draws=2**60 + 1)),
    "compared": lambda rng: (rng == rng.copy(), rng != rng.copy(), rng == 5, rng < rng.copy() if False else None),
    "pickled": lambda rng: pickle.loads(pickle.dumps(rng)),
    "shown": lambda rng: repr(rng),
    "parts": lambda rng: [getattr(rng, name, None) for name in ("seed", "key", "nonce", "counter", "rest", "position")],
    "jump": lambda rng: rng.jump(10**9) if hasattr(rng, "jump") else None,
    "long jump": lambda rng: rng.jump(2**100) if isinstance(rng, Pcg64) else None,
    "distance": lambda rng: rng.distance(rng.part(1, 2**40 + 1)) if hasattr(rng, "distance") else None,
    "seek": lambda rng: rng.seek(2**65 + 5) if hasattr(rng, "seek") else None,
    "block": lambda rng: rng.block() if hasattr(rng, "block") else None,
    "made anew": lambda rng: rng.__init__(*((2**60,) if hasattr(rng, "seed") else (KEY, NONCE, 2**60))),
    "weak references": lambda rng: weakref.ref(rng)(),
}

LONG = 2**5000  # errors show only its length

FAIL = {
    "bytes": [lambda rng: rng.bytes(-1), lambda rng: rng.bytes(BIG), lambda rng: rng.bytes(OTHER),
              lambda rng: rng.bytes(FAILS),
              lambda rng: rng.bytes(2**62), lambda rng: rng.bytes(), lambda rng: rng.bytes(1, 2),
              lambda rng: rng.bytes(size=1),
              lambda rng: rng.bytes(1, length=1)],
    "below": [lambda rng: rng.below(0), lambda rng: rng.below(BIG), lambda rng: rng.below(-BIG),
              lambda rng: rng.below(FAILS)],
    "range": [lambda rng: rng.range(1000, 1), lambda rng: rng.range(BIG, BIG), lambda rng: rng.range(1, BIG),
              lambda rng: rng.range(1, OTHER), lambda rng: rng.range(-1, 2**63), lambda rng: rng.range(1000, FAILS)],
    "range32": [lambda rng: rng.range32(1000, 1), lambda rng: rng.range32(1000, BIG),
                lambda rng: rng.range32(OTHER, 1)],
    "uniform": [lambda rng: rng.uniform(TEXT, TEXT), lambda rng: rng.uniform(OTHER, 1),
                lambda rng: rng.uniform({1}, {2})],
    "choice": [lambda rng: rng.choice([]), lambda rng: rng.choice(OTHER), lambda rng: rng.choice(FAILS),
               lambda rng: rng.choice(NO_LENGTH)],
    "choices": [lambda rng: rng.choices([]), lambda rng: rng.choices(LIST, WHOLES[1:]),
                lambda rng: rng.choices(LIST, [0] * 9),
                lambda rng: rng.choices(LIST, [-1] * 9), lambda rng: rng.choices(LIST, [-1.5] * 9),
                lambda rng: rng.choices(FAILS), lambda rng: rng.choices(NO_LENGTH),
                lambda rng: rng.choices(LIST, [OTHER] * 9), lambda rng: rng.choices(LIST, WHOLES, cum_weights=WHOLES),
                lambda rng: rng.choices(LIST, [FAILS] * 9), lambda rng: rng.choices(LIST, OTHER),
                lambda rng: rng.choices(LIST, k=BIG),
                lambda rng: rng.choices(LIST, cum_weights=[3, 2] + WHOLES[2:]), lambda rng: rng.choices(LIST, k=2**62)],
    "sample": [lambda rng: rng.sample(LIST, 10), lambda rng: rng.sample(FAILS, 2), lambda rng: rng.sample(LATE, 9),
               lambda rng: rng.sample(NO_LENGTH, 2),
               lambda rng: rng.sample(OTHER, 2),
               lambda rng: rng.sample(LIST, 2, counts=WHOLES[1:]), lambda rng: rng.sample(LIST, 2, counts=[OTHER] * 9),
               lambda rng: rng.sample(LIST, 99, counts=WHOLES), lambda rng: rng.sample(LIST, 2, counts=FAILS),
               lambda rng: rng.sample(LIST), lambda rng: rng.sample(LIST, 2, length=2),
               lambda rng: rng.sample(LIST, BIG), lambda rng: rng.sample_below(5, 1000),
               lambda rng: rng.sample_below(2**63, 2**62),
               lambda rng: rng.sample_below(BIG, 1)],
    "shuffle": [lambda rng: rng.shuffle(TUPLE), lambda rng: rng.shuffle(FAILS), lambda rng: rng.shuffle(REFUSES),
                lambda rng: rng.shuffle(READ_ONLY), lambda rng: rng.shuffle_full(REFUSES),
                lambda rng: rng.shuffle(LATE), lambda rng: rng.shuffle_full(LATE), lambda rng: rng.shuffle(NO_LENGTH),
                lambda rng: rng.shuffle(MATRIX), lambda rng: rng.shuffle(OTHER)],
    "fill": [lambda rng: rng.fill(READ_ONLY), lambda rng: rng.fill(DOUBLES), lambda rng: rng.fill(OTHER),
             lambda rng: rng.fill(memoryview(BUFFER)[::2]), lambda rng: rng.fill_range(BUFFER, 6, 1),
             lambda rng: rng.fill_range(BUFFER, 1, BIG), lambda rng: rng.fill_range(WORDS, FAILS, 5),
             lambda rng: rng.fill_random(WORDS)],
    "states": [lambda rng: setattr(rng, "state", b"short"), lambda rng: setattr(rng, "state", OTHER),
               lambda rng: delattr(rng, "state"),
               lambda rng: type(rng).from_state(b"short"), lambda rng: type(rng).from_state(OTHER),
               lambda rng: hash(rng),
               lambda rng: Generator(), lambda rng: Generator.from_entropy(), lambda rng: rng < rng,
               lambda rng: Generator.seed_from_u64(5)],
    "made": [lambda rng: type(rng)(OTHER), lambda rng: type(rng)(BIG), lambda rng: type(rng)(b"short"),
             lambda rng: type(rng)(LONG), lambda rng: rng.below(LONG), lambda rng: rng.range(LONG, -LONG),
             lambda rng: rng.bytes(LONG), lambda rng: type(rng).seed_from_u64(-LONG),
             lambda rng: type(rng)(),
             lambda rng: type(rng)(KEY, b"short"), lambda rng: type(rng)(KEY, NONCE, BIG),
             lambda rng: Stream(KEY, rest=bytes(64)),
             lambda rng: Stream(KEY, rest=OTHER), lambda rng: type(rng).__new__(type(rng)).u64(),
             lambda rng: type(rng).__new__(type(rng)).bytes(100),
             lambda rng: type(rng).__new__(type(rng)).choices(LIST, WHOLES),
             lambda rng: type(rng).__new__(type(rng)).sample(LIST, 5),
             lambda rng: type(rng).__new__(type(rng)).shuffle(BUFFER),
             lambda rng: type(rng).__new__(type(rng)).fill(BUFFER),
             lambda rng: type(rng).__new__(type(rng)).uniform(1.5, BIG)],
    "jump": [lambda rng: rng.jump(-1), lambda rng: rng.jump(OTHER), lambda rng: rng.jump(FAILS),
             lambda rng: rng.jump(10**60)],
    "part": [lambda rng: rng.part(2**63, 2**63), lambda rng: rng.part(BIG, 1), lambda rng: rng.part(1, OTHER),
             lambda rng: rng.part(FAILS, 1), lambda rng: rng.part(1, FAILS), lambda rng: rng.part(1),
             lambda rng: type(rng).__new__(type(rng)).part(1, 1)],
}

OF_RANDOM = {
    "random": lambda rng: rng.random(),
    "getrandbits": lambda rng: (rng.getrandbits(9), rng.getrandbits(64), rng.getrandbits(65), rng.getrandbits(5000)),
    "randbytes": lambda rng: rng.randbytes(100),
    "generator": lambda rng: setattr(rng, "generator", rng.generator.copy()),
    "seed": lambda rng: (rng.seed(5), rng.seed("a text"), rng.seed(-BIG), rng.seed(1.5), rng.seed()),
    "states": lambda rng: rng.setstate(rng.getstate()),
    "reduced": lambda rng: rng.__reduce__(),
    "made": lambda rng: type(rng)(5).random(),
    "refused": lambda rng: [refused(call, rng) for call in (
        lambda rng: setattr(rng, "generator", OTHER), lambda rng: delattr(rng, "generator"),
        lambda rng: rng.getrandbits(-1),
        lambda rng: rng.getrandbits(OTHER), lambda rng: rng.randbytes(-1), lambda rng: rng.seed(OTHER),
        lambda rng: rng.setstate(5),
        lambda rng: rng.getrandbits(2**62), lambda rng: type(rng)([]),
        lambda rng: type(rng).__new__(type(rng)).random())],
}

OF_LOTS = {
    "digest": lambda: lots.digest(b"text"),
    "count": lambda: (lots.count(b"a\nb\n"), refused(lots.count, b"\n"), refused(lots.count, OTHER)),
    "draw": lambda: (lots.draw("seed", LIST, 5), lots.draw("seed", b"a\nb\n")),
    "refused": lambda: [refused(lots.draw, *arguments) for arguments in (
        ("", LIST), (b"\xff", LIST), ("seed", LIST, 10), ("seed", OTHER), ("seed", FAILS), ("seed", LIST, BIG),
        ("seed", TEXT), ("seed", LATE))],
}


# The errors of Python itself if there is no memory: pickle does not say why it could not import a class, and Python
# 3.10 has functions in Python end without an exception.
OF_PYTHON = {"pickled": pickle.PicklingError, "rows": SystemError, "shuffles of rows": SystemError}
# These call random.Random.seed, whose SHA-512 crashes Python 3.10 and 3.11 if there is no memory.
OF_SEEDS = {"seed", "states", "made"}


def octets_of(*things):
    """The bytes constants in the code of the functions among these."""
    constants = [one for thing in things if hasattr(thing, "__code__") for one in thing.__code__.co_consts]
    return [one for one in constants if isinstance(one, bytes)]


def names_in(code):
    """The names in the code of a function, also as texts and in the functions within it."""
    names = set(code.co_names)
    for one in code.co_consts:
        names.update(names_in(one) if hasattr(one, "co_names") else one if isinstance(one, tuple) else [one])
    return names


def refused(call, *arguments):
    with contextlib.suppress(TypeError, ValueError, KeyError, RuntimeError, MemoryError, AttributeError, BufferError):
        call(*arguments)


class Tables(unittest.TestCase):
    def test_every_call_is_in_a_table(self):
        """So a new one is tested here, whether it succeeds or has no memory."""
        for kinds, table in ((CLASSES.values(), SUCCEED), (RANDOMS, OF_RANDOM)):
            named = set().union(*(names_in(call.__code__) for call in table.values()))
            for kind in kinds:
                for base in kind.__mro__:
                    if base.__module__.startswith("nanorand."):
                        public = {name for name in vars(base) if not name.startswith("_")}
                        self.assertEqual(public - named, set(), base)
        self.assertEqual(set(lots.__all__) - set(OF_LOTS), set())


class Leaks(unittest.TestCase):
    def setUp(self):
        """Existing objects are frozen, so that the collector does not examine them repeatedly."""
        gc.collect()
        gc.freeze()
        self.addCleanup(gc.unfreeze)

    def keeps_nothing(self, call, *arguments):
        """Asserts that a call leaves as much memory, and as many references to its arguments, as before.

        Python's own caches grow now and then, so only what is lost in each round is a leak: if something is lost in
        each of three rounds, there are more, up to ROUNDS.
        """
        watched = [*arguments, *map(type, arguments), *SHARED, *ITEMS, *octets_of(call, *arguments)]
        rounds = [self.grown(watched, call, arguments) for _ in range(3)]
        while len(rounds) < ROUNDS and not self.are_even(rounds):
            rounds.append(self.grown(watched, call, arguments))
        self.assertTrue(self.are_even(rounds), rounds)

    def are_even(self, rounds):
        """Whether there is nothing that each round loses, or gains."""
        return all(min(growths) < TIMES // 10 and max(growths) > -TIMES // 10 for growths in zip(*rounds))

    def grown(self, watched, call, arguments):
        """How many more blocks of memory, and references to each object, there are after a number of calls."""
        gc.collect()
        before = [sys.getallocatedblocks(), *map(sys.getrefcount, watched)]
        for _ in range(TIMES):
            call(*arguments)
        gc.collect()
        after = [sys.getallocatedblocks(), *map(sys.getrefcount, watched)]
        return [now - then for now, then in zip(after, before)]

    @uncounted
    def test_calls_that_succeed(self):
        for rng in generators():
            for name, call in SUCCEED.items():
                with self.subTest(kind=type(rng).__name__, name=name):
                    self.keeps_nothing(call, rng)

    def test_calls_that_fail(self):
        for rng in (WyRand(1), Stream(KEY)):
            for name, calls in FAIL.items():
                for place, call in enumerate(calls):
                    with self.subTest(kind=type(rng).__name__, name=name, place=place):
                        self.keeps_nothing(refused, call, rng)

    def test_errors_that_cannot_be_imported(self):
        """What the error would have said is freed."""
        def fails(call, *arguments):
            try:
                call(*arguments)
            except ImportError:
                return
            self.fail("the error is imported")

        with mock.patch.dict(sys.modules, {"nanorand.errors": None}):
            for call, *arguments in [(WyRand(1).choice, ()), (WyRand(1).range, 1, BIG), (lots.count, b"\n")]:
                with self.subTest(call=call):
                    self.keeps_nothing(fails, call, *arguments)

    @uncounted
    def test_calls_of_random(self):
        for kind in RANDOMS:
            for name, call in OF_RANDOM.items():
                with self.subTest(kind=kind.__name__, name=name):
                    self.keeps_nothing(call, kind(5))

    def test_calls_of_lots(self):
        for name, call in OF_LOTS.items():
            with self.subTest(name=name):
                self.keeps_nothing(call)
        octets = bytes(range(65, 91))
        views = bytearray(octets), memoryview(octets), array.array("B", octets)
        for text in (octets, octets + b"\n\n", *views, TEXT, OTHER):
            for call in (lots.digest, lots.count):
                with self.subTest(name=call.__name__, kind=type(text).__name__):
                    self.keeps_nothing(refused, call, text)
            for seed in (text, octets):
                with self.subTest(name="draw", kind=type(text).__name__):
                    self.keeps_nothing(refused, lots.draw, seed, text)

    @once
    def test_long_memory(self):
        """Arrays that are too large for Python's own allocator, measured by the memory of the process."""
        rng, items, buffer = WyRand(5), list(range(50_000)), bytearray(400_000)
        calls = [
            lambda: rng.shuffle(items),
            lambda: rng.shuffle(buffer[:50_000]),
            lambda: rng.sample_below(10**6, 3000),
            lambda: rng.sample_below(10**6, 20_000),
            lambda: rng.sample(items[:2], 9000, counts=[9000, 9000]),
            lambda: rng.choices(items, k=50_000),
            lambda: rng.choices(items, [1] * 50_000),
            lambda: rng.choices(items, [1.5] * 50_000),
            lambda: rng.bytes(400_000),
            lambda: rng.fill(buffer),
            lambda: refused(rng.choices, items, [0] * 50_000),
            lambda: refused(rng.choices, items, [1] * 49_999 + [-1]),
            lambda: refused(rng.choices, items, [0.5] * 49_999 + [-1]),
            lambda: refused(rng.shuffle, Refuses(items)),
            lambda: lots.draw("seed", items, 5),
            lambda: refused(lots.draw, "seed", range(50_000), 50_001),
        ]
        for place, call in enumerate(calls):
            for _ in range(5):
                call()
            before = resident()
            for _ in range(100):
                call()
            self.assertLess(resident() - before, 10 * 2**20, place)

    def test_locks_are_freed(self):
        """A generator that has drawn without Python's lock has a lock of its own, which is freed."""
        tracemalloc.start()
        self.addCleanup(tracemalloc.stop)
        for _ in range(2):
            before, _ = tracemalloc.get_traced_memory()
            for seed in range(1000):
                WyRand(seed).bytes(70_000)
            after, _ = tracemalloc.get_traced_memory()
        self.assertLess(after - before, 10_000)

    def test_classes_are_freed(self):
        for kind in CLASSES.values():
            seen = []
            for _ in range(3):
                made = type("Own", (kind,), {})
                made.from_entropy().u64()
                seen.append(weakref.ref(made))
                del made
            gc.collect()
            self.assertEqual([one() for one in seen], [None] * 3)


# Python 3.12 and 3.13 crash where they have no memory for a function or a dict.
REFUSES_MEMORY = _testcapi is not None and not sys.gettrace() and sys.version_info < (3, 12)


@unittest.skipUnless(REFUSES_MEMORY, "this Python, or what traces it, cannot be refused memory")
class NoMemory(unittest.TestCase):
    """Each allocation fails: first only the first one, then only the second one, and so on."""

    CALLS = {
        "bytes": lambda rng: rng.bytes(100),
        "choices": lambda rng: rng.choices(LIST, k=5),
        "choices, whole weights": lambda rng: rng.choices(LIST, WHOLES, k=5),
        "choices, weights": lambda rng: rng.choices(LIST, REALS, k=5),
        "sample": lambda rng: rng.sample(LIST, 5),
        "sample_below": lambda rng: rng.sample_below(10**6, 5),
        "shuffle": lambda rng: rng.shuffle(ITEMS[:]),
        "sample with counts": lambda rng: rng.sample(LIST, 5, counts=WHOLES),
        "sample_below, long": lambda rng: rng.sample_below(10**6, 9000),
        "sample, long": lambda rng: rng.sample(range(10**6), 9000, counts=None),
        "choices, long": lambda rng: rng.choices(LIST, k=9000),
        "shuffle, long": lambda rng: rng.shuffle(LONG_LIST),
        "shuffle, any": lambda rng: rng.shuffle(WORDS),
        "shuffle, long, any": lambda rng: rng.shuffle(LONG_WORDS),
        "part": lambda rng: rng.part(1, 5),
        "copy": lambda rng: rng.copy(),
        "state_dict": lambda rng: setattr(rng, "state", rng.part(1, 5).state_dict),
        "distance": lambda rng: getattr(rng, "distance", lambda other: other)(rng.part(1, 2**40 + 1)),
        "seek": lambda rng: getattr(rng, "seek", lambda position: rng.copy())(2**69 + 5),
        "block": lambda rng: getattr(rng, "block", rng.copy)(),
        "uniform": lambda rng: rng.uniform(WHOLES[0], BIG),
        "choice": lambda rng: rng.choice(LARGE),
        "made anew": lambda rng: type(rng)(2**60) if hasattr(rng, "seed") else type(rng)(KEY, NONCE, 2**60),
    }

    def test_the_generator_is_as_it_was(self):
        for rng in generators():
            for name, call in self.CALLS.items():
                with self.subTest(kind=type(rng).__name__, name=name):
                    before = rng.state
                    refusals = 0
                    for request in range(40):
                        if self.is_refused(request, call, rng):
                            refusals += 1
                            self.assertEqual(rng.state, before, request)
                        rng.state = before
                    self.assertGreater(refusals, 0)

    def test_calls_that_succeed(self):
        """A call that is valid raises no other error than MemoryError."""
        for rng in generators():
            before, refusals = rng.state, 0
            for name, call in SUCCEED.items():
                with self.subTest(kind=type(rng).__name__, name=name):
                    refusals += self.refusals(call, rng, usual=OF_PYTHON.get(name, ()))
                    rng.state = before
            self.assertGreater(refusals, 100)

    def test_calls_of_random(self):
        for kind in RANDOMS:
            for name, call in OF_RANDOM.items():
                if name not in {"refused", *OF_SEEDS}:
                    with self.subTest(kind=kind.__name__, name=name):
                        self.refusals(call, kind(5))

    def test_calls_of_lots(self):
        for name, call in OF_LOTS.items():
            if name != "refused":
                with self.subTest(name=name):
                    self.assertGreater(self.refusals(call), 0)

    def test_views_are_not_shuffled(self):
        before = bytes(MATRIX)
        for rng in generators():
            for call in (rng.shuffle, rng.shuffle_full):
                self.assertGreater(self.refusals(call, MATRIX, usual=TypeError), 0)
                self.assertEqual(bytes(MATRIX), before)

    def refusals(self, call, *arguments, usual=()):
        """How often the call is refused, if each of its allocations fails once."""
        refusals = request = granted = 0
        while granted < 5:
            is_refused = self.is_refused(request, call, *arguments, usual=usual)
            refusals, granted, request = refusals + is_refused, 0 if is_refused else granted + 1, request + 1
        return refusals

    def test_the_generator_of_a_random_is_as_it_was(self):
        for kind in RANDOMS:
            rng = kind(5)
            before = rng.generator.state
            for call, size in ((rng.getrandbits, 65), (rng.getrandbits, 5000), (rng.randbytes, 100)):
                refusals = 0
                for request in range(20):
                    if self.is_refused(request, call, size):
                        refusals += 1
                        self.assertEqual(rng.generator.state, before, (kind, size, request))
                    rng.generator.state = before
                self.assertGreater(refusals, 0)

    def is_refused(self, request, call, *arguments, usual=()):
        """Whether the call raises MemoryError if its allocation with this number fails.

        Otherwise it returns or raises one of the usual errors. Any other error fails the test.
        """
        _testcapi.set_nomemory(request, request + 1)
        try:
            call(*arguments)
        except MemoryError:
            return True
        except usual:
            return False
        finally:
            _testcapi.remove_mem_hooks()
        return False

    @once
    def test_nothing_is_kept(self):
        """Only calls without Python code, which keeps some references itself. Python has others to None meanwhile."""
        for rng in (WyRand(1), Pcg64(1), ChaCha8(KEY), Stream(KEY)):
            calls = [
                *[(rng.u64,), (rng.random,), (rng.bytes, 100), (rng.below, 1000), (rng.below, 2**64), (rng.__repr__,)],
                *[(rng.range, 1, 1000), (rng.range, -1000, 1000), (rng.range32, 1, 1000), (rng.randint, 1, 1000)],
                *[(rng.uniform, 1, 2.5), (rng.uniform, WHOLES[0], BIG), (rng.choice, LIST), (rng.choice, WORDS)],
                *[(rng.choices, LIST), (rng.choices, WORDS, WHOLES), (rng.choices, LIST, REALS), (rng.sample, LIST, 5)],
                *[(rng.sample, WORDS, 5), (rng.sample_below, 10**6, 5), (rng.shuffle, LIST), (rng.shuffle, WORDS)],
                *[(rng.shuffle_full, LIST), (rng.shuffle_full, WORDS), (rng.fill, WORDS), (rng.fill_random, DOUBLES)],
                *[(rng.fill_range, WORDS, 1, 2**60), (rng.copy,), (rng.part, 2**60, 3), (type(rng).from_entropy,)],
                *[(rng.__eq__, rng.copy()), (rng.__reduce__,), (type(rng).from_state, rng.state), (rng.below, OTHER)],
                *[(rng.choice, ()), (rng.range, 5, 1), (rng.range, 1, BIG), (rng.sample, LIST, 10), (rng.fill, OTHER)],
                *[(rng.choices, LIST, [-1] * 9), (rng.choices, LIST, WHOLES[1:]), (type(rng).from_state, b"short")],
                *[(getattr, rng, name, OTHER) for name in ("state", "state_dict", "seed", "key", "nonce", "counter")],
                *[(getattr, rng, name, OTHER) for name in ("rest", "position")], (type(rng).from_state, rng.state_dict),
                *[(getattr(rng, "distance", rng.copy), rng), (getattr(rng, "seek", rng.copy), 2**65 + 5)],
                *[(type(rng).from_state, {"generator": "other"})],
                *[(getattr(rng, "jump", rng.copy),), (type(rng), KEY), (type(rng), 5), (type(rng), 2**100)],
                *[(rng.shuffle, LONG_LIST), (rng.shuffle_full, LONG_LIST), (rng.sample, LIST, 10**9)],
                *[(functools.partial(rng.choices, LIST, k=9000),)],
                *[(functools.partial(rng.sample, LIST, 9000, counts=[2000] * 9),)],
                *[(rng.copy().bytes, 100_000), (rng.shuffle, MANY), (rng.choice, MANY), (rng.sample, MANY, 300)],
            ]
            for call, *arguments in calls:
                with self.subTest(call=call, arguments=arguments):
                    self.keeps_nothing([rng, type(rng), *SHARED, *ITEMS, *arguments], call, arguments)

    def test_a_module_that_is_loaded(self):
        """Python may fail to create a class without saying why, with a SystemError."""
        spec = importlib.util.spec_from_file_location("nanorand._native", _native.__file__)
        refusals = [self.is_refused(request, self.loads, importlib.util.module_from_spec(spec))
                    for request in range(700)]
        self.assertGreater(sum(refusals), 100)
        self.assertFalse(any(refusals[-50:]))

    @staticmethod
    def loads(module):
        try:
            _imp.exec_dynamic(module)
        except SystemError:
            raise MemoryError from None

    def keeps_nothing(self, watched, call, arguments, times=10):
        """Whichever allocation fails, there are as many references to these objects afterwards."""
        usual = self.error_of(call, *arguments)
        request = granted = 0
        while granted < 5:
            before = list(map(sys.getrefcount, watched))
            refusals = sum(self.is_refused(request, call, *arguments, usual=usual) for _ in range(times))
            after = list(map(sys.getrefcount, watched))
            for one, then, now in zip(watched, before, after):
                self.assertLess(abs(now - then), times // 2, (request, type(one)))
            granted = 0 if refusals else granted + 1
            request += 1

    @staticmethod
    def error_of(call, *arguments):
        """The error that the call raises if there is memory, or none."""
        try:
            call(*arguments)
        except Exception as error:
            return type(error)
        return ()


def resident():
    """The bytes of this process that are in memory."""
    with open("/proc/self/statm", encoding="ascii") as file:
        return int(file.read().split()[1]) * 4096


class Weak(unittest.TestCase):
    def test_weak_references(self):
        for rng in generators():
            for kind in (type(rng), type("Own", (type(rng),), {})):
                made, called = kind.from_state(rng.state), []
                seen = weakref.ref(made)
                weakref.finalize(made, called.append, 1)
                self.assertIs(seen(), made)
                del made
                self.assertIsNone(seen())
                self.assertEqual(called, [1])


class Changing(unittest.TestCase):
    """Sequences in Python change themselves, or the generator, during a call. No freed memory is read."""

    def test_a_list_that_shrinks(self):
        class Shrinks(list):
            def __len__(self):
                return 1000

            def __getitem__(self, place):
                self.clear()
                return super().__getitem__(place)

        class Number:
            def __init__(self, items):
                self.items = items

            def __index__(self):
                self.items.clear()
                return 3

        for rng in generators():
            for call in (rng.choice, rng.choices, rng.shuffle, rng.shuffle_full,
                         lambda items, rng=rng: rng.sample(items, 5)):
                with self.assertRaises(IndexError):
                    call(Shrinks("abc"))
            items = list("abcdef")
            with self.assertRaises(IndexError):
                rng.sample(items, Number(items))
            items = list("abcdef")
            with self.assertRaises(IndexError):
                rng.choices(items, k=Number(items)) if len(items) < 6 else rng.choices(items, [Number(items)] * 6)

    def test_items_that_go_when_they_are_replaced(self):
        class Last:
            def __init__(self, items):
                self.items = items

            def __del__(self):
                self.items.clear()

        class Items(list):
            def __setitem__(self, place, item):
                super().__setitem__(place, None)

        for rng in generators():
            items = Items()
            items.extend(Last(items) for _ in range(20))
            rng.shuffle(items)
            self.assertEqual(items, [])

    def test_an_item_that_draws(self):
        """If an item draws while a shuffle moves it, no item is lost, even if the shuffle fails."""
        class Draws(list):
            def __getitem__(self, place):
                self.rng.u64()
                return super().__getitem__(place)

            def __setitem__(self, place, item):
                self.rng.u64()
                if self.fails:
                    raise KeyError(place)
                super().__setitem__(place, item)

        for rng in generators():
            for fails in (False, True):
                items = Draws(range(9))
                items.rng, items.fails = rng, fails
                before = rng.state
                if fails:
                    self.assertRaises(KeyError, rng.shuffle, items)
                else:
                    rng.shuffle(items)
                self.assertEqual(sorted(items), list(range(9)))
                self.assertEqual(rng.state != before, True)
                rng.choice(items)

    def test_a_state_that_changes_while_it_is_read(self):
        """A key that is compared with `state` removes the generator's name, whose memory then gets other texts."""
        class Removes(str):
            def __hash__(self):
                return hash("state")

            def __eq__(self, other):
                length = len(saved.pop("generator", ""))
                others.extend("?" * length for _ in range(100))
                return False

        for rng in generators():
            saved, others = {}, []
            saved = {Removes(): None, **rng.state_dict}
            self.assertEqual(type(rng).from_state(saved), rng)
            self.assertNotIn("generator", saved)

    def test_a_new_that_makes_something_else(self):
        class Other(WyRand):
            def __new__(cls, *arguments):
                return made

        for made in (None, 5, WyRandRandom(1), object()):
            with self.assertRaisesRegex(TypeError, "^what __new__ made is a "):
                Other.from_state(bytes(8))
        made = Stream(KEY)
        with self.assertRaises(ValueError):
            Other.from_state(bytes(8))
        self.assertIs(Other.from_entropy(), made)

    def test_an_init_that_was_not_called(self):
        for kind in CLASSES.values():
            class Own(kind):
                def __init__(self):
                    """Does not call the base class's."""

            calls = [lambda rng: rng.u64(), lambda rng: rng.state, lambda rng: rng.copy(), lambda rng: repr(rng),
                     lambda rng: rng.fill(bytearray(100_000)), lambda rng: pickle.dumps(rng), lambda rng: rng == Own(),
                     lambda rng: rng.shuffle([1, 2]), lambda rng: rng.shuffle(bytearray(2)),
                     lambda rng: rng.choice("ab"),
                     lambda rng: rng.sample("ab", 1), lambda rng: rng.choices("ab"), lambda rng: rng.uniform(1, 2),
                     lambda rng: rng.range32(1, 2), lambda rng: rng.range(-1, 2), lambda rng: rng.bytes(5),
                     lambda rng: rng.range(1, 2), lambda rng: rng.random(), lambda rng: rng.below(5),
                     lambda rng: rng.below(2**64), lambda rng: rng.randint(1, 2), lambda rng: rng.sample_below(5, 2),
                     lambda rng: rng.part(1, 2), lambda rng: rng.part(1, draws=1), lambda rng: copy.copy(rng),
                     lambda rng: rng.fill_range(bytearray(5), 1, 6), lambda rng: rng.fill_random(DOUBLES)]
            own = ("seed", "key", "nonce", "counter", "rest", "position", "state_dict")
            calls += [lambda rng, name=name: getattr(rng, name) for name in own if hasattr(kind, name)]
            own = {"jump": [1], "seek": [1], "block": [], "distance": [kind.from_entropy()]}
            calls += [lambda rng, name=name, given=given: getattr(rng, name)(*given) for name, given in own.items()
                      if hasattr(kind, name)]
            for call in calls:
                wanted = f"^Own has no state: {kind.__name__}.__init__ was not called$"
                with self.assertRaisesRegex(RuntimeError, wanted):
                    call(Own())
            rng = Own()
            rng.state = kind.from_entropy().state
            rng.u64()


if __name__ == "__main__":
    unittest.main()
