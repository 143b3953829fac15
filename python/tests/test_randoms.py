"""The generators as `random.Random`: each of its public calls, seeds, states and errors."""

import copy
import fractions
import gc
import hashlib
import math
import pickle
import random
import statistics
import sys
import unittest
import weakref

from makers import COPIES, KEY, RANDOMS, Index, once, refuses, stays_itself

from nanorand import OutOfBounds, Pcg64, Stream, WrongLength, WyRand
from nanorand.errors import ForeignState
from nanorand.randoms import GeneratorRandom, Pcg64Random, StreamRandom, WyRandRandom

SEED_LENGTHS = {"WyRandRandom": 8, "Pcg64Random": 16}

CALLS = {
    "betavariate": lambda rng: rng.betavariate(2, 3),
    "binomialvariate": lambda rng: rng.binomialvariate(10, 0.3),
    "choice": lambda rng: rng.choice("abc"),
    "choices": lambda rng: rng.choices("abc", weights=[5, 0, 1], k=5),
    "expovariate": lambda rng: rng.expovariate(2),
    "gammavariate": lambda rng: rng.gammavariate(2, 3),
    "gauss": lambda rng: rng.gauss(0, 1),
    "getrandbits": lambda rng: rng.getrandbits(100),
    "lognormvariate": lambda rng: rng.lognormvariate(0, 1),
    "normalvariate": lambda rng: rng.normalvariate(0, 1),
    "paretovariate": lambda rng: rng.paretovariate(2),
    "randbytes": lambda rng: rng.randbytes(9),
    "randint": lambda rng: rng.randint(1, 6),
    "random": lambda rng: rng.random(),
    "randrange": lambda rng: rng.randrange(5, 50, 5),
    "sample": lambda rng: rng.sample(range(100), 5),
    "shuffle": lambda rng: rng.shuffle(list(range(10))),
    "triangular": lambda rng: rng.triangular(0, 10, 3),
    "uniform": lambda rng: rng.uniform(-1, 1),
    "vonmisesvariate": lambda rng: rng.vonmisesvariate(1, 2),
    "weibullvariate": lambda rng: rng.weibullvariate(1, 2),
}
NO_DRAWS = {"seed", "getstate", "setstate"}


def public_calls():
    """The public methods of this Python's random.Random."""
    names = {name for name in dir(random.Random) if not name.startswith("_")}
    return {name for name in names if callable(getattr(random.Random, name))}


class Unseeded:
    """A user's base class, before a class of the package: made without arguments, and with a larger state."""

    def __init__(self):
        super().__init__(7)
        self.kept = []

    def getstate(self):
        return super().getstate(), self.kept

    def setstate(self, state):
        inherited, self.kept = state
        super().setstate(inherited)


# A subclass of each class, in this module, where pickles find them.
UNSEEDED = {kind: type(f"Unseeded{kind.__name__}", (Unseeded, kind), {}) for kind in RANDOMS}
globals().update({own.__name__: own for own in UNSEEDED.values()})


def attributed(kind):
    """A user's subclass of a class: its `__init__` needs an argument, and it has attributes and slots of its own."""

    def __init__(self, name):
        kind.__init__(self, name)
        self.name, self.steps, self.slot = name, [], "slot"

    members = {"__init__": __init__, "__slots__": ("slot", "empty"), "__module__": __name__}
    return type(f"Attributed{kind.__name__}", (kind,), members)


ATTRIBUTED = {kind: attributed(kind) for kind in RANDOMS}
globals().update({own.__name__: own for own in ATTRIBUTED.values()})


class Twin(random.Random):
    """Python's own class, with a `random` and `getrandbits` that only a generator provides."""

    def __new__(cls, generator):
        return super().__new__(cls)

    def __init__(self, generator):
        self.generator = generator
        super().__init__()

    def seed(self, *arguments):
        self.gauss_next = None

    def random(self):
        return (self.generator.u64() >> 11) / 2**53

    def getrandbits(self, k):
        octets = self.generator.bytes(-(-k // 8))
        return int.from_bytes(octets, "little") // 2 ** (8 * len(octets) - k)


def refused_states(kind):
    """Each state for which `setstate` raises an error, and the error."""
    older = kind(2)
    older.gauss(0, 1)
    name, octets, kept = older.getstate()
    foreign = [other(2).getstate() for other in RANDOMS if other is not kind]
    foreign += [random.Random(2).getstate(), (), None, 5, b"state", (name, octets), (name, octets, kept, None)]
    foreign += [[name, octets, kept], *((other, octets, kept) for other in (None, 5, "", name.encode(), name.lower()))]
    foreign += [(name, octets, other) for other in ("x", b"x", 1, True, 1j, (kept,), type("Own", (float,), {})(kept))]
    wrong = [octets[:7], b"", b"short", octets + bytes(64)]
    return [*((ForeignState, state) for state in foreign), *((WrongLength, (name, other, kept)) for other in wrong),
            *((TypeError, (name, other, kept)) for other in (None, 5, "text", [*octets], older.generator))]


class Randoms(unittest.TestCase):
    def test_every_call(self):
        self.assertLessEqual(public_calls() - NO_DRAWS, set(CALLS))
        for kind in RANDOMS:
            for name in public_calls() - NO_DRAWS:
                with self.subTest(kind=kind.__name__, name=name):
                    rng, same = kind(42), kind(42)
                    before = rng.generator.state
                    results = [CALLS[name](rng) for _ in range(5)]
                    self.assertNotEqual(rng.generator.state, before)
                    self.assertEqual([CALLS[name](same) for _ in range(5)], results)
                    twin = Twin(kind(42).generator)
                    self.assertEqual([CALLS[name](twin) for _ in range(5)], results)

    def test_no_call_takes_python_s_own_generator(self):
        for kind in RANDOMS:
            for name in public_calls() - NO_DRAWS:
                random.seed(1)
                before = random.getstate()
                CALLS[name](kind(42))
                self.assertEqual(random.getstate(), before)

    def test_randoms(self):
        for kind in RANDOMS:
            rng = kind("randoms")
            same = rng.generator.copy()
            numbers = [rng.random() for _ in range(2000)]
            self.assertEqual(numbers, [(same.u64() >> 11) * 2**-53 for _ in range(2000)])
            self.assertTrue(all(0.0 <= number < 1.0 for number in numbers))
            self.assertAlmostEqual(statistics.fmean(numbers), 0.5, delta=0.05)
            self.assertIs(type(numbers[0]), float)

    def test_ends_of_random(self):
        rng = StreamRandom(1)
        for number, wanted in ((0, 0.0), (2**11, 2**-53), (2**11 - 1, 0.0), (2**64 - 1, 1 - 2**-53)):
            rng.generator = Stream(KEY, rest=number.to_bytes(8, "little"))
            self.assertEqual(rng.random(), wanted)

    def test_bits(self):
        for kind in RANDOMS:
            for bits in (0, 1, 2, 7, 8, 9, 31, 32, 33, 63, 64, 65, 511, 512, 513, 10_000, 1_000_003):
                rng = kind("bits")
                same = rng.generator.copy()
                times = 50 if bits <= 10_000 else 5
                drawn = [rng.getrandbits(bits) for _ in range(times)]
                length = -(-bits // 8)
                wanted = [int.from_bytes(same.bytes(length), "little") >> 8 * length - bits for _ in range(times)]
                self.assertEqual(drawn, wanted)
                self.assertTrue(all(0 <= number < 2**bits for number in drawn))
                if bits <= 10_000:
                    self.assertEqual(max(number.bit_length() for number in drawn), bits)

    def test_bytes(self):
        for kind in RANDOMS:
            for length in (0, 1, 8, 63, 64, 65, 1000, 65_535, 65_537, 1_000_003, 5_000_001):
                rng, same = kind(5), kind(5)
                self.assertEqual(rng.randbytes(length), same.generator.bytes(length))
                self.assertEqual(rng.randbytes(length), same.getrandbits(8 * length).to_bytes(length, "little"))

    def test_seeds_of_other_types(self):
        for kind, generator in RANDOMS.items():
            self.assertIs(type(kind(1).generator), generator)
            self.assertEqual(kind(True).generator, kind(1).generator)
            self.assertEqual(kind(Index(5)).generator, kind(5).generator)
            for seed in ([1], (1,), {1: 1}, 1j, object(), fractions.Fraction(1)):
                with self.assertRaisesRegex(TypeError, f"^seed is a {type(seed).__name__}, not "):
                    kind(seed)

    def test_numbers_are_mixed(self):
        floats = [0.0, -0.0, 1.0, 1.5, -1.5, 1e300, 5e-324, math.inf, -math.inf, math.nan]
        for kind in RANDOMS:
            length = SEED_LENGTHS.get(kind.__name__, 32)
            limit = 256**length
            seeds = [0, 1, 2, 42, -1, -2, limit - 1, -limit, limit, limit + 1, 10**5000, -(10**5000), *floats]
            texts = ("0", "0x0", "-1", "-0x1", "1.5", b"\xff", b"\xffint", "int 0x0")
            seen = {kind(text).generator.state for text in texts}
            self.assertEqual(len(seen), 8)
            for seed in seeds:
                text = f"float {seed.hex()}" if isinstance(seed, float) else f"int {seed:#x}"
                made = kind(seed).generator
                self.assertEqual(made.state[:length], hashlib.sha256(b"\xff" + text.encode()).digest()[:length])
                self.assertEqual(set(made.state[length:]), {0} if made.state[length:] else set())
                seen.add(made.state)
            self.assertEqual(len(seen), 8 + len(seeds))

    @once
    def test_neighbouring_seeds_are_unrelated(self):
        """The first numbers of the seeds 0, 1, 2, .. vary together by no more than the noise of 10^5 seeds."""
        count = 100_000
        for kind in (WyRandRandom, Pcg64Random):
            rng, firsts = kind(0), []
            for seed in range(count):
                rng.seed(seed)
                firsts.append(rng.random())
            mean = statistics.fmean(firsts)
            self.assertAlmostEqual(mean, 0.5, delta=5 / math.sqrt(12 * count))
            square = statistics.fmean((first - mean) ** 2 for first in firsts)
            for apart in (1, 2, 3, 1000, 2**16):
                product = statistics.fmean((one - mean) * (two - mean) for one, two in zip(firsts, firsts[apart:]))
                self.assertLess(abs(product / square), 5 / math.sqrt(count - apart), (kind, apart))

    def test_python_s_own_generator_is_seeded_too(self):
        """A call that names the base class does not return 0.0 for ever."""
        for kind in RANDOMS:
            rng, same, other = kind(5), kind(5), kind(6)
            drawn = [random.Random.random(rng) for _ in range(5)]
            self.assertEqual(len(set(drawn)), 5)
            self.assertEqual([random.Random.random(same) for _ in range(5)], drawn)
            self.assertNotEqual([random.Random.random(other) for _ in range(5)], drawn)
            self.assertEqual(rng.generator, kind(5).generator)
            state = kind(5).getstate()
            for again in (pickle.loads(pickle.dumps(kind(5))), copy.copy(kind(5))):
                self.assertEqual([random.Random.random(again) for _ in range(5)], drawn)
            other.setstate(state)
            self.assertEqual([random.Random.random(other) for _ in range(5)], drawn)
            self.assertNotEqual(random.Random.random(kind()), random.Random.random(kind()))

    def test_seeds_of_subclasses(self):
        """The text, the number or the bytes count, whatever texts the subclass has."""
        def shown(base):
            says = {name: lambda self, *_: "another" for name in ("__str__", "__repr__", "__format__")}
            return type("Shown", (base,), says)

        for kind in RANDOMS:
            for seed in ("red", "", "7", 7, -7, 2**300, 1.5, -0.0, b"red", bytearray(b"red")):
                same = shown(type(seed))(seed)
                self.assertEqual(kind(same).generator, kind(seed).generator, seed)
                self.assertEqual(str(same), "another")

    def test_what_a_replaced_generator_sees_at_its_end(self):
        """Its `__del__` sees the new generator, and may read the attribute, set it or draw."""
        for kind, of in RANDOMS.items():
            for ends in ("reads", "sets", "draws"):
                seen = []

                class Ending(of):
                    def __del__(self):
                        seen.append(owner.generator)
                        if ends == "sets":
                            owner.generator = of.seed_from_u64(8)
                        elif ends == "draws":
                            owner.random()

                owner = kind(1)
                owner.generator = Ending.seed_from_u64(7)
                new = of.seed_from_u64(9)
                owner.generator = new
                self.assertEqual([one is new for one in seen], [True], (kind, ends))
                wanted = of.seed_from_u64(8 if ends == "sets" else 9)
                if ends == "draws":
                    wanted.random()
                self.assertEqual(owner.generator, wanted, (kind, ends))

    def test_seeds_by_their_index(self):
        class Index:
            def __index__(self):
                return 7

        for kind in RANDOMS:
            self.assertEqual(kind(Index()).generator, kind(7).generator)

    def test_texts_are_seeds(self):
        for kind in RANDOMS:
            length = SEED_LENGTHS.get(kind.__name__, 32)
            for text in ("", "a seed", "Zürich", "A seed\n", " a seed", "\ufeff", "e\u0301"):
                digest = hashlib.sha256(text.encode()).digest()
                for seed in (text, text.encode(), bytearray(text.encode())):
                    self.assertEqual(kind(seed).generator.state[:length], digest[:length])

    def test_no_seed_is_one_of_the_system(self):
        for kind in RANDOMS:
            self.assertEqual(len({kind().generator.state for _ in range(8)}), 8)
            rng = kind(42)
            rng.seed()
            self.assertNotEqual(rng.generator, kind(42).generator)

    def test_seed(self):
        for kind in RANDOMS:
            rng, same = kind(1), kind(2)
            rng.gauss(0, 1)
            rng.seed(2)
            self.assertEqual([rng.gauss(0, 1) for _ in range(5)], [same.gauss(0, 1) for _ in range(5)])
            rng.seed(a=2, version=1)
            self.assertEqual(rng.generator, kind(2).generator)

    def test_a_seed_drops_what_gauss_has_kept(self):
        for kind in RANDOMS:
            for seed in (None, 0, 2, -1, 2**400, 1.5, "text", b"octets", bytearray(b"octets")):
                rng = kind(1)
                rng.gauss(0, 1)
                self.assertIsNotNone(rng.getstate()[2])
                rng.seed(seed)
                self.assertIsNone(rng.getstate()[2])
                if seed is not None:
                    self.assertEqual(rng.getstate(), kind(seed).getstate())

    def test_each_octet_of_a_seed_counts(self):
        """Even at both ends, where text is often stripped."""
        whole = [b"", b"a", b"octets", bytes(31), bytes(100)]
        seeds = [*whole, *(octets + end for octets in whole for end in (b"\0", b"\0\0", b" ", b"\n", b"\xff"))]
        seeds += [end + octets for octets in whole for end in (b"\0", b" ", b"\n", b"\xef\xbb\xbf")]
        for kind in RANDOMS:
            length = SEED_LENGTHS.get(kind.__name__, 32)
            for octets in seeds:
                wanted = hashlib.sha256(octets).digest()[:length]
                for seed in (octets, bytearray(octets)):
                    self.assertEqual(kind(seed).getstate()[1][:length], wanted)

    def test_long_seeds(self):
        """Each character counts, even after a million others."""
        for kind in RANDOMS:
            length = SEED_LENGTHS.get(kind.__name__, 32)
            for size in (1000, 65_535, 65_537, 1_000_003):
                for text in ("x" * size, "x" * size + "y", "x" * size + "z"):
                    digest = hashlib.sha256(text.encode()).digest()
                    for seed in (text, text.encode(), bytearray(text.encode())):
                        self.assertEqual(kind(seed).generator.state[:length], digest[:length])

    def test_a_refused_seed_changes_nothing(self):
        for kind in RANDOMS:
            rng = kind(1)
            rng.gauss(0, 1)
            before = rng.getstate()
            for seed in ([1], 1j, "\ud800"):
                with self.assertRaises((TypeError, UnicodeError)):
                    rng.seed(seed)
                self.assertEqual(rng.getstate(), before)

    def test_states(self):
        for kind in RANDOMS:
            rng = kind("states")
            for draws in range(4):
                rng.gauss(0, 1)
                rng.getrandbits(8 * draws)
                saved = rng.getstate()
                wanted = [rng.gauss(0, 1) for _ in range(5)]
                rng.setstate(saved)
                self.assertEqual([rng.gauss(0, 1) for _ in range(5)], wanted)
                for kept in (0.0, -0.5, None):
                    rng.setstate((*saved[:2], kept))
                    self.assertEqual(rng.getstate(), (*saved[:2], kept))
                other = kind()
                other.setstate(saved)
                self.assertEqual([other.gauss(0, 1) for _ in range(5)], wanted)

    def test_refused_states(self):
        """They change nothing, although their other parts are those of another state."""
        for kind in RANDOMS:
            rng, same = kind(1), kind(1)
            own = rng.generator
            for error, state in refused_states(kind):
                for _ in range(2):
                    with self.assertRaises(error) as caught:
                        rng.setstate(state)
                    if error is not TypeError:
                        self.assertIs(type(caught.exception), error)
                        stays_itself(self, caught.exception)
                    self.assertIs(rng.generator, own)
                    self.assertEqual(rng.getstate(), same.getstate())
                    # With what `gauss` has kept, and without.
                    self.assertEqual((rng.gauss(0, 1), rng.random()), (same.gauss(0, 1), same.random()))

    def test_copies(self):
        ways = [copy.copy, copy.deepcopy]
        ways += [
            lambda rng, protocol=protocol: pickle.loads(pickle.dumps(rng, protocol))
            for protocol in range(2, pickle.HIGHEST_PROTOCOL + 1)
        ]
        for kind in RANDOMS:
            for way in ways:
                rng = kind(7)
                rng.gauss(0, 1)
                made = way(rng)
                self.assertIs(type(made), kind)
                self.assertIsNot(made.generator, rng.generator)
                self.assertEqual(made.getstate(), rng.getstate())
                made.gauss(0, 1)
                made.random()
                self.assertNotEqual(made.getstate(), rng.getstate())

    def test_pickles_of_version_1(self):
        """Pickles that the package wrote when it was still implemented in Python."""
        oldest = (
            b"\x80\x02cnanorand.randoms\nWyRandRandom\nq\0)Rq\1X\6\0\0\0WyRandq\2c_codecs\nencode\nq\3X\x08\0\0\0"
            b"*\0\0\0\0\0\0\0q\4X\6\0\0\0latin1q\5\x86q\6Rq\7N\x87q\x08b."
        )
        newer = (
            b"\x80\x04\x95@\0\0\0\0\0\0\0\x8c\x10nanorand.randoms\x94\x8c\x0cWyRandRandom\x94\x93\x94)R\x94"
            b"\x8c\x06WyRand\x94C\x08*\0\0\0\0\0\0\0\x94N\x87\x94b."
        )
        for text in (oldest, newer):
            self.assertEqual(pickle.loads(text).getstate(), ("WyRand", WyRand(42).state, None))

    def test_refused_bits(self):
        for kind in RANDOMS:
            rng = kind(1)
            for bits in (-1, 8 * sys.maxsize + 1, 2**80):
                refuses(self, rng.generator, OutOfBounds, lambda _, bits=bits: rng.getrandbits(bits))
            for bits in (1.0, "1", None):
                refuses(self, rng.generator, TypeError, lambda _, bits=bits: rng.getrandbits(bits))
                refuses(self, rng.generator, TypeError, lambda _, bits=bits: rng.randbytes(bits))
            refuses(self, rng.generator, OutOfBounds, lambda _: rng.randbytes(-1))
            for bits in (2**62, 2**63 - 1, 2**63, *range(2**64 - 70, 2**64)):
                refuses(self, rng.generator, MemoryError, lambda _, bits=bits: rng.getrandbits(bits))
            refuses(self, rng.generator, OutOfBounds, lambda _: rng.getrandbits(2**64))

    def test_python_s_own_refusals(self):
        for kind in RANDOMS:
            rng = kind(1)
            refuses(self, rng.generator, IndexError, lambda _: rng.choice([]))
            refuses(self, rng.generator, ValueError, lambda _: rng.randint(2, 1))
            refuses(self, rng.generator, ValueError, lambda _: rng.sample([1], 2))

    def test_fair_calls(self):
        """Each face is rolled about equally often."""
        for kind in RANDOMS:
            rng = kind("a die")
            faces = [rng.randint(1, 6) for _ in range(6000)]
            for face in range(1, 7):
                self.assertTrue(850 < faces.count(face) < 1150, (kind, face))

    def test_the_base_is_no_generator(self):
        with self.assertRaises(TypeError):
            GeneratorRandom()

    def test_seeds_by_their_name(self):
        for kind in RANDOMS:
            for seed in (42, 0, "text", b"bytes", 1.5):
                self.assertEqual(kind(x=seed).generator, kind(seed).generator)
                self.assertEqual(kind(seed=seed).generator, kind(seed).generator)
                self.assertEqual(kind(None, seed=seed).generator, kind(seed).generator)
                for arguments in ({"x": 1, "seed": seed}, {"x": seed, "version": 2}):
                    self.assertRaises(TypeError, kind, **arguments)
            self.assertRaises(TypeError, kind, 1, 2)
            self.assertNotEqual(kind(x=None).generator, kind(seed=None).generator)


class Generators(unittest.TestCase):
    """The attribute `generator`, from which the class draws."""

    def test_the_state_is_shared(self):
        for kind in RANDOMS:
            rng, same = kind(7), kind(7).generator
            generator = rng.generator
            self.assertIs(rng.generator, generator)
            for _ in range(20):
                self.assertEqual(rng.random(), same.random())
                self.assertEqual(generator.u64(), same.u64())
                self.assertEqual(rng.getrandbits(13), int.from_bytes(same.bytes(2), "little") >> 3)
                self.assertEqual(generator, same)

    def test_another_one_of_its_kind(self):
        for kind, of_generator in RANDOMS.items():
            rng, own = kind(7), of_generator.from_entropy()
            same = own.copy()
            rng.generator = own
            self.assertEqual((rng.random(), rng.getrandbits(70)), (same.random(), Twin(same).getrandbits(70)))
            self.assertIs(rng.generator, own)

            class Own(of_generator):
                pass

            rng.generator = Own.from_state(same.state)
            self.assertEqual(rng.random(), same.random())

    def test_others_are_refused(self):
        for kind, of_generator in RANDOMS.items():
            rng = kind(7)
            before = rng.generator
            others = [other(7).generator for other in RANDOMS if other is not kind]
            for other in (*others, None, 7, random.Random(7), of_generator, kind(7)):
                with self.assertRaisesRegex(TypeError, "^generator is a "):
                    rng.generator = other
            with self.assertRaises(AttributeError):
                del rng.generator
            self.assertIs(rng.generator, before)

    def test_a_class_of_other_things(self):
        """The attribute has to be a generator, whatever a class sets as its kind."""
        class Own(WyRandRandom):
            _kind = object

            def seed(self, *arguments):
                """It does not call the base's."""

        rng = Own()
        for other in (None, 5, "text", random.Random(7), Own()):
            with self.assertRaisesRegex(TypeError, "^generator is a .*, not a generator$"):
                rng.generator = other
        rng.generator = Pcg64(7)
        self.assertEqual(rng.random(), Pcg64(7).random())

    def test_a_seed_and_a_state_make_a_new_one(self):
        for kind in RANDOMS:
            saved = kind(9).getstate()
            for start in (lambda rng: rng.seed(8), lambda rng, saved=saved: rng.setstate(saved)):
                rng = kind(7)
                first, before = rng.generator, rng.generator.state
                start(rng)
                rng.random()
                self.assertEqual(first.state, before)

    def test_another_generator_begins_anew(self):
        """What `gauss` has kept was made from the words of the generator before."""
        for kind in RANDOMS:
            rng, same = kind(7), kind(7)
            rng.gauss(0, 1)
            self.assertIsNotNone(rng.gauss_next)
            before = rng.getstate()
            with self.assertRaises(TypeError):
                rng.generator = 5
            self.assertEqual(rng.getstate(), before)
            rng.generator, same.generator = kind(8).generator, kind(8).generator
            self.assertIsNone(rng.gauss_next)
            self.assertEqual([rng.gauss(0, 1) for _ in range(4)], [same.gauss(0, 1) for _ in range(4)])

    def test_a_class_that_keeps_what_gauss_has_kept(self):
        """If its attribute cannot be set, the generator is not replaced either."""
        for kind in RANDOMS:
            class Own(kind):
                def __setattr__(self, name, value):
                    if name == "gauss_next" and name in vars(self):
                        raise ValueError(name)
                    super().__setattr__(name, value)

            rng = Own.__new__(Own)
            rng.generator = kind(7).generator
            own = rng.generator
            with self.assertRaisesRegex(ValueError, "^gauss_next$"):
                rng.generator = kind(8).generator
            self.assertIs(rng.generator, own)

    def test_without_a_generator(self):
        for kind in RANDOMS:
            class Own(kind):
                def seed(self, *arguments):
                    """It does not call the base's."""

            rng = Own(7)
            calls = [rng.random, lambda: rng.getrandbits(9), lambda: rng.randbytes(9), lambda: rng.generator]
            for call in (*calls, rng.getstate):
                with self.assertRaisesRegex(AttributeError, "^Own has no generator$"):
                    call()
            rng.generator = RANDOMS[kind].__new__(RANDOMS[kind])
            for call in calls[:3]:
                with self.assertRaisesRegex(RuntimeError, "has no state"):
                    call()

    def test_no_name_leads_to_the_slot(self):
        for one in WyRandRandom.__mro__:
            self.assertNotIn("_generator", vars(one))
        rng = WyRandRandom(7)
        rng._generator = 5
        self.assertEqual(rng.random(), WyRandRandom(7).random())

    def test_objects_in_circles_are_freed(self):
        class Own(WyRand):
            pass

        for kind in (WyRandRandom, type("Sub", (WyRandRandom,), {})):
            rng, generator = kind(7), Own(7)
            rng.generator, generator.owner = generator, rng
            seen = [weakref.ref(rng), weakref.ref(generator)]
            del rng, generator
            gc.collect()
            self.assertEqual([one() for one in seen], [None, None])


class Subclasses(unittest.TestCase):
    """A user's subclasses behave like those of `random.Random`."""

    def test_arguments_of_its_own(self):
        class Own(WyRandRandom):
            def __init__(self, *arguments, newarg=None):
                super().__init__(7)

        for made in (Own(), Own(newarg=1), Own(1, 2, 3, newarg=4)):
            self.assertEqual(made.random(), WyRandRandom(7).random())

    def test_copies_keep_attributes(self):
        for own in ATTRIBUTED.values():
            rng = own("run 7")
            rng.gauss(0, 1)
            rng.steps.append(3)
            rng.owner = [rng]
            for way in COPIES:
                made = way(rng)
                self.assertIs(type(made), own)
                self.assertEqual((made.name, made.steps, made.slot, made.getstate()),
                                 ("run 7", [3], "slot", rng.getstate()))
                self.assertFalse(hasattr(made, "empty"))
                self.assertIsNot(made.generator, rng.generator)
                deep = way is not copy.copy
                self.assertIs(made.owner[0], made if deep else rng)
                self.assertEqual(made.steps is rng.steps, not deep)
                twin = copy.copy(rng)
                self.assertEqual((made.gauss(0, 1), made.random()), (twin.gauss(0, 1), twin.random()))

    def test_copies_of_one_made_of_nothing(self):
        """They keep what its own `getstate` returns, like copies of a subclass of `random.Random`."""
        for own in UNSEEDED.values():
            rng = own()
            rng.gauss(0, 1)
            rng.kept.append("a")
            for way in COPIES:
                made = way(rng)
                self.assertIs(type(made), own)
                self.assertEqual(made.getstate(), rng.getstate())
                self.assertIsNot(made.generator, rng.generator)
                twin = way(made)
                self.assertEqual((made.gauss(0, 1), made.random(), made.kept), (twin.gauss(0, 1), twin.random(), ["a"]))
                self.assertNotEqual(made.getstate(), rng.getstate())

    def test_what_is_overridden_is_called(self):
        for kind in RANDOMS:
            class Bits(kind):
                def getrandbits(self, k):
                    called.append("getrandbits")
                    return super().getrandbits(k)

            class Floats(kind):
                def random(self):
                    called.append("random")
                    return super().random()

            class Both(Floats, Bits):
                pass

            calls = [lambda rng: rng.randrange(9), lambda rng: rng.shuffle([1, 2]), lambda rng: rng.choice("ab")]
            for call in calls:
                for own, wanted in ((Bits, "getrandbits"), (Floats, "random"), (Both, "random")):
                    called = []
                    call(own(7))
                    self.assertEqual(set(called), {wanted})
            called = []
            self.assertEqual(Bits(7).randbytes(9), kind(7).getrandbits(72).to_bytes(9, "little"))
            self.assertEqual(called, ["getrandbits"])
            self.assertEqual(Floats(7).randbytes(9), kind(7).generator.bytes(9))

    def test_bits_of_another_base(self):
        """A class that inherits `getrandbits` from another base before ours draws bytes with it as well."""
        class Zeros:
            def getrandbits(self, k):
                return 0

        for kind in RANDOMS:
            class Own(Zeros, kind):
                pass

            class Below(Own):
                pass

            class Behind(kind, Zeros):
                pass

            self.assertEqual((Own(7).randbytes(9), Below(7).randbytes(9)), (bytes(9), bytes(9)))
            self.assertEqual(Behind(7).randbytes(9), kind(7).randbytes(9))

    def test_bytes_of_its_own(self):
        class Own(Pcg64Random):
            def getrandbits(self, k):
                return 0

            def randbytes(self, n):
                return b"own"

        class Below(Own):
            pass

        self.assertEqual((Own(7).randbytes(9), Below(7).randbytes(9)), (b"own", b"own"))

    def test_a_kind_of_its_own(self):
        class Own(Pcg64):
            pass

        class OwnRandom(Pcg64Random):
            _kind = Own

        self.assertIs(type(OwnRandom(7).generator), Own)
        self.assertEqual(OwnRandom(7).random(), Pcg64Random(7).random())


if __name__ == "__main__":
    unittest.main()
