"""The bit generators for NumPy, compared with the generators that they draw from. Skipped without NumPy."""

import copy
import gc
import json
import pickle
import random
import subprocess
import sys
import threading
import unittest
import weakref
from array import array

from makers import KEY, NONCE, Index, stays_itself
from test_answers import octets, rows
from test_memory import REFUSES_MEMORY

from nanorand import ChaCha20, Pcg64, Stream, WyRand, _native, lots
from nanorand.errors import ForeignState, NanorandError, OutOfBounds, WrongLength

try:
    import _testcapi
except ImportError:
    _testcapi = None

try:
    import numpy
    from numpy.random import BitGenerator, SeedSequence

    from nanorand.numpy import GeneratorBits, Pcg64Bits, StreamBits, WyRandBits
except ImportError as error:
    raise unittest.SkipTest(f"NumPy is not there: {error}") from None

BITS = {WyRandBits: WyRand, Pcg64Bits: Pcg64, StreamBits: Stream}
BITS_OF = {kind: bits for bits, kind in BITS.items()}
STARTS = [WyRand(42), Pcg64(2**64 + 42), Stream(KEY), Stream(KEY, NONCE, 5, b"abc"), Stream(KEY, counter=2**64 - 1)]
JUMPS = {WyRandBits: 2**48, Pcg64Bits: 2**64}
LAST_JUMPS = {WyRandBits: 2**16 - 1, Pcg64Bits: 2**62 - 1, StreamBits: 2**16 - 1}


def bits_of(generator):
    """The bit generator that continues from the generator's state."""
    return BITS_OF[type(generator)].of(generator)


class OwnBits(Pcg64Bits):
    """A user's subclass, in a module where pickles find it."""


class Model:
    """A model of a bit generator, with the calls of the generator."""

    def __init__(self, generator):
        self.generator, self.half = generator.copy(), None

    def word(self):
        self.half = None
        return self.generator.u64()

    def half_word(self):
        if self.half is None:
            word = self.generator.u64()
            self.half = word >> 32
            return word % 2**32
        half, self.half = self.half, None
        return half

    def double(self):
        return (self.word() >> 11) * 2.0**-53

    def state(self):
        return self.generator.state, self.half


def drawn(bits, call):
    """The number that a function pointer of the capsule draws."""
    interface = bits.ctypes
    return getattr(interface, call)(interface.state)


DRAWS = {
    Model.word: lambda bits: drawn(bits, "next_uint64"),
    Model.half_word: lambda bits: drawn(bits, "next_uint32"),
    Model.double: lambda bits: drawn(bits, "next_double"),
}


def state_of(bits):
    """The state, in the form of the model's state."""
    state = bits.state
    kind = BITS[next(kind for kind in type(bits).__mro__ if kind in BITS)]
    return kind.from_state(state["state"]).state, state["uinteger"] if state["has_uint32"] else None


class Words(unittest.TestCase):
    def test_table_of_answers(self):
        kinds = {kind.__name__.lower(): bits for bits, kind in BITS.items()}
        count = 0
        for generator, before, call, _, _, answer, after in rows():
            if call == "u64" and generator in kinds:
                bits = kinds[generator].of(BITS[kinds[generator]].from_state(octets(before)))
                self.assertEqual(bits.random_raw(), int(answer), (generator, before))
                self.assertEqual(bits.generator.state, octets(after), (generator, before))
                count += 1
        self.assertGreater(count, 10)

    def test_long_runs_of_each_call(self):
        for start in STARTS:
            for wanted, draw in DRAWS.items():
                bits, model = bits_of(start), Model(start)
                for _ in range(2500):
                    self.assertEqual(draw(bits), wanted(model))
                self.assertEqual(state_of(bits), model.state())

    def test_calls_in_any_order(self):
        chooser = random.Random(1)
        for start in STARTS:
            bits, model = bits_of(start), Model(start)
            for _ in range(3000):
                wanted = chooser.choice(list(DRAWS))
                self.assertEqual(DRAWS[wanted](bits), wanted(model))
                if chooser.random() < 0.05:
                    self.assertEqual(state_of(bits), model.state())
                if chooser.random() < 0.02:
                    bits.state = bits.state
                if chooser.random() < 0.02:
                    bits = pickle.loads(pickle.dumps(bits))

    def test_parts(self):
        for start in STARTS:
            words = [bits_of(start.part(task, 7)).random_raw(7).tolist() for task in range(12)]
            model = start.copy()
            self.assertEqual(words, [[model.u64() for _ in range(7)] for _ in range(12)])

    def test_arrays(self):
        for start in STARTS:
            model = start.copy()
            self.assertEqual(bits_of(start).random_raw((7, 100)).ravel().tolist(), [model.u64() for _ in range(700)])

    def test_the_generator_that_was_given_stays(self):
        for start in STARTS:
            before = start.state
            bits = bits_of(start)
            bits.random_raw(1000)
            bits.generator.u64()
            self.assertEqual(start.state, before)


class States(unittest.TestCase):
    def test_written_in_place(self):
        for start in STARTS:
            bits = bits_of(start)
            rng = numpy.random.Generator(bits)
            for draws in (0, 1, 127, 128, 129, 1000):
                rng.random(draws)
                rng.integers(0, 100, dtype=numpy.uint32)
                saved = bits.state
                first = rng.random(300).tolist()
                bits.state = saved
                self.assertEqual(rng.random(300).tolist(), first)

    def test_refused(self):
        """They change nothing, although their other parts are those of another state."""
        for start in STARTS:
            bits, same, older = bits_of(start), bits_of(start), bits_of(start)
            for one, draws in (bits, 3), (same, 3), (older, 5):
                for _ in range(draws):
                    DRAWS[Model.half_word](one)
            before, state = bits.state, older.state
            self.assertTrue(before["has_uint32"] and state["has_uint32"] and before["uinteger"] != state["uinteger"])
            for wrong, error in [
                *[(value, TypeError) for value in (None, 5, "state", [1], {"state"})],
                *[({}, ForeignState), ({"bit_generator": state["bit_generator"]}, ForeignState)],
                *[({**state, "bit_generator": name}, ForeignState) for name in ("PCG64", "", None, "GeneratorBits")],
                *[({**state, "state": text}, WrongLength) for text in (b"", b"1234567", bytes(200))],
                *[({**state, "state": text}, TypeError) for text in (None, 5, "state")],
                *[({**state, "state": wrong}, ForeignState) for wrong in ({}, {"generator": "ChaCha20", "state": ""})],
                *[({**state, "uinteger": half}, OutOfBounds) for half in (-1, 2**32, 2**64)],
                *[({**state, "has_uint32": half}, OutOfBounds) for half in (-1, 2)],
                *[({**state, name: None}, TypeError) for name in ("uinteger", "has_uint32")],
                *[({key: state[key] for key in state if key != name}, ForeignState) for name in state],
            ]:
                with self.assertRaises(error) as caught:
                    bits.state = wrong
                self.assertIs(type(caught.exception), error)
                if error is not TypeError:
                    stays_itself(self, caught.exception)
                self.assertEqual(bits.state, before)
            for draw in (DRAWS[Model.half_word], *DRAWS.values()):
                self.assertEqual(draw(bits), draw(same))

    def test_a_state_as_json(self):
        for start in STARTS:
            bits, same = bits_of(start), bits_of(start)
            for draws in range(4):
                saved = json.loads(json.dumps(bits.state))
                self.assertEqual(saved, bits.state)
                self.assertEqual(saved["state"], bits.generator.state_dict)
                drawn = [DRAWS[Model.half_word](bits) for _ in range(5)]
                for state in (saved, {**saved, "state": bytes.fromhex(saved["state"]["state"])}):
                    same.state = state
                    self.assertEqual([DRAWS[Model.half_word](same) for _ in range(5)], drawn)

    def test_every_half_word_is_one(self):
        for start in STARTS:
            bits = bits_of(start)
            for half in (0, 1, 2**32 - 1):
                bits.state = {**bits.state, "has_uint32": 1, "uinteger": half}
                self.assertEqual(state_of(bits), (start.state, half))
                self.assertEqual(DRAWS[Model.half_word](bits), half)
                self.assertEqual(state_of(bits), (start.state, None))

    def test_waits_for_who_draws(self):
        saved = bits_of(WyRand(42)).state
        reads, sets = (lambda bits: bits.state, lambda bits: bits.generator), lambda bits: setattr(bits, "state", saved)
        for access in (*reads, sets):
            bits = bits_of(WyRand(42))
            thread = threading.Thread(target=access, args=[bits])
            with bits.lock:
                thread.start()
                thread.join(0.05)
                self.assertTrue(thread.is_alive())
            thread.join()

    def test_waits_for_who_draws_from_the_generator(self):
        """It continues at the beginning or the end of a long call of another thread, not within it."""
        words = array("Q", bytes(4_000_000))
        for start in STARTS:
            shared, after = start.copy(), start.copy()
            after.fill_range(words, 0, 99)
            thread = threading.Thread(target=shared.fill_range, args=(words, 0, 99))
            thread.start()
            found = {start.state}
            while thread.is_alive():
                found.add(bits_of(shared).generator.state)
            self.assertLessEqual(found, {start.state, after.state})

    def test_of_a_generator_without_a_state(self):
        for kind, made in BITS.items():
            wanted = f"^{made.__name__} has no state: {made.__name__}.__init__ was not called$"
            references = sys.getrefcount(made)
            for _ in range(100):
                with self.assertRaisesRegex(RuntimeError, wanted):
                    kind.of(made.__new__(made))
            self.assertLess(sys.getrefcount(made) - references, 50)

    def test_pickles_and_copies(self):
        for bits in [*map(bits_of, STARTS), *(kind(SeedSequence(5)) for kind in BITS)]:
            DRAWS[Model.half_word](bits)
            for other in (pickle.loads(pickle.dumps(bits)), copy.copy(bits), copy.deepcopy(bits)):
                self.assertIs(type(other), type(bits))
                self.assertEqual(other.state, bits.state)
                self.assertIs(type(other._seed_seq), type(bits._seed_seq))
                self.assertEqual(getattr(other._seed_seq, "state", None), getattr(bits._seed_seq, "state", None))
                wanted = bits.state
                other.random_raw(5)
                self.assertEqual(bits.state, wanted)

    def test_copies_of_subclasses(self):
        for bits in (OwnBits(5), OwnBits.of(Pcg64(7)), OwnBits(5).jumped()):
            DRAWS[Model.half_word](bits)
            for other in (pickle.loads(pickle.dumps(bits)), copy.copy(bits), copy.deepcopy(bits)):
                self.assertIs(type(other), OwnBits)
                self.assertEqual(other.state, bits.state)

    def test_pickles_of_generators_elsewhere(self):
        for kind in BITS:
            rng = numpy.random.Generator(kind(7))
            rng.integers(0, 100, 3, dtype=numpy.uint32)
            text = pickle.dumps(rng)
            program = "import pickle, sys; print(pickle.load(sys.stdin.buffer).integers(0, 2**63, 5).tolist())"
            done = subprocess.run([sys.executable, "-c", program], input=text, capture_output=True, check=True)
            self.assertEqual(done.stdout.decode().strip(), str(rng.integers(0, 2**63, 5).tolist()))


class Items(unittest.TestCase):
    def test_arrays_are_sequences(self):
        """Also after other types, and other types after them."""
        for rng in (WyRand(5), Stream(KEY)):
            array_of, numbers, mapping, letters = numpy.arange(100), range(100), Proxied({0: 1}), Plain("abc")
            for _ in range(2):
                for call in (lambda rng, items: rng.choice(items), lambda rng, items: rng.choices(items, k=30),
                             lambda rng, items: rng.sample(items, 30)):
                    self.assertEqual(call(rng.copy(), array_of), call(rng.copy(), numbers))
                    for wrong in ({0: 1}, {0}, mapping, weakref.proxy(mapping)):
                        self.assertRaises(TypeError, call, rng, wrong)
                for name in ("shuffle", "shuffle_full"):
                    items, wanted = array_of.copy(), list(numbers)
                    getattr(rng.copy(), name)(items)
                    getattr(rng.copy(), name)(wanted)
                    self.assertEqual(items.tolist(), wanted)
            self.assertIn(rng.copy().choice(weakref.proxy(letters)), "abc")


class Plain(list):
    """A list to which there are weak references."""


class Proxied(dict):
    """A dictionary to which there are weak references."""


class Seeds(unittest.TestCase):
    def test_as_numpys_take_them(self):
        for kind in BITS:
            equal = [(5, [5]), (2**200, [0, 0, 0, 0, 0, 0, 2**8]), (SeedSequence(5), 5)]
            for one, other in equal:
                self.assertEqual(kind(one).state, kind(other).state)
            different = [kind(seed).generator.state for seed in (0, 1, 2**32, 2**64, [1, 2], None, None)]
            self.assertEqual(len(set(different)), len(different))
            for seed, error in [(-1, ValueError), ("1", TypeError), (1.5, TypeError), ([None], TypeError)]:
                self.assertRaises(error, kind, seed)

    def test_the_state_is_the_sequence_words(self):
        for kind, made in BITS.items():
            length = 32 if made is Stream else len(kind(0).generator.state)
            words = SeedSequence(42).generate_state(length // 8, numpy.uint64)
            wanted = b"".join(int(word).to_bytes(8, "little") for word in words)
            self.assertEqual(kind(42).generator.state[:length], wanted)
            self.assertFalse(any(kind(42).generator.state[length:]))

    def test_spawn(self):
        for kind in BITS:
            sequences = SeedSequence(42).spawn(3)
            wanted = [kind(one).state for one in sequences]
            if hasattr(kind, "spawn"):
                self.assertEqual([one.state for one in kind(42).spawn(3)], wanted)
            self.assertEqual(len({str(state) for state in wanted}), 3)

    def test_made_once(self):
        for kind in BITS:
            bits = kind(1)
            before = bits.state
            self.assertRaises(TypeError, bits.__init__, 2)
            self.assertEqual(bits.state, before)
        self.assertRaises(TypeError, GeneratorBits)
        self.assertRaises(TypeError, GeneratorBits, 5)

    def test_of_another_kind(self):
        for kind, made in BITS.items():
            for other in [*(start for start in STARTS if type(start) is not made), None, 5, kind(1), b"12345678"]:
                self.assertRaises(TypeError, kind.of, other)


class Octets(unittest.TestCase):
    def test_arrays_by_columns(self):
        """The bytes of a view are in the order of its indices, whatever their order in memory."""
        for text in (bytes(range(97, 121)), b"a\nb\nc\nd\n"):
            rows = numpy.frombuffer(text, "u1").reshape(2, -1)
            for view in (memoryview(rows), memoryview(numpy.asfortranarray(rows))):
                self.assertEqual(view.tobytes(), text)
                self.assertEqual(lots.digest(view), lots.digest(text))
                self.assertEqual(lots.count(view), lots.count(text))
                self.assertEqual(lots.draw(view, view), lots.draw(text, text))
        key = bytes(range(32))
        view = memoryview(numpy.asfortranarray(numpy.frombuffer(key, "u1").reshape(4, 8)))
        self.assertEqual(Stream(view), Stream(key))


class Advances(unittest.TestCase):
    PERIODS = {WyRandBits: 2**64, Pcg64Bits: 2**126, StreamBits: 2**67}
    # Bytes that are buffered, and not those of the keystream, are lost.
    STARTS = [WyRand(42), Pcg64(2**64 + 42), Stream(KEY), Stream(KEY, NONCE, 5), Stream(KEY, counter=2**64 - 1)]

    def test_as_many_words(self):
        for start in self.STARTS:
            for words in (0, 1, 2, 7, 8, 9, 63, 64, 65, 1000, 100_003):
                for before in ([], [Model.word], [Model.half_word]):
                    bits, model = bits_of(start), Model(start)
                    for draw in before:
                        self.assertEqual(DRAWS[draw](bits), draw(model))
                    self.assertIs(bits.advance(words), bits)
                    model.generator.bytes(8 * words)
                    model.half = None
                    self.assertEqual(state_of(bits), model.state())
                    self.assertEqual(DRAWS[Model.half_word](bits), model.half_word())

    def test_modulo_the_period(self):
        for start in self.STARTS:
            bits = bits_of(start)
            period = self.PERIODS[type(bits)]
            there = bits_of(start).advance(10**9 + 7)
            for words in (10**9 + 7 - period, 10**9 + 7 + period, 10**9 + 7 - 5 * period):
                self.assertEqual(bits_of(start).advance(words).random_raw(9).tolist(), there.random_raw(9).tolist())
                there.advance(-9)
            self.assertEqual(bits.advance(period - 1).advance(1).random_raw(), bits_of(start).random_raw())
            self.assertEqual(bits_of(start).advance(5).advance(-5).random_raw(), bits_of(start).random_raw())

    def test_refused(self):
        bits = bits_of(WyRand(42))
        before = bits.state
        for delta in (1.0, "1", None):
            self.assertRaises(TypeError, bits.advance, delta)
        self.assertEqual(bits.state, before)
        self.assertEqual(bits.advance(Index(5)).state, bits_of(WyRand(42)).advance(5).state)

    def test_waits_for_who_draws(self):
        bits = bits_of(WyRand(42))
        thread = threading.Thread(target=bits.advance, args=[5])
        with bits.lock:
            thread.start()
            thread.join(0.05)
            self.assertTrue(thread.is_alive())
        thread.join()
        self.assertEqual(bits.state, bits_of(WyRand(42)).advance(5).state)


class Jumps(unittest.TestCase):
    def test_as_the_generator_jumps(self):
        for start in STARTS[:2]:
            last = LAST_JUMPS[BITS_OF[type(start)]]
            far = {min(jumps, last) for jumps in (2**16 - 1, 2**31, 2**32, 2**32 + 1, 2**48 + 5, last)}
            for jumps in (0, 1, 2, 3, 1000, *sorted(far)):
                bits, model = bits_of(start), start.copy()
                DRAWS[Model.half_word](bits)
                model.u64()
                model.jump(jumps * JUMPS[type(bits)])
                self.assertEqual(state_of(bits.jumped(jumps)), (model.state, None))

    def test_streams_jump_by_blocks(self):
        for start in STARTS[2:]:
            whole = 64 * start.counter - len(start.rest)
            for jumps in (0, 1, 2, 65535):
                ahead = bits_of(start).jumped(jumps).generator
                place = 64 * ahead.counter - len(ahead.rest)
                self.assertEqual((place - whole - (jumps << 54)) % 2**70, 0)
                model = Stream(start.key, start.nonce, (start.counter + (jumps << 48) - bool(start.rest)) % 2**64)
                model.bytes((64 - len(start.rest)) % 64)
                self.assertEqual(ahead.bytes(200), model.bytes(200))

    def test_leaves_where_it_was(self):
        draws = [[], [Model.word], [Model.half_word], [Model.half_word, Model.half_word]]
        for start in STARTS:
            for drawn in draws:
                bits = bits_of(start)
                for draw in drawn:
                    DRAWS[draw](bits)
                before = bits.state
                one, two = bits.jumped(), bits.jumped()
                self.assertEqual((bits.state, one.state), (before, two.state))
                bits.generator.u64()
                self.assertEqual(bits.state, before)
                copy.copy(bits).generator.u64()
                one.random_raw()
                self.assertEqual((bits.state, two.state), (before, bits.jumped().state))

    def test_refused(self):
        for kind, last in LAST_JUMPS.items():
            kind(1).jumped(last)
            for jumps, error in [(-1, OutOfBounds), (last + 1, OutOfBounds), (1.0, TypeError), ("1", TypeError)]:
                self.assertRaises(error, kind(1).jumped, jumps)


class Memory(unittest.TestCase):
    def test_what_no_public_call_does(self):
        bits, foreign = WyRandBits(1), numpy.random.PCG64(1)
        before = bits.state
        for call, error in [
            (lambda: _native.attach(bits.capsule, WyRand(1)), TypeError),
            (lambda: _native.attach(foreign.capsule, WyRand(1)), TypeError),
            (lambda: _native.attach(None, WyRand(1)), ValueError),
            (lambda: _native.attach(bits.capsule, None), TypeError),
            (lambda: _native.attach(bits.capsule), TypeError),
            (lambda: _native.drawn(foreign.capsule), TypeError),
            (lambda: _native.drawn(bits), ValueError),
            (lambda: _native.restart(foreign.capsule, WyRand(1), None), TypeError),
            *[(lambda rng=rng: _native.restart(bits.capsule, rng, None), TypeError) for rng in (5, bits)],
            *[(lambda half=half: _native.restart(bits.capsule, WyRand(1), half), OutOfBounds) for half in (-1, 2**32)],
            (lambda: _native.restart(bits.capsule, WyRand(1), "1"), TypeError),
            (lambda: _native.restart(bits.capsule, WyRand(1)), TypeError),
            (lambda: _native.bounded("count", 5), TypeError),
        ]:
            self.assertRaises(error, call)
            self.assertEqual(bits.state, before)
        self.assertEqual(foreign.random_raw(), numpy.random.PCG64(1).random_raw())

    @unittest.skipUnless(REFUSES_MEMORY, "this Python, or what traces it, cannot be refused memory")
    def test_calls_that_have_no_memory(self):
        """Each allocation fails once. Only MemoryError is raised, or the error of Python's lock, which NumPy makes."""
        calls = {
            "of": lambda bits: bits.of(start),
            "made": lambda bits: type(bits)(5),
            "generator": lambda bits: bits.generator,
            "state": lambda bits: setattr(bits, "state", bits.state),
            "advance": lambda bits: bits.advance(-5),
            "jumped": lambda bits: bits.jumped(2),
            "__reduce__": lambda bits: bits.__reduce__(),
        }
        self.assertEqual({name for name in vars(GeneratorBits) if not name.startswith("_")} - set(calls), set())
        for start in STARTS:
            for name, call in calls.items():
                bits, request, granted = bits_of(start), 0, 0
                while granted < 5:
                    _testcapi.set_nomemory(request, request + 1)
                    try:
                        call(bits)
                        granted += 1
                    except MemoryError:
                        granted = 0
                    except RuntimeError as error:
                        self.assertEqual(str(error), "can't allocate lock")
                    finally:
                        _testcapi.remove_mem_hooks()
                    request += 1
                self.assertGreater(request, 5, name)

    @unittest.skipUnless(REFUSES_MEMORY, "this Python, or what traces it, cannot be refused memory")
    def test_words_that_have_no_memory(self):
        """The capsule then has none, and may get it later."""
        for start in STARTS:
            made = type(bits_of(start)).__new__(type(bits_of(start)))
            BitGenerator.__init__(made, 5)
            capsule, refusals = made.capsule, 0
            while True:
                references = sys.getrefcount(start), sys.getrefcount(capsule)
                _testcapi.set_nomemory(refusals, refusals + 1)
                try:
                    _native.attach(capsule, start)
                    break
                except MemoryError:
                    refusals += 1
                finally:
                    _testcapi.remove_mem_hooks()
                self.assertEqual((sys.getrefcount(start), sys.getrefcount(capsule)), references)
            self.assertGreater(refusals, 1)
            self.assertEqual(made.random_raw(), start.copy().u64())

    def test_a_generator_of_another_kind(self):
        for start in STARTS:
            bits = bits_of(start)
            bits.random_raw()
            before = bits.state
            for other in (*STARTS, ChaCha20(KEY)):
                if type(other) is not type(start):
                    self.assertRaises(TypeError, _native.restart, bits.capsule, other, None)
                    self.assertRaises(TypeError, type(bits).of, other)
                    self.assertEqual(bits.state, before)

    def test_a_generator_outlives_its_bit_generator(self):
        for start in STARTS:
            rng, model = numpy.random.Generator(bits_of(start)), Model(start)
            gc.collect()
            capsule = rng.bit_generator.capsule
            self.assertEqual(rng.random(), model.double())
            del rng
            gc.collect()
            self.assertIsNotNone(capsule)

    def test_nothing_is_left_behind(self):
        starts = [(start, sys.getrefcount(type(start))) for start in STARTS]
        for start, count in starts:
            for _ in range(200):
                bits = bits_of(start)
                bits.state = bits.state
                pickle.loads(pickle.dumps(bits.jumped()))
                self.assertRaises((NanorandError, TypeError), setattr, bits, "state", {})
            del bits
            gc.collect()
            self.assertLess(sys.getrefcount(type(start)) - count, 20)

    def test_threads_share_every_word_once(self):
        for start in STARTS:
            bits, model, found = bits_of(start), start.copy(), []

            def draw(bits=bits, found=found):
                for _ in range(50):
                    found.extend(bits.random_raw(97).tolist())
                    bits.state  # noqa: B018

            threads = [threading.Thread(target=draw) for _ in range(4)]
            for thread in threads:
                thread.start()
            for thread in threads:
                thread.join()
            self.assertEqual(sorted(found), sorted(model.u64() for _ in range(4 * 50 * 97)))
            self.assertEqual(bits.generator.state, model.state)


if __name__ == "__main__":
    unittest.main()
