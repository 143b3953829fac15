"""Threads that share a generator take turns: a call is atomic, and sees the state before or after any other call."""

import array
import collections.abc
import copy
import faulthandler
import os
import pickle
import subprocess
import sys
import threading
import time
import unittest
from unittest import mock

from makers import CLASSES, RANDOMS, generators, uncounted

from nanorand import ChaCha20, WyRand

LONG = 30_000_000  # the bytes of a slow draw
HANGS = 300  # seconds after which a test counts as hanging

CALLS = {
    "u64": lambda rng: rng.u64(),
    "random": lambda rng: rng.random(),
    "bytes": lambda rng: rng.bytes(5),
    "below": lambda rng: rng.below(100),
    "range": lambda rng: rng.range(1, 100),
    "range, signed": lambda rng: rng.range(-5, 5),
    "range32": lambda rng: rng.range32(1, 100),
    "randint": lambda rng: rng.randint(1, 100),
    "uniform": lambda rng: rng.uniform(1, 100),
    "choice": lambda rng: rng.choice("abc"),
    "choices": lambda rng: rng.choices("abc", [1, 2, 3], k=5),
    "sample": lambda rng: rng.sample("abcdef", 3),
    "sample_below": lambda rng: rng.sample_below(100, 3),
    "shuffle": lambda rng: shuffled(rng.shuffle, list(range(9))),
    "shuffle, any": lambda rng: shuffled(rng.shuffle, bytearray(range(9))),
    "shuffle_full": lambda rng: shuffled(rng.shuffle_full, list(range(9))),
    "fill": lambda rng: filled(rng.fill, bytearray(9)),
    "fill_range": lambda rng: filled(lambda items: rng.fill_range(items, 1, 6), bytearray(9)),
    "fill_random": lambda rng: filled(rng.fill_random, array.array("d", [0, 0])),
    "fill, long": lambda rng: filled(rng.fill, bytearray(100_000)),
    "state": lambda rng: rng.state,
    "copy": lambda rng: rng.copy().state,
    "copy.copy": lambda rng: copy.copy(rng).state,
    "pickle": lambda rng: pickle.loads(pickle.dumps(rng)).state,
    "repr": lambda rng: repr(rng),
    "==": lambda rng: rng == rng.copy(),
    "parts": lambda rng: [getattr(rng, name) for name in ("seed", "key", "nonce") if hasattr(rng, name)],
    "counter": lambda rng: getattr(rng, "counter", None),
    "rest": lambda rng: getattr(rng, "rest", None),
    "block": lambda rng: rng.block() if hasattr(rng, "block") else None,
    "jump": lambda rng: rng.jump(3) if hasattr(rng, "jump") else None,
    "part": lambda rng: rng.part(3, 5).state,
    "state is set": lambda rng: setattr(rng, "state", bytes(len(rng.state))),
    "__init__": lambda rng: rng.__init__(*((5,) if hasattr(rng, "seed") else (bytes(32),))),
}


def shuffled(shuffle, items):
    shuffle(items)
    return list(items)


def filled(fill, buffer):
    fill(buffer)
    return bytes(buffer)


BUFFER = bytearray(LONG)
WORDS, DOUBLES, FLOATS, SHORTS = (array.array(letter, bytes(4_000_000)) for letter in "Qdfh")
# Calls that take long because of their draws.
LONG_CALLS = {
    "bytes": lambda rng: rng.bytes(LONG),
    "fill": lambda rng: rng.fill(BUFFER),
    "fill_range": lambda rng: rng.fill_range(WORDS, 0, 99),
    "fill_range, signed": lambda rng: rng.fill_range(memoryview(WORDS).cast("B").cast("q"), -99, 99),
    "fill_range, narrow": lambda rng: rng.fill_range(SHORTS, 0, 99),
    "fill_random": lambda rng: rng.fill_random(DOUBLES),
    "fill_random, floats": lambda rng: rng.fill_random(FLOATS),
    "sample_below": lambda rng: rng.sample_below(10**9, 300_000),
    "sample": lambda rng: rng.sample(range(10**9), 300_000),
    "shuffle": lambda rng: rng.shuffle(list(range(300_000))),
    "shuffle_full": lambda rng: rng.shuffle_full(list(range(300_000))),
    "shuffle, any": lambda rng: rng.shuffle(bytearray(300_000)),
}


class Meanwhile:
    """Runs a call in a thread of its own, and waits until it has begun."""

    def __init__(self, call):
        self.begun = threading.Event()
        self.thread = threading.Thread(target=self.run, args=(call,))
        self.thread.start()
        self.begun.wait()

    def run(self, call):
        self.begun.set()
        call()


class Threads(unittest.TestCase):
    """An exception in a thread fails the test as well, and threads that hang end the run."""

    def setUp(self):
        faulthandler.dump_traceback_later(HANGS, exit=True, file=sys.__stderr__)
        self.addCleanup(faulthandler.cancel_dump_traceback_later)
        raised = []
        hook = mock.patch.object(threading, "excepthook", lambda told: raised.append(repr(told.exc_value)))
        # Cleanups are called from the last to the first.
        self.addCleanup(lambda: self.assertEqual(raised, []))
        hook.start()
        self.addCleanup(hook.stop)

    def together(self, *calls):
        """Runs each call in a thread of its own."""
        threads = [threading.Thread(target=call) for call in calls]
        for thread in threads:
            thread.start()
        for thread in threads:
            thread.join()


class Reports(Threads):
    def test_an_exception_of_a_thread(self):
        """It fails the test."""
        class Fails(Threads):
            def runTest(self):
                self.together(lambda: None, lambda: WyRand(-1), lambda: None)

        result = unittest.TestResult()
        Fails().run(result)
        self.assertIn("OutOfBounds", result.failures[0][1])


class Failing(collections.abc.MutableSequence):
    """A sequence of this length whose items can be neither read nor set."""

    def __init__(self, length):
        self.length = length

    def __len__(self):
        return self.length

    def __getitem__(self, place):
        raise KeyError(place)

    def __setitem__(self, place, item):
        raise KeyError(place)

    def __delitem__(self, place):
        raise KeyError(place)

    def insert(self, place, item):
        raise KeyError(place)


class Turns(Threads):
    def test_every_call_waits_for_a_long_fill(self):
        for rng in generators():
            before = rng.copy()
            after = rng.copy()
            after.fill(bytearray(4_000_000))
            for name, call in CALLS.items():
                with self.subTest(kind=type(rng).__name__, name=name):
                    shared = before.copy()
                    other = Meanwhile(lambda shared=shared: shared.fill(bytearray(4_000_000)))
                    found = call(shared)
                    other.thread.join()
                    first, second = before.copy(), after.copy()
                    wanted = [call(first), call(second)]
                    self.assertIn(found, wanted)
                    first.fill(bytearray(4_000_000))
                    self.assertIn(shared.state, (first.state, second.state))

    def test_a_call_that_fails_after_its_turn(self):
        """It leaves the state that it found at its turn."""
        failing = {
            "choice": lambda rng: rng.choice(Failing(9)),
            "choices": lambda rng: rng.choices(Failing(9), k=5),
            "choices by weights": lambda rng: rng.choices(Failing(2), [1, 2]),
            "choices by floats": lambda rng: rng.choices(Failing(2), [1.5, 2]),
            "sample": lambda rng: rng.sample(Failing(9), 5),
            "shuffle": lambda rng: rng.shuffle(Failing(9)),
            "uniform": lambda rng: rng.uniform(0, 10**400),
        }
        for rng in generators():
            after = rng.copy()
            after.fill(bytearray(4_000_000))
            for name, call in failing.items():
                with self.subTest(kind=type(rng).__name__, name=name):
                    shared = rng.copy()
                    other = Meanwhile(lambda shared=shared: shared.fill(bytearray(4_000_000)))
                    self.assertRaises((KeyError, OverflowError), call, shared)
                    other.thread.join()
                    self.assertEqual(shared.state, after.state)

    def test_a_call_that_fails_while_another_thread_draws(self):
        """It restores the state when the other thread's turn has ended."""
        class Draws(Failing):
            def __getitem__(self, place):
                self.other = Meanwhile(lambda: shared.shuffle(numbers))
                time.sleep(0.03)
                raise KeyError(place)

        for shared in (*[ChaCha20(bytes(32))] * 3, WyRand(5)):
            before, items, numbers = shared.state, Draws(9), list(range(500_000))
            self.assertRaises(KeyError, shared.choice, items)
            items.other.thread.join()
            self.assertIn(shared.state, (before, self.after_a_shuffle(shared, before)))

    def after_a_shuffle(self, shared, state):
        """If the shuffle began after that."""
        same = type(shared).from_state(state)
        same.shuffle(list(range(500_000)))
        return same.state

    def test_calls_that_wait_for_long_calls(self):
        """Each waits until the other has ended, even if that takes long."""
        longs = {
            "shuffle": lambda rng: shuffled(rng.shuffle, list(range(500_000))),
            "sample_below": lambda rng: rng.sample_below(2**60, 500_000),
            "choices": lambda rng: rng.choices("abc", k=500_000),
        }
        for name, call in longs.items():
            shared, found = ChaCha20(bytes(32)), []
            other = Meanwhile(lambda: found.append(call(shared)))
            time.sleep(0.005)
            word = shared.u64()
            other.thread.join()
            same, later = ChaCha20(bytes(32)), ChaCha20(bytes(32))
            first = call(same), same.u64()
            second = later.u64(), call(later)
            self.assertTrue((found[0], word) == first or (word, found[0]) == second, name)
            self.assertEqual(shared, same if (found[0], word) == first else later)

    def test_the_calls_of_random(self):
        for kind in RANDOMS:
            calls = [lambda rng: rng.random(), lambda rng: rng.getrandbits(9), lambda rng: rng.getrandbits(200),
                     lambda rng: rng.randbytes(9), lambda rng: rng.getstate()]
            for call in calls:
                shared, first, second = kind(5), kind(5), kind(5)
                second.randbytes(4_000_000)
                other = Meanwhile(lambda shared=shared: shared.randbytes(4_000_000))
                found = call(shared)
                other.thread.join()
                self.assertIn(found, [call(first), call(second)])

    def test_what_is_replaced_while_a_call_waits(self):
        """A subprocess overwrites freed memory, so a call that had lost its generator or its items would fail."""
        for name in ("replace_the_generator", "clear_the_list"):
            code = f"import sys; sys.path.insert(0, '.'); import test_threads; test_threads.{name}()"
            environment = {**os.environ, "PYTHONMALLOC": "debug", "PYTHONPATH": os.pathsep.join(sys.path)}
            done = subprocess.run([sys.executable, "-c", code], cwd=os.path.dirname(os.path.abspath(__file__)),
                                  env=environment, capture_output=True, text=True)
            self.assertEqual((done.returncode, done.stderr), (0, ""))

    def test_a_generator_that_is_replaced_meanwhile(self):
        """It is kept alive until its draw has ended."""
        for kind in RANDOMS:
            for draw in (lambda rng: rng.randbytes(5_000_000), lambda rng: rng.getrandbits(8 * 5_000_000)):
                rng, drawn = kind(5), []
                other = Meanwhile(lambda rng=rng, drawn=drawn, draw=draw: drawn.append(draw(rng)))
                time.sleep(0.001)
                rng.seed(6)
                other.thread.join()
                self.assertIn(drawn[0], [draw(kind(5)), draw(kind(6))])

    @uncounted
    def test_python_s_lock_is_given_up(self):
        """While one thread makes a long draw, another one runs."""
        for kind in CLASSES.values():
            for name, call in LONG_CALLS.items():
                rng = kind.from_entropy()
                with self.subTest(kind=kind.__name__, name=name):
                    self.assertTrue(any(self.runs_meanwhile(rng, call) for _ in range(20)))

    def runs_meanwhile(self, rng, call):
        """Whether this thread continues before the other one's call has ended, instead of waiting for it."""
        begun, ended = threading.Event(), []

        def draw():
            begun.set()
            call(rng)
            ended.append(True)

        thread = threading.Thread(target=draw)
        interval = sys.getswitchinterval()
        sys.setswitchinterval(1000)
        try:
            thread.start()
            begun.wait()
            return not ended
        finally:
            sys.setswitchinterval(interval)
            thread.join()

    def test_python_s_lock_is_given_up_for_choices(self):
        """This matters if a draw takes longer than building its Python result."""
        for weights in (None, [1, 2], [1.5, 2.5]):
            self.assertTrue(any(self.runs_meanwhile(ChaCha20(bytes(32)), lambda rng, weights=weights:
                                                    rng.choices(["a", "b"], weights, k=300_000)) for _ in range(20)))

    def test_many_threads_and_fills(self):
        """Every byte is drawn exactly once, by whichever thread."""
        for kind in CLASSES.values():
            state = kind.from_entropy().state
            shared, pieces = kind.from_state(state), []

            def draw(shared=shared, pieces=pieces):
                for length in (1 << 17, 64, 1 << 18, 128, 1 << 16, (1 << 16) + 64):
                    pieces.append(shared.bytes(length))

            self.together(*[draw] * 6)
            whole = kind.from_state(state).bytes(sum(map(len, pieces)))
            found = {whole.index(piece[:64]) for piece in pieces}
            self.assertEqual((len(found), len(pieces)), (36, 36))
            for piece in pieces:
                at = whole.index(piece[:64])
                self.assertEqual(whole[at : at + len(piece)], piece)

    def test_a_state_that_is_set_while_others_wait(self):
        """It takes effect: later draws continue from it, and each piece is drawn once."""
        for kind in CLASSES.values():
            for _ in range(20):
                first, second = kind.from_entropy(), kind.from_entropy()
                shared, pieces = first.copy(), []

                def draw(shared=shared, pieces=pieces):
                    for _ in range(4):
                        pieces.append(shared.bytes(100_032))

                def put(shared=shared, state=second.state):
                    shared.state = state

                self.together(draw, draw, put, draw)
                wanted = [first.bytes(100_032) for _ in pieces]
                before = len([piece for piece in pieces if piece in wanted])
                wanted[before:] = [second.bytes(100_032) for _ in pieces[before:]]
                self.assertEqual(len(pieces), 12)
                self.assertTrue(sorted(pieces) == sorted(wanted))
                self.assertEqual(shared, second)

    def test_generators_of_their_own(self):
        """Threads with their own generators draw the same as each one alone."""
        wanted = [WyRand(seed).bytes(1_000_000) for seed in range(8)]
        found = [b""] * 8

        def draw(seed):
            found[seed] = WyRand(seed).bytes(1_000_000)

        self.together(*[lambda seed=seed: draw(seed) for seed in range(8)])
        self.assertEqual(found, wanted)

    def test_a_list_of_another_thread_s(self):
        """Shuffling a list that other threads change is atomic: no item is lost or duplicated."""
        rng, items, stop = WyRand(5), list(range(1000)), threading.Event()

        def swap():
            while not stop.is_set():
                items.append(items.pop())

        thread = threading.Thread(target=swap)
        thread.start()
        for _ in range(300):
            rng.shuffle(items)
        stop.set()
        thread.join()
        self.assertEqual(sorted(items), list(range(1000)))

    @uncounted
    def test_a_long_list_of_another_thread_s(self):
        """A shuffle that finds another length has no effect. All others are atomic."""
        rng, items, stop = WyRand(5), list(range(200_000)), threading.Event()

        def swap():
            while not stop.is_set():
                items.append(items.pop())

        thread = threading.Thread(target=swap)
        thread.start()
        done = 0
        for _ in range(60):
            before = rng.state
            try:
                rng.shuffle(items)
                done += 1
            except ValueError:
                self.assertEqual(rng.state, before)
        stop.set()
        thread.join()
        self.assertGreater(done, 0)
        self.assertTrue(sorted(items) == list(range(200_000)))


def clear_the_list():
    """A list is cleared while its shuffle waits for the generator."""
    for kind in CLASSES.values():
        for name in ("shuffle", "shuffle_full"):
            rng, items = kind.from_entropy(), [[place] for place in range(1000)]
            fill = Meanwhile(lambda rng=rng: rng.fill(BUFFER))
            time.sleep(0.002)
            waits = Meanwhile(lambda rng=rng, name=name, items=items: getattr(rng, name)(items))
            time.sleep(0.002)
            items.clear()
            fill.thread.join()
            waits.thread.join()


def replace_the_generator():
    """One thread draws from the generator, another one waits for it, and then it is replaced."""
    for kind, of_generator in RANDOMS.items():
        for call in (lambda rng: rng.random(), lambda rng: rng.getrandbits(9), lambda rng: rng.randbytes(9)):
            rng = kind(5)
            fill = Meanwhile(lambda rng=rng: rng.generator.fill(BUFFER))
            time.sleep(0.002)
            waits = Meanwhile(lambda rng=rng, call=call: call(rng))
            time.sleep(0.002)
            rng.generator = of_generator.from_entropy()
            fill.thread.join()
            waits.thread.join()


@unittest.skipUnless(hasattr(os, "fork"), "this system has no fork")
class Processes(Threads):
    def test_a_child_goes_on_from_the_same_state(self):
        rng = WyRand(5)
        rng.bytes(1_000_000)
        wanted = rng.copy().bytes(1_000_000)
        reader, writer = os.pipe()
        child = os.fork()
        if child == 0:
            os.write(writer, b"same" if rng.bytes(1_000_000) == wanted else b"different")
            os._exit(0)
        os.waitpid(child, 0)
        self.assertEqual(os.read(reader, 99), b"same")
        os.close(reader)
        os.close(writer)


if __name__ == "__main__":
    unittest.main()
