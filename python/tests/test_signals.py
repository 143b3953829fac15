"""Signals during long calls: an exception in a handler ends a call, which has no effect; other handlers change nothing.

If the signal arrives when the call has made its last check, the call is completed first, and the handler runs after it.
"""

import array
import contextlib
import gc
import signal
import threading
import time
import unittest

from makers import uncounted

from nanorand import ChaCha20, Pcg64, Stream, WyRand

LENGTH = 200_000  # more than the library shuffles at once
ATTEMPTS = 10
LIST, OTHER = list(range(LENGTH)), [[place] for place in range(LENGTH // 2)]


class Raised(Exception):
    """The exception that a signal handler raises."""


def fail(*_):
    raise Raised


@contextlib.contextmanager
def handled_by(handler, seconds, again=0.0):
    """Calls the handler after a time, and then repeatedly after another time if that is not 0."""
    before = signal.signal(signal.SIGALRM, handler)
    try:
        signal.setitimer(signal.ITIMER_REAL, seconds, again)
        yield
    finally:
        signal.setitimer(signal.ITIMER_REAL, 0)
        signal.signal(signal.SIGALRM, before)


class Slow(list):
    """A list of another type, whose items are read and assigned by Python code."""

    def __getitem__(self, place):
        return super().__getitem__(place)

    def __setitem__(self, place, item):
        super().__setitem__(place, item)


# Long calls. The shuffles move the items.
CALLS = {
    "shuffle": lambda rng, items: rng.shuffle(items),
    "shuffle_full": lambda rng, items: rng.shuffle_full(items),
    "sample_below": lambda rng, items: rng.sample_below(2**60, LENGTH),
    "sample": lambda rng, items: rng.sample(LIST, LENGTH // 2),
    "sample of a range": lambda rng, items: rng.sample(range(2**60), LENGTH),
    "sample with counts": lambda rng, items: rng.sample(OTHER, LENGTH, counts=[5] * len(OTHER)),
    "choices": lambda rng, items: rng.choices(LIST, k=LENGTH),
    "choices by whole weights": lambda rng, items: rng.choices(OTHER, [3] * len(OTHER), k=LENGTH),
    "choices by weights": lambda rng, items: rng.choices(OTHER, [1.5] * len(OTHER), k=LENGTH),
}
SEQUENCES = {
    "list": list,
    "bytearray": lambda items: bytearray(item % 256 for item in items),
    "array": lambda items: array.array("q", items),
    "memoryview": lambda items: memoryview(array.array("q", items)),
    "of Python code": Slow,
}


@unittest.skipUnless(hasattr(signal, "setitimer"), "this system has no timer that sends a signal")
class Signals(unittest.TestCase):
    def interrupted(self, rng, call, items, seconds):
        """Whether a signal after this time ends the call, which has no effect then."""
        before, order = rng.state, list(items)
        with contextlib.suppress(Raised), handled_by(fail, seconds):
            call(rng, items)
            return False
        ended = rng.state == before
        self.assertTrue(not order or ended == (list(items) == order))
        return ended

    def moments(self, rng, call, items):
        """Seconds at which the call is in each of its phases."""
        begun = time.perf_counter()
        call(rng, items)
        whole = time.perf_counter() - begun
        return [whole * part / 8 for part in range(1, 8)]

    def in_time(self, attempt, name):
        """Asserts that an attempt succeeds. On a busy machine a signal may come too late, so there are several."""
        self.assertTrue(any(attempt() for _ in range(ATTEMPTS)), name)

    def test_an_exception_of_a_handler_ends_a_call(self):
        for name, call in CALLS.items():
            kinds = SEQUENCES if name.startswith("shuffle") else ["list"]
            for sequence in kinds:
                items = SEQUENCES[sequence](LIST if name.startswith("shuffle") else [])
                rng = ChaCha20(bytes(32)) if sequence == "list" else WyRand(5)

                def some_end():
                    moments = self.moments(rng, call, items)
                    return sum(self.interrupted(rng, call, items, seconds) for seconds in moments) > 1

                with self.subTest(call=name, sequence=sequence):
                    self.in_time(some_end, name)

    @uncounted
    def test_it_ends_soon(self):
        """Within 0.1 s, if the machine has time. The median of several calls has it."""
        items = list(range(3_000_000))
        for name, call in {"shuffle": CALLS["shuffle"],
                           "sample_below": lambda rng, items: rng.sample_below(2**60, 20 * LENGTH),
                           "choices": lambda rng, items: rng.choices(LIST, k=20 * LENGTH)}.items():
            def end_soon():
                times = []
                for seconds in (0.02, 0.05, 0.08, 0.11, 0.14):
                    begun = time.perf_counter()
                    if self.interrupted(ChaCha20(bytes(32)), call, items, seconds):
                        times.append(time.perf_counter() - begun - seconds)
                # Most of the time is that of this test, which copies and compares the list.
                return len(times) > 2 and sorted(times)[len(times) // 2] < 0.5

            self.in_time(end_soon, name)

    def test_while_the_items_of_a_list_are_copied(self):
        items = list(range(2_000_000))
        for part in range(1, 9):
            rng = WyRand(5)
            self.interrupted(rng, CALLS["shuffle"], items, part * 0.0005)
            items.sort()

    def test_a_call_that_waits_for_another_thread(self):
        """An exception of a handler ends it, too."""
        rng = ChaCha20(bytes(32))

        def ends():
            ended, thread = True, threading.Thread(target=rng.sample_below, args=(2**60, 10 * LENGTH))
            thread.start()
            with contextlib.suppress(Raised), handled_by(fail, 0.08):
                time.sleep(0.01)
                rng.u64()
                ended = False
            thread.join()
            return ended

        self.in_time(ends, "u64")

    def test_an_exception_while_a_long_call_repeats(self):
        for length in (2**13 + 1, 2**17, 2**17 + 1):
            for seconds in (0.001, 0.01, 0.02):
                rng, items = Stream(bytes(32)), list(range(length))
                with self.assertRaises(Raised), handled_by(fail, seconds):
                    while True:
                        rng.sample_below(2**60, length)
                        rng.shuffle(items)
                self.assertEqual(sorted(items), list(range(length)))

    def test_a_handler_that_returns_changes_nothing(self):
        for name, call in CALLS.items():
            calls = []
            rng, same, items, others = Pcg64(5), Pcg64(5), LIST[:], LIST[:]
            with handled_by(lambda *_: calls.append(0), 0.001, 0.001):
                drawn = call(rng, items)
            self.assertGreater(len(calls), 0, name)
            self.assertTrue(drawn == call(same, others), name)
            self.assertEqual(rng, same)
            self.assertTrue(items == others, name)

    def test_a_handler_that_uses_the_generator(self):
        """It gets an error, which ends the call, instead of waiting forever."""
        class Same(Stream):
            def __new__(cls, *arguments):
                return used[0]

        uses = [lambda rng: rng.u64(), lambda rng: rng.state, lambda rng: setattr(rng, "state", bytes(48)),
                lambda rng: rng.__init__(bytes(32)), lambda rng: Same.seed_from_u64(5), lambda rng: Same.from_entropy(),
                lambda rng: rng.shuffle([1, 2]), lambda rng: rng.fill(bytearray(100_000)), lambda rng: rng.copy(),
                lambda rng: rng.sample_below(2**60, 20_000)]
        for name in ("shuffle", "sample_below", "choices"):
            call = CALLS[name]
            for use in uses:
                used, items = [Stream(bytes(32))], LIST[:]

                def is_refused():
                    refused = 0
                    for seconds in self.moments(Stream(bytes(32)), call, LIST[:])[::3]:
                        used[0].state = before = bytes(48)
                        try:
                            with handled_by(lambda *_: use(used[0]), seconds):
                                call(used[0], items)
                        except RuntimeError as error:
                            self.assertEqual(str(error), "Stream is in use by a call that this code interrupts")
                            self.assertEqual(used[0].state, before)
                            refused += 1
                    return refused > 0

                self.in_time(is_refused, name)
                self.assertTrue(sorted(items) == LIST, name)

    def test_a_handler_that_uses_another_generator(self):
        rng, other = WyRand(5), WyRand(6)
        with handled_by(lambda *_: other.below(100), 0.001, 0.001):
            drawn = rng.sample_below(2**60, LENGTH)
        self.assertEqual(len(set(drawn)), LENGTH)

    def test_a_list_whose_length_a_handler_changes(self):
        """The shuffle has no effect on the list or on the generator."""
        def is_noticed(name):
            raised = 0
            for seconds in self.moments(Stream(bytes(32)), CALLS[name], LIST[:]):
                items, rng = LIST[:], Stream(bytes(32))
                with handled_by(lambda *_: items.clear(), seconds):
                    try:
                        CALLS[name](rng, items)
                    except ValueError as error:
                        self.assertEqual((str(error), items), ("list modified during shuffle", []))
                        self.assertEqual(rng, Stream(bytes(32)))
                        raised += 1
            return raised > 0

        for name in ("shuffle", "shuffle_full"):
            self.in_time(lambda: is_noticed(name), name)

    def test_a_list_whose_items_a_handler_replaces(self):
        """The items that are there when the shuffle ends are shuffled."""
        def replace(items):
            items[0] = items[-1] = -1

        def are_shuffled(name):
            places, same, replaced = LIST[:], Stream(bytes(32)), 0
            getattr(same, name)(places)
            whole = [-1, *LIST[1:-1], -1]
            for seconds in self.moments(Stream(bytes(32)), CALLS[name], LIST[:]):
                items, rng = LIST[:], Stream(bytes(32))
                with handled_by(lambda *_: replace(items), seconds):
                    CALLS[name](rng, items)
                self.assertEqual(rng, same)
                if items[0] == items[-1] == -1:
                    continue
                replaced += -1 in items
                self.assertTrue(items == ([whole[place] for place in places] if -1 in items else places))
            return replaced > 0

        for name in ("shuffle", "shuffle_full"):
            self.in_time(lambda: are_shuffled(name), name)

    def test_a_collector_that_draws(self):
        """An object that is freed in the middle of a call cannot draw either, and the call continues."""
        rng, same, drawn = WyRand(5), WyRand(5), []

        class Draws:
            def __del__(self):
                with contextlib.suppress(RuntimeError):
                    drawn.append(rng.u64())

        def collect(*_):
            made = Draws()
            made.own = made
            del made
            gc.collect()

        with handled_by(collect, 0.002):
            found = rng.sample_below(2**60, LENGTH)
        if not drawn:
            self.assertTrue(found == same.sample_below(2**60, LENGTH))
            self.assertEqual(rng, same)


if __name__ == "__main__":
    unittest.main()
