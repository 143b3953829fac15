"""Shared by the tests: every generator, comparisons of states, copies of errors, and large memory."""

import copy
import ctypes
import mmap
import os
import pickle

from nanorand import ChaCha8, ChaCha12, ChaCha20, NanorandError, Pcg64, Stream, WyRand
from nanorand.randoms import (
    ChaCha8Random,
    ChaCha12Random,
    ChaCha20Random,
    Pcg64Random,
    StreamRandom,
    WyRandRandom,
)

KEY, NONCE = bytes(range(32)), bytes(range(8))

CLASSES = {
    "wyrand": WyRand,
    "pcg64": Pcg64,
    "chacha8": ChaCha8,
    "chacha12": ChaCha12,
    "chacha20": ChaCha20,
    "stream": Stream,
}
CHACHAS = [ChaCha8, ChaCha12, ChaCha20]
RANDOMS = {
    WyRandRandom: WyRand,
    Pcg64Random: Pcg64,
    ChaCha8Random: ChaCha8,
    ChaCha12Random: ChaCha12,
    ChaCha20Random: ChaCha20,
    StreamRandom: Stream,
}
# The ways to make a copy, including the pickles that go to other processes.
COPIES = [copy.copy, copy.deepcopy]
COPIES += [lambda thing, protocol=protocol: pickle.loads(pickle.dumps(thing, protocol))
           for protocol in range(pickle.HIGHEST_PROTOCOL + 1)]


class Index:
    """A whole number by its `__index__`. Converted to an int, a float or a bool it is another number."""

    def __init__(self, number):
        self.number = number

    def __index__(self):
        return self.number

    def __int__(self):
        return self.number + 1

    __trunc__ = __int__

    def __float__(self):
        return self.number + 2.0

    def __bool__(self):
        return not self.number


def once(test):
    """Marks a long test. `tests/python.sh` sets NANORAND_SHORT for all runs but one, over rustc's library if there is
    rustc, which leave the test out."""
    return None if "NANORAND_SHORT" in os.environ else test


def uncounted(test):
    """Marks a test, or a class of tests, that is slow while its lines are counted, and runs none that no other runs."""
    return None if "COVERAGE_FILE" in os.environ else test


def generators():
    """One generator of each class, and two more streams, with no and with the maximum of buffered bytes."""
    return [
        *[WyRand(42), Pcg64(2**64 + 42)],
        *[kind(KEY, NONCE, 5) for kind in CHACHAS],
        *[Stream(KEY), Stream(KEY, NONCE, 5, b"abc"), Stream(KEY, rest=bytes(range(63)))],
    ]


def refuses(test, rng, errors, call):
    """Asserts that the call raises exactly this error and leaves the state. Errors of this package can be copied."""
    before = rng.state
    with test.assertRaises(errors) as caught:
        call(rng)
    if isinstance(errors, type):
        test.assertIs(type(caught.exception), errors)
    test.assertEqual(rng.state, before)
    if isinstance(caught.exception, NanorandError):
        stays_itself(test, caught.exception)
    return caught.exception


def told_of(error):
    """Everything that is visible of an error."""
    return type(error), error.args, str(error), repr(error), vars(error)


def stays_itself(test, error, ways=COPIES):
    """Asserts that every copy of an error equals it, and so does one that is made from its arguments."""
    made = type(error)(*error.args)
    for again in (made, *(way(error) for way in ways), *(way(way(error)) for way in ways)):
        test.assertEqual(told_of(again), told_of(error))


def views_of(text):
    """Views of other memory that show these bytes: a part, every third byte, from the end, with signed items."""
    return [
        memoryview(b"ab" + text + b"c")[2 : 2 + len(text)],
        memoryview(bytes(one for byte in text for one in (byte, 10, 0)))[::3],
        memoryview(bytearray(text[::-1]))[::-1],
        memoryview(text).cast("b"),
    ]


WINDOW = 1 << 22
MAP_FIXED = 0x10  # the value on Linux


def long_memory(test):
    """More than 2 GiB of addresses that take 4 MiB: one window is mapped repeatedly, and keeps what is written last."""
    if "COVERAGE_FILE" in os.environ:
        test.skipTest("counting lines is too slow with so much memory")
    try:
        length, descriptor = 2**31 + WINDOW, os.memfd_create("a window")
        test.addCleanup(os.close, descriptor)
        os.ftruncate(descriptor, length)
        memory = mmap.mmap(descriptor, length)
        test.addCleanup(memory.close)
        place, whole = ctypes.CDLL(None, use_errno=True).mmap, ctypes.c_int
        place.restype = ctypes.c_void_p
        place.argtypes = [ctypes.c_void_p, ctypes.c_size_t, whole, whole, whole, ctypes.c_long]
        start, writes = ctypes.addressof(ctypes.c_char.from_buffer(memory)), mmap.PROT_READ | mmap.PROT_WRITE
        for at in range(start, start + length, WINDOW):
            if place(at, WINDOW, writes, mmap.MAP_SHARED | MAP_FIXED, descriptor, 0) != at:
                raise OSError(ctypes.get_errno(), "mmap")
    except (AttributeError, OSError) as error:
        test.skipTest(f"this system has no such memory: {error}")
    return memory
