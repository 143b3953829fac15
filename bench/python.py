#!/usr/bin/env python3
"""Compares the speed of the installed package with Python's `random.Random`: bench/python.py [RUNS].

It prints tables in Markdown: for the generators, for sequences of several types, for the classes of nanorand.randoms
and, if NumPy is installed, for NumPy's Generator with the classes of nanorand.numpy, and for fills of NumPy's arrays.
The first number of a row is the time of Python's own call, or of NumPy's PCG64, in nanoseconds. The others are the
ratios of each class's time to it. Each is the median of RUNS runs, by default 9, in which the classes take turns.
"""

import array
import collections
import random
import statistics
import sys
import timeit

try:
    import numpy
except ImportError:
    numpy = None

from nanorand import ChaCha8, ChaCha12, ChaCha20, Pcg64, Stream, WyRand, randoms

RUNS = 9
SECONDS = 0.02  # the approximate length of a run
GENERATORS = [WyRand, Pcg64, Stream, ChaCha8, ChaCha12, ChaCha20]
RANDOMS = [getattr(randoms, f"{kind.__name__}Random") for kind in GENERATORS]
# The call of random.Random, and that of our generators. The classes of nanorand.randoms have the first.
CALLS = [
    ("rng.getrandbits(64)", "rng.u64()"),
    ("rng.random()", "rng.random()"),
    ("rng.randint(1, 100)", "rng.randint(1, 100)"),
    ("rng.uniform(1, 100)", "rng.uniform(1, 100)"),
    ("rng.choice(thousand)", "rng.choice(thousand)"),
    ("rng.choices(thousand, k=1000)", "rng.choices(thousand, k=1000)"),
    ("rng.choices(thousand, thousand, k=1000)", "rng.choices(thousand, thousand, k=1000)"),
    ("rng.sample(thousand, 10)", "rng.sample(thousand, 10)"),
    ("rng.sample(range(10**9), 10**4)", "rng.sample(range(10**9), 10**4)"),
    ("rng.sample(range(10**6), 10**5)", "rng.sample(range(10**6), 10**5)"),
    ("rng.sample(range(10**6), 10**5)", "rng.sample_below(10**6, 10**5)"),
    ("rng.shuffle(many)", "rng.shuffle(many)"),
    ("rng.randbytes(1000000)", "rng.bytes(1000000)"),
    ("[rng.random() for _ in thousand]", "rng.fill_random(doubles)"),
    ("[rng.randint(1, 100) for _ in thousand]", "rng.fill_range(words, 1, 100)"),
]
# The populations of the table of sequences, small and large.
POPULATIONS = {
    "list": "list(range({}))",
    "range": "range({})",
    "bytes": "bytes({})",
    "bytearray": "bytearray({})",
    "array": "array('q', range({}))",
    "deque": "deque(range({}))",
    "NumPy array": "numpy.arange({})",
}
SIZES = [10, 100_000]
OF_POPULATIONS = ["rng.choice(items)", "rng.choices(items)", "rng.choices(items, k=1000)", "rng.sample(items, 10)"]
# The calls of NumPy's Generator, for a million numbers.
NUMPY_CALLS = [
    "rng.integers(0, 1000, 10**6)",
    "rng.integers(0, 2**40, 10**6)",
    "rng.random(10**6)",
    "rng.normal(size=10**6)",
    "rng.choice(10**6, 10**5, replace=False, shuffle=False)",
    "rng.shuffle(many)",
    "rng.bytes(10**6)",
]
# The calls that fill an array of a million items: that of NumPy's Generator, that of our generators, and the items.
FILLS = [
    ("rng.random(out=items)", "rng.fill_random(items)", "float64"),
    ("rng.random(out=items, dtype='float32')", "rng.fill_random(items)", "float32"),
    ("rng.integers(1, 101, 10**6, dtype='uint64')", "rng.fill_range(items, 1, 100)", "uint64"),
    ("rng.integers(1, 101, 10**6, dtype='uint32')", "rng.fill_range(items, 1, 100)", "uint32"),
    ("rng.integers(1, 101, 10**6, dtype='uint8')", "rng.fill_range(items, 1, 100)", "uint8"),
]
VALUES = "from array import array; thousand = list(range(1, 1001)); many = list(range(100_000)); " \
         "doubles = array('d', thousand); words = array('Q', thousand)"


def made(kind):
    """A generator of a class."""
    return kind.from_entropy() if hasattr(kind, "from_entropy") else kind(42)


def timer(call, rng, items=None):
    """The timer of a call, and how often one run makes the call."""
    found = timeit.Timer(call, VALUES, globals={"rng": rng, "items": items})
    count = 1
    while found.timeit(count) < SECONDS / 10:
        count *= 2
    return found, max(1, round(SECONDS / found.timeit(count) * count))


def nanoseconds(timers, runs):
    """The median time of a call for each timer, in nanoseconds. The timers take turns."""
    times = [[found.timeit(count) / count for found, count in timers] for _ in range(runs)]
    return [statistics.median(column) * 1e9 for column in zip(*times)]


def row(calls, rngs, runs):
    """The nanoseconds of a call of the first generator, and the ratios of the others' times to it."""
    timers = [timer(call, rng) for call, rng in zip([calls[0]] + [calls[1]] * len(rngs), rngs)]
    own, *others = nanoseconds(timers, runs)
    return [f"`{calls[1].removeprefix('rng.')}`", f"{own:,.0f}", *(f"{other / own:.2f}" for other in others)]


def table(names, calls, rngs, runs):
    """Prints a row for each call."""
    print("|", " | ".join(["Call", f"`{names[0]}`, ns", *(f"`{name}`" for name in names[1:])]), "|")
    print("|---" * (len(names) + 1) + "|")
    for both in calls:
        print("|", " | ".join(row(both, rngs, runs)), "|", flush=True)
    print()


def python_table(kinds, calls, runs):
    """Compares classes of this package with `random.Random`."""
    names = ["random.Random", *(kind.__name__ for kind in kinds)]
    table(names, calls, [random.Random(42), *map(made, kinds)], runs)


def compared(call, rngs, items, runs):
    """The nanoseconds of the first generator and the ratio of the other, or dashes if the first refuses the items."""
    try:
        own, other = nanoseconds([timer(call, rng, items) for rng in rngs], runs)
    except TypeError:
        return "-", "-"
    return f"{own:,.0f}", f"{other / own:.2f}"


def sequence_table(runs):
    """Compares `WyRand` with `random.Random` for sequences of several types."""
    print("| Population |", " | ".join(f"`{call.removeprefix('rng.')}`, ns | ratio" for call in OF_POPULATIONS), "|")
    print("|---" * (2 * len(OF_POPULATIONS) + 1) + "|")
    rngs = [random.Random(42), made(WyRand)]
    for name, text in POPULATIONS.items():
        for size in SIZES:
            try:
                items = eval(text.format(size), {"array": array.array, "deque": collections.deque, "numpy": numpy})
            except AttributeError:
                continue
            columns = [column for call in OF_POPULATIONS for column in compared(call, rngs, items, runs)]
            print("|", " | ".join([f"{name} of {size:,}", *columns]), "|", flush=True)
    print()


def numpy_table(runs):
    """Compares NumPy's Generator with this package's bit generators and with its own."""
    from nanorand.numpy import Pcg64Bits, StreamBits, WyRandBits

    kinds = [numpy.random.PCG64, WyRandBits, Pcg64Bits, StreamBits]
    names = [kind.__name__ for kind in kinds]
    table(names, [(call, call) for call in NUMPY_CALLS], [numpy.random.Generator(kind(42)) for kind in kinds], runs)


def fill_table(runs):
    """Compares fills of arrays with NumPy's Generator over its own PCG64."""
    kinds = [WyRand, Pcg64, Stream]
    print("| Call | Items | `PCG64`, ns |", " | ".join(f"`{kind.__name__}`" for kind in kinds), "|")
    print("|---" * (len(kinds) + 3) + "|")
    for call, fill, items in FILLS:
        array_of_items = numpy.zeros(10**6, items)
        timers = [timer(call, numpy.random.Generator(numpy.random.PCG64(42)), array_of_items)]
        timers += [timer(fill, made(kind), array_of_items) for kind in kinds]
        own, *others = nanoseconds(timers, runs)
        ratios = " | ".join(f"{other / own:.2f}" for other in others)
        print(f"| `{fill.removeprefix('rng.')}` | {items} | {own:,.0f} | {ratios} |", flush=True)
    print()


def main(arguments):
    if len(arguments) > 1 or not all(one.isdigit() for one in arguments):
        sys.exit("usage: bench/python.py [RUNS]")
    runs = int(arguments[0]) if arguments else RUNS
    python_table(GENERATORS, CALLS, runs)
    sequence_table(runs)
    of_random = dict.fromkeys(python for python, _ in CALLS if "for" not in python)
    python_table(RANDOMS, [(call, call) for call in of_random], runs)
    if numpy is None:
        print("skipped: the tables of NumPy, which cannot be imported")
    else:
        numpy_table(runs)
        fill_table(runs)


if __name__ == "__main__":
    main(sys.argv[1:])
