"""Calls and their types, for `mypy --strict`. This file is not run.

A line with a mistake has an `ignore`, and mypy has to find the mistake, because it reports an unused `ignore`.
"""

import array
import random
from fractions import Fraction
from typing import assert_type

from nanorand import ChaCha8, ChaCha20, EmptyRange, Generator, NanorandError, PastPeriod, Pcg64, Stream, WyRand, lots
from nanorand.errors import EmptyLine, TooFew
from nanorand.generators import ChaCha12
from nanorand.randoms import GeneratorRandom, Pcg64Random, StreamRandom, WyRandRandom


def makes() -> None:
    assert_type(WyRand(42), WyRand)
    assert_type(Pcg64(seed=True), Pcg64)
    assert_type(ChaCha8(bytes(32), bytearray(8), 5), ChaCha8)
    assert_type(Stream(memoryview(bytes(32)), rest=b"abc"), Stream)
    assert_type(WyRand.from_state(bytes(8)), WyRand)
    assert_type(ChaCha20.from_entropy(), ChaCha20)
    assert_type(Stream.seed_from_u64(number=True), Stream)
    WyRand.seed_from_u64(4.2)  # type: ignore[arg-type]
    assert_type(Pcg64(1).copy(), Pcg64)
    assert_type(Pcg64(1).part(3, draws=2**40 + 1), Pcg64)
    assert_type(WyRand(1).distance(WyRand(2)), int)
    assert_type(Pcg64(1).distance(other=Pcg64(2)), "int | None")
    WyRand(1).distance(Pcg64(2))  # type: ignore[arg-type]
    Stream(bytes(32)).seek(5)
    assert_type(Stream(bytes(32)).position, int)
    ChaCha20(bytes(32)).seek(5)  # type: ignore[attr-defined]
    assert_type(WyRand.from_state(WyRand(1).state_dict), WyRand)
    WyRand.from_state("state")  # type: ignore[arg-type]
    Stream(bytes(32)).part(1)  # type: ignore[call-arg]
    WyRand(1).part(0.5, 1)  # type: ignore[arg-type]
    WyRand()  # type: ignore[call-arg]
    WyRand("42")  # type: ignore[arg-type]
    WyRand(4.2)  # type: ignore[arg-type]
    ChaCha12("key")  # type: ignore[arg-type]
    ChaCha20(bytes(32), rest=b"")  # type: ignore[call-arg]


def returns_nothing(rng: Pcg64) -> None:
    print(Stream(bytes(32)).seek(5))  # type: ignore[func-returns-value]
    print(rng.jump(5))  # type: ignore[func-returns-value]
    print(ChaCha8(bytes(32)).jump(5))  # type: ignore[func-returns-value]
    print(rng.shuffle([1]))  # type: ignore[func-returns-value]
    print(rng.shuffle_full([1]))  # type: ignore[func-returns-value]
    print(rng.fill(bytearray(5)))  # type: ignore[func-returns-value]
    print(rng.fill_range(bytearray(5), 1, 6))  # type: ignore[func-returns-value]
    print(rng.fill_random(array.array("d", [1])))  # type: ignore[func-returns-value]


def draws(rng: Generator) -> None:
    assert_type(rng.u64(), int)
    assert_type(rng.random(), float)
    assert_type(rng.bytes(length=5), bytes)
    assert_type(rng.below(5), int)
    assert_type(rng.range(first=1, last=6), int)
    assert_type(rng.range32(1, 6), int)
    assert_type(rng.randint(a=1, b=6), int)
    assert_type(rng.uniform(1, 2.5), float)
    assert_type(rng.state, bytes)
    rng.state = rng.state
    assert_type(rng.state_dict, dict[str, str])
    rng.state_dict = {}  # type: ignore[misc]
    rng.below(5.0)  # type: ignore[arg-type]
    rng.range(1)  # type: ignore[call-arg]
    rng.uniform("a", 1)  # type: ignore[arg-type]
    rng.jump(5)  # type: ignore[attr-defined]


def items(rng: WyRand) -> None:
    assert_type(rng.choice("abc"), str)
    assert_type(rng.choice([1, 2]), int)
    assert_type(rng.choice((1.5, None)), "float | None")
    assert_type(rng.choices("abc"), list[str])
    assert_type(rng.choices([1, 2], [3, 4.5], k=5), list[int])
    assert_type(rng.choices(range(2), cum_weights=[Fraction(1), 2]), list[int])
    assert_type(rng.sample(b"abc", 2), list[int])
    assert_type(rng.sample(population=["a"], length=1), list[str])
    assert_type(rng.sample(["a", "b"], k=3, counts=[2, 5]), list[str])
    assert_type(rng.sample_below(10, 3), list[int])
    assert_type(rng.sample_below(count=10, length=3), list[int])
    rng.sample("abc", 2, length=2)  # type: ignore[call-overload]
    rng.sample("abc", 2, counts=[1.5])  # type: ignore[list-item]
    rng.shuffle([1, 2])
    rng.shuffle(bytearray(5))
    rng.shuffle_full(array.array("q", [1, 2]))
    rng.shuffle((1, 2))  # type: ignore[arg-type]
    rng.choice({1, 2})  # type: ignore[arg-type]
    rng.choices("abc", None, [1, 2, 3])  # type: ignore[misc]
    rng.choices("abc", ["a"])  # type: ignore[list-item]


def fills(rng: Stream) -> None:
    rng.fill(bytearray(5))
    rng.fill_range(array.array("i", [0]), -5, 5)
    rng.fill_random(memoryview(bytearray(8)).cast("d"))
    rng.fill("text")  # type: ignore[arg-type]
    rng.fill_range(bytearray(5), 1)  # type: ignore[call-arg]
    assert_type((rng.key, rng.nonce, rng.counter, rng.rest), tuple[bytes, bytes, int, bytes])
    rng.key = bytes(32)  # type: ignore[misc]
    rng.block()  # type: ignore[attr-defined]


def parts(one: Pcg64, other: ChaCha8) -> None:
    assert_type(one.seed, int)
    assert_type(other.block(), bytes)
    one.jump(2**100)
    other.jump(5)
    one.key  # type: ignore[attr-defined]
    other.rest  # type: ignore[attr-defined]


def randoms(rng: GeneratorRandom) -> None:
    python: random.Random = rng
    assert_type(python.gauss(0, 1), float)
    assert_type(rng.random(), float)
    assert_type(rng.getrandbits(5), int)
    assert_type(rng.randbytes(5), bytes)
    assert_type(rng.generator, Generator)
    for made in (WyRandRandom(5), WyRandRandom(1.5), WyRandRandom("text"), WyRandRandom(b"bytes"), WyRandRandom(None)):
        made.seed(True, version=1)
    StreamRandom(seed=5).setstate(StreamRandom(x=5).getstate())
    Pcg64Random([])  # type: ignore[arg-type]


def draws_by_lot() -> None:
    assert_type(lots.draw("seed", b"a\nb"), list[bytes])
    assert_type(lots.draw(b"seed", ["a", "b"], 1), list[str])
    assert_type(lots.draw("seed", range(5), count=None), list[int])
    assert_type(lots.count(b""), int)
    assert_type(lots.digest(memoryview(b"")), bytes)
    lots.count("text")  # type: ignore[arg-type]
    lots.draw(5, [1])  # type: ignore[call-overload]


def errors(one: EmptyLine, other: TooFew) -> None:
    assert_type(one.line, int)
    assert_type((other.entrants, other.count), tuple[int, int])
    base: NanorandError = EmptyRange("why")
    value: ValueError = PastPeriod()
    print(base, value)
