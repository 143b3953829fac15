"""The generators as bit generators of NumPy, for `numpy.random.Generator`.

Only this module of the package requires NumPy. The seeds are those that NumPy's own bit generators accept, mixed by
`numpy.random.SeedSequence` in the same way. `of` continues from the state of a generator of this package, so that the
words (random integers of 64 bits) are the same as in every other language. NumPy determines which numbers it makes
from the words.

None of the classes is a vetted cryptographic generator: for keys, tokens and passwords, or if there is an adversary,
use a vetted generator.

>>> import numpy
>>> from nanorand import Pcg64
>>> from nanorand.numpy import Pcg64Bits
>>> rng = numpy.random.Generator(Pcg64Bits(42))
>>> len(rng.normal(size=1000))
1000
>>> Pcg64Bits.of(Pcg64.seed_from_u64(42)).random_raw() == Pcg64.seed_from_u64(42).u64()
True
"""

import operator
from collections.abc import Callable, Mapping
from typing import Any, ClassVar, Optional, SupportsIndex, TypeVar, cast

import numpy
from numpy.random import BitGenerator
from numpy.random.bit_generator import ISeedSequence, SeedlessSeedSequence

from nanorand import _native
from nanorand.errors import ForeignState
from nanorand.generators import Generator, Pcg64, Stream, WyRand

__all__ = ["GeneratorBits", "Pcg64Bits", "StreamBits", "WyRandBits"]

Bits = TypeVar("Bits", bound="GeneratorBits")

PARTS = frozenset({"bit_generator", "state", "has_uint32", "uinteger"})


class GeneratorBits(BitGenerator):
    """Base class of the bit generators of this module. It cannot be instantiated.

    A word of 64 bits is a `u64` of the generator. A word of 32 bits is the low half of a `u64`; the next one is the
    high half of the same `u64`, unless a word of 64 bits is drawn between them. A double is the upper 53 bits of a
    `u64`, times 2^-53. A caller that draws must hold `lock`, as for NumPy's own bit generators.
    """

    _kind: ClassVar[type[Generator]]
    _seed_length: ClassVar[int]
    _zeros: ClassVar[int] = 0
    # In words: the period, and the length of a jump.
    _period: ClassVar[int]
    _jump: ClassVar[int]
    # Attributes of NumPy, which does not declare their types.
    capsule: Any
    _seed_seq: ISeedSequence

    def __init__(self, seed: Any = None) -> None:
        if not hasattr(self, "_kind"):
            raise TypeError("GeneratorBits cannot be instantiated: use one of its subclasses")
        if self.capsule is not None:
            raise TypeError("__init__ cannot be called again: other objects may draw from this bit generator")
        super().__init__(seed)
        words = self._seed_seq.generate_state(self._seed_length // 8, numpy.uint64)
        state = words.astype("<u8").tobytes() + bytes(self._zeros)
        _native.attach(self.capsule, self._kind.from_state(state))

    @classmethod
    def of(cls: type[Bits], generator: Generator) -> Bits:
        """Return a bit generator that continues from the state of a generator of this package.

        It draws from a copy of the generator. It has no seed sequence, so it cannot spawn others. For many tasks, give
        each task a part of one stream.

        Examples
        --------
        >>> from nanorand import Pcg64, WyRand
        >>> rng = WyRand.seed_from_u64(42)
        >>> WyRandBits.of(rng).random_raw() == rng.u64()
        True
        >>> root = Pcg64.seed_from_u64(42)
        >>> tasks = [numpy.random.Generator(Pcg64Bits.of(root.part(task, 2**40 + 1))) for task in range(4)]
        >>> len({task.integers(2**60) for task in tasks})
        4
        """
        if type(generator) is not cls._kind:
            raise TypeError(f"generator is a {type(generator).__name__}, not a {cls._kind.__name__}")
        return cls._at(SeedlessSeedSequence(), generator)

    @classmethod
    def _at(cls: type[Bits], seed: Any, generator: Generator) -> Bits:
        """Return a bit generator that draws from a copy of the generator."""
        made = cls.__new__(cls)
        BitGenerator.__init__(made, seed)
        _native.attach(made.capsule, generator)
        return made

    def _now(self) -> "tuple[Generator, Optional[int]]":
        """Return the generator after the words drawn so far, and the half of a word to be drawn next, or None."""
        with self.lock:
            return self._now_locked()

    def _now_locked(self) -> "tuple[Generator, Optional[int]]":
        start, words, half = _native.drawn(self.capsule)
        generator = start.copy()
        generator.bytes(8 * words)
        return generator, half

    @property
    def generator(self) -> Generator:
        """A generator of this package that continues from this state, at the next whole word.

        >>> bits = Pcg64Bits(42)
        >>> bits.generator.u64() == bits.random_raw()
        True
        """
        return self._now()[0]

    @property  # type: ignore[override]
    def state(self) -> "dict[str, Any]":
        """The state, in the form that NumPy uses, which can be stored as JSON. Assign to it to set the state.

        It has the name of the class, the generator's `state_dict`, and the half of a word to be drawn next. In a state
        that you assign, the generator's `state`, as bytes, may stand in place of the `state_dict`.

        >>> bits = WyRandBits(42)
        >>> saved = bits.state
        >>> first = bits.random_raw()
        >>> bits.state = saved
        >>> bits.random_raw() == first
        True
        """
        generator, half = self._now()
        return {
            "bit_generator": type(self).__name__,
            "state": generator.state_dict,
            "has_uint32": int(half is not None),
            "uinteger": half or 0,
        }

    @state.setter
    def state(self, state: Mapping[str, Any]) -> None:
        if not isinstance(state, Mapping):
            raise TypeError(f"state is a {type(state).__name__}, not a dict")
        if not PARTS <= state.keys() or state["bit_generator"] != type(self).__name__:
            raise ForeignState(type(self).__name__)
        generator = self._kind.from_state(state["state"])
        half = _native.bounded("uinteger", state["uinteger"], 2**32 - 1)
        with_half = _native.bounded("has_uint32", state["has_uint32"], 1)
        with self.lock:
            _native.restart(self.capsule, generator, half if with_half else None)

    def advance(self: Bits, delta: SupportsIndex) -> Bits:
        """Move `delta` words of 64 bits ahead, and return this bit generator.

        A half of a word to be drawn next is dropped, as NumPy's own bit generators drop it. The number is taken modulo
        the period, so a negative one moves back.

        Parameters
        ----------
        delta : int
            Number of words.

        Examples
        --------
        >>> rng, same = Pcg64Bits(42), Pcg64Bits(42)
        >>> drawn = rng.random_raw(1000)
        >>> same.advance(1000).random_raw() == rng.random_raw()
        True
        """
        words = operator.index(delta) % self._period
        with self.lock:
            generator = self._ahead(self._now_locked()[0], words)
            _native.restart(self.capsule, generator, None)
        return self

    def jumped(self: Bits, jumps: SupportsIndex = 1) -> Bits:
        """Return a bit generator that is `jumps` jumps ahead, so that it does not repeat the words before that point.

        A jump is 2^48 words of `WyRandBits`, 2^64 words of `Pcg64Bits`, and 2^48 blocks of eight words of `StreamBits`.

        Words are correlated if the distance between them is divisible by a large power of two. Two words of
        `Pcg64Bits` that are an odd number of jumps apart have the same lowest two bits, and more bits agree if the
        number is even. For many tasks, use `of` with parts of an odd length instead.

        Examples
        --------
        >>> Pcg64Bits(42).jumped(2).random_raw() == Pcg64Bits(42).jumped().jumped().random_raw()
        True
        """
        count = _native.bounded("jumps", jumps, self._period // self._jump - 1)
        return self._at(SeedlessSeedSequence(), self._ahead(self.generator, count * self._jump))

    @staticmethod
    def _ahead(generator: Any, words: int) -> Generator:
        """Return the generator after a number of words below the period."""
        generator.jump(words)
        return cast(Generator, generator)

    @classmethod
    def _unpickled(cls: type[Bits], seed: ISeedSequence) -> Bits:
        """Return an object whose state is set later. `numpy.random.Generator` uses the parts of a pickle one by one."""
        return cls._at(seed, cls._kind.from_state(bytes(cls._seed_length + cls._zeros)))

    def __reduce__(  # type: ignore[override]
        self,
    ) -> "tuple[Callable[..., GeneratorBits], tuple[ISeedSequence], dict[str, Any]]":
        return self._unpickled, (self._seed_seq,), self.state


class WyRandBits(GeneratorBits):
    """`WyRand` as a bit generator, the fastest of this module. It is not cryptographically secure.

    >>> WyRandBits(42).random_raw() == WyRandBits(42).random_raw()
    True
    """

    _kind = WyRand
    _seed_length = 8
    _period = 2**64
    _jump = 2**48


class Pcg64Bits(GeneratorBits):
    """`Pcg64` as a bit generator, with a period of 2^126 words. It is not cryptographically secure.

    >>> Pcg64Bits(42).random_raw() == Pcg64Bits(42).random_raw()
    True
    """

    _kind = Pcg64
    _seed_length = 16
    _period = 2**126
    _jump = 2**64


class StreamBits(GeneratorBits):
    """The keystream of ChaCha20 as a bit generator. The seed makes the key; the nonce and the counter are 0 at first.

    >>> StreamBits(42).random_raw() == StreamBits(42).random_raw()
    True
    """

    _kind = Stream
    _seed_length = 32
    _zeros = 16
    _period = 2**67
    _jump = 2**51

    @staticmethod
    def _ahead(generator: Stream, words: int) -> Stream:
        generator.seek((generator.position + 8 * words) % 2**70)
        return generator
