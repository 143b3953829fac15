"""The generators as `random.Random`, with all methods of that class, such as `gauss` and `choices`.

`random`, `getrandbits` and `randbytes` take the bytes of the generator. All other methods (`gauss`,
`shuffle`, `sample`, ..) are Python's own, and their results differ from those in other languages.

Every seed is mixed: the generator's seed or key is the first bytes of a SHA-256, so that generators
with the seeds 0, 1, 2, .. are unrelated. What is hashed depends on the type of the argument:

- For a str, its UTF-8 bytes.
- For bytes and bytearray, the bytes.
- For an int, the byte 0xFF, `int ` and the number as `hex` writes it, such as `int 0x2a`.
- For a float, the byte 0xFF, `float ` and the number as `float.hex` writes it.

For None, the seed comes from the operating system. To draw the same words as a generator of the
package, assign that generator to the attribute `generator`.

None of the classes is a vetted cryptographic generator: for keys, tokens and passwords, or if there
is an adversary, use a vetted generator.

>>> from nanorand.randoms import WyRandRandom
>>> rng = WyRandRandom("seed 42")
>>> rng.getrandbits(64), rng.randint(1, 6)
(17154516133070439476, 2)
"""

import copyreg
import hashlib
import operator
import random
from typing import Any, ClassVar, NamedTuple, SupportsIndex, Union

from nanorand._native import BaseRandom
from nanorand.errors import ForeignState
from nanorand.generators import ChaCha8, ChaCha12, ChaCha20, Generator, Pcg64, Stream, WyRand

__all__ = [
    "ChaCha8Random",
    "ChaCha12Random",
    "ChaCha20Random",
    "GeneratorRandom",
    "Pcg64Random",
    "StreamRandom",
    "WyRandRandom",
]

Seed = Union[None, SupportsIndex, float, str, bytes, bytearray]


class GeneratorRandom(BaseRandom):
    """Base class of the classes of this module, which draw from `generator`.

    `x` is the seed, as the method `seed` takes it; it can also be passed by the name `seed`. Copies
    and pickles keep the attributes of a subclass.

    >>> WyRandRandom("seed 42").generator
    WyRand(0xd95fc6fdf7c1b745)
    """

    _kind: ClassVar[type[Generator]]
    _seed_length: ClassVar[int]
    _rest_of_state: ClassVar[bytes] = b""

    def __init_subclass__(cls, **named: Any) -> None:
        """Make a subclass that overrides `getrandbits` draw bytes by it, as one of `random.Random` does."""
        super().__init_subclass__(**named)
        own = {"getrandbits", "randbytes"}
        first = next(one for one in cls.__mro__ if own & vars(one).keys())  # pragma: no branch
        if "randbytes" not in vars(first):
            setattr(cls, "randbytes", random.Random.randbytes)

    def __init__(self, x: Seed = None, *, seed: Seed = None) -> None:
        if x is not None and seed is not None:
            raise TypeError(f"{type(self).__name__}() takes x or seed, not both")
        super().__init__(seed if x is None else x)

    def seed(self, a: Seed = None, version: int = 2) -> None:  # type: ignore[override]
        """Restart from a seed, whose types the module's documentation lists. `version` is ignored.

        Python's own generator in the base class is seeded too, from the seed made here. Only calls
        that name the base class, such as `random.Random.random(rng)`, draw from it. It is not part
        of the state.

        Raises
        ------
        TypeError
            If the seed has another type.

        Examples
        --------
        >>> rng = Pcg64Random("seed 7")
        >>> first = rng.random()
        >>> rng.seed("seed 7")
        >>> rng.random() == first
        True
        """
        if a is None:
            generator = self._kind.from_entropy()
        else:
            seed = hashlib.sha256(_hashed(a)).digest()[: self._seed_length]
            generator = self._kind.from_state(seed + self._rest_of_state)
        super().seed(generator.state)
        self.generator = generator

    def getstate(self) -> "tuple[Any, ...]":
        """Return the state, for `setstate`: the generator's name, its state, and what `gauss` has kept.

        >>> rng = StreamRandom("a seed")
        >>> saved = rng.getstate()
        >>> first = rng.gauss(0, 1)
        >>> rng.setstate(saved)
        >>> rng.gauss(0, 1) == first
        True
        """
        return self._kind.__name__, self.generator.state, self.gauss_next

    def setstate(self, state: "tuple[Any, ...]") -> None:
        """Restore a state that `getstate` returned.

        Raises
        ------
        ForeignState
            If the state is not a tuple that `getstate` of a class with the same generator returned.
        WrongLength
            If the generator's state in it has the wrong length.

        Examples
        --------
        >>> WyRandRandom("seed 1").setstate(Pcg64Random("seed 1").getstate())
        Traceback (most recent call last):
        nanorand.errors.ForeignState: the state is not one of WyRand
        """
        whole = isinstance(state, tuple) and len(state) == 3
        if not whole or state[0] != self._kind.__name__:
            raise ForeignState(self._kind.__name__)
        if type(state[2]) not in (float, type(None)):
            raise ForeignState(self._kind.__name__)
        generator = self._kind.from_state(state[1])
        super().seed(generator.state)
        self.generator = generator
        self.gauss_next = state[2]

    def __reduce__(self) -> "tuple[Any, ...]":
        """Return what copies and pickles are made from."""
        slots = copyreg._slotnames(type(self))  # type: ignore[attr-defined]
        kept = {name: getattr(self, name) for name in slots if hasattr(self, name)}
        return _without_init, (type(self),), _Saved(self.getstate(), {**vars(self), **kept})

    def __setstate__(self, state: "tuple[Any, ...]") -> None:
        """Restore what a pickle has; one of an earlier version has only the result of `getstate`."""
        if not isinstance(state, _Saved):
            self.setstate(state)
            return
        self.setstate(state.state)
        for name, value in state.attributes.items():
            object.__setattr__(self, name, value)


def _without_init(kind: type[GeneratorRandom]) -> GeneratorRandom:
    """Return an object whose state and attributes a pickle sets: an `__init__` of a subclass may need arguments."""
    return kind.__new__(kind)


class _Saved(NamedTuple):
    """What a pickle of a generator has: the result of its `getstate`, and its attributes."""

    state: "tuple[Any, ...]"
    attributes: "dict[str, Any]"


def _hashed(seed: Union[SupportsIndex, float, str, bytes, bytearray]) -> bytes:
    """Return the bytes that are hashed for a seed. No str has the byte 0xFF in UTF-8."""
    if isinstance(seed, str):
        return seed.encode()
    if isinstance(seed, (bytes, bytearray)):
        return bytes(seed)
    if isinstance(seed, float):
        return b"\xfffloat " + seed.hex().encode()
    if not hasattr(type(seed), "__index__"):
        raise TypeError(f"seed is a {type(seed).__name__}, not an integer, a float, a str, bytes or None")
    return b"\xffint " + hex(operator.index(seed)).encode()


class WyRandRandom(GeneratorRandom):
    """`WyRand` as `random.Random`. It is not cryptographically secure.

    >>> WyRandRandom("seed 42").randbytes(4).hex()
    '34045fd5'
    """

    _kind = WyRand
    _seed_length = 8


class Pcg64Random(GeneratorRandom):
    """`Pcg64` as `random.Random`. It is not cryptographically secure.

    >>> Pcg64Random("seed 0").randbytes(4).hex()
    'a0e95bce'
    """

    _kind = Pcg64
    _seed_length = 16


class ChaCha8Random(GeneratorRandom):
    """`ChaCha8` as `random.Random`.

    Each number takes a whole block of 64 bytes. `StreamRandom` wastes no bytes.

    >>> ChaCha8Random("seed 0").randbytes(4).hex()
    'bf935bf3'
    """

    _kind = ChaCha8
    _seed_length = 32
    _rest_of_state = bytes(16)


class ChaCha12Random(GeneratorRandom):
    """`ChaCha12` as `random.Random`.

    Each number takes a whole block of 64 bytes. `StreamRandom` wastes no bytes.

    >>> ChaCha12Random("seed 0").randbytes(4).hex()
    '2b99b993'
    """

    _kind = ChaCha12
    _seed_length = 32
    _rest_of_state = bytes(16)


class ChaCha20Random(GeneratorRandom):
    """`ChaCha20` as `random.Random`.

    Each number takes a whole block of 64 bytes. `StreamRandom` wastes no bytes.

    >>> ChaCha20Random("seed 0").randbytes(4).hex()
    '0b9b3dc9'
    """

    _kind = ChaCha20
    _seed_length = 32
    _rest_of_state = bytes(16)


class StreamRandom(GeneratorRandom):
    """`Stream`, the unbroken keystream of ChaCha20, as `random.Random`.

    >>> StreamRandom("seed 0").randbytes(4).hex()
    '0b9b3dc9'
    """

    _kind = Stream
    _seed_length = 32
    _rest_of_state = bytes(16)
