"""Deterministic random generators of a proved library: the same numbers in every language.

`WyRand` and `Pcg64` are not cryptographically secure: never use them to generate a key, a token or
a password. `Stream` and the ChaCha classes are not vetted cryptographic generators either: they do
not erase keys from memory, and do not reseed themselves. For keys, tokens and passwords, or if
there is an adversary, use a vetted generator.

`seed_from_u64` of each class makes a generator from any number, even a small one: it mixes the
number. `WyRand(seed)` and `Pcg64(seed)` use the seed as the state, without mixing it: generators
with neighbouring seeds draw correlated numbers.

`nanorand.randoms` provides the generators as `random.Random`, `nanorand.numpy` as bit generators of
NumPy, `nanorand.lots` the public draw by lot, and `nanorand.errors` all errors.

>>> from nanorand import WyRand
>>> rng = WyRand.seed_from_u64(42)
>>> rng.range(1, 100)
35
"""

from nanorand import errors
from nanorand.errors import (
    EmptyRange,
    Exhausted,
    LibraryRefused,
    NanorandError,
    OutOfBounds,
    PastPeriod,
    WrongLength,
)

try:
    from nanorand import _native as _native
except LibraryRefused:
    raise
except ImportError as error:
    raise LibraryRefused(f"the extension module cannot be loaded: {error}") from None

from nanorand import lots, randoms
from nanorand.generators import ChaCha8, ChaCha12, ChaCha20, Generator, Pcg64, Stream, WyRand

__version__ = _native.__version__

__all__ = [
    "ChaCha8",
    "ChaCha12",
    "ChaCha20",
    "EmptyRange",
    "Exhausted",
    "Generator",
    "NanorandError",
    "OutOfBounds",
    "PastPeriod",
    "Pcg64",
    "Stream",
    "WrongLength",
    "WyRand",
    "errors",
    "lots",
    "randoms",
]
