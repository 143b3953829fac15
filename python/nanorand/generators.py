"""The generators. Each starts from a seed or a key, and draws the same numbers in every language.

`WyRand` and `Pcg64` are not cryptographically secure: never use them to generate a key, a token or
a password. `Stream` and the ChaCha classes are not vetted cryptographic generators either: for keys,
tokens and passwords, or if there is an adversary, use a vetted generator.

>>> from nanorand.generators import WyRand
>>> WyRand.seed_from_u64(42).below(100)
34
"""

from nanorand._native import ChaCha8, ChaCha12, ChaCha20, Generator, Pcg64, Stream, WyRand

__all__ = ["ChaCha8", "ChaCha12", "ChaCha20", "Generator", "Pcg64", "Stream", "WyRand"]
