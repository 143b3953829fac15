"""The public draw by lot of docs/LOTS.md: anyone who has the list and the seed gets the same result.

>>> from nanorand import lots
>>> lots.draw("a seed", b"a\\nb\\nc\\nd\\ne\\nf\\ng\\nh\\ni\\nj\\n", 3)
[b'h', b'a', b'e']
"""

from collections.abc import Sequence
from typing import Any, Optional, SupportsIndex, TypeVar, Union, overload

from nanorand._native import check_count, check_entrants, check_seed, lots_count, lots_digest, lots_places
from nanorand.errors import EmptySeed, SeedNotText, TooFew

__all__ = ["count", "digest", "draw"]

Item = TypeVar("Item")
Buffer = Union[bytes, bytearray, memoryview]
Seed = Union[str, Buffer]


def digest(text: Buffer) -> bytes:
    """Return the SHA-256 of the bytes, as 32 bytes. It is what is published together with a list.

    >>> digest(b"a\\nb\\n").hex()[:8]
    '911169dd'
    """
    return lots_digest(text)


def count(text: Buffer) -> int:
    """Return the number of entrants of a list, one for each line.

    The last line need not end with a line feed.

    Raises
    ------
    EmptyLine
        If a line is empty.

    Examples
    --------
    >>> count(b"Ada\\nBarbara\\nChidi"), count(b"")
    (3, 0)
    >>> count(b"Ada\\n\\n")
    Traceback (most recent call last):
    nanorand.errors.EmptyLine: line 2 is empty
    """
    return lots_count(text)


# Bytes are a sequence of ints too, so the first overload hides a part of the second.
@overload
def draw(  # type: ignore
    seed: Seed, entrants: Buffer, count: Optional[SupportsIndex] = None
) -> "list[bytes]": ...


@overload
def draw(
    seed: Seed, entrants: Sequence[Item], count: Optional[SupportsIndex] = None
) -> "list[Item]": ...


def draw(seed: Seed, entrants: object, count: Optional[SupportsIndex] = None) -> "list[Any]":
    """Return a list of `count` of the entrants, in the order in which they were drawn.

    Parameters
    ----------
    seed : str, bytes, bytearray or memoryview
        A text, or its bytes in UTF-8.
    entrants : bytes, bytearray, memoryview or sequence
        A list as bytes, whose lines are the entrants, or a sequence, whose items are the entrants.
    count : int, optional
        Number of entrants to draw. By default all of them are drawn.

    Raises
    ------
    OutOfBounds
        If `count` is below 0, or 2^64 or more.
    EmptySeed
        If the seed is empty.
    SeedNotText
        If the seed is not UTF-8.
    EmptyLine
        If a line of the list is empty.
    TooFew
        If there are fewer entrants than `count`.
    Exhausted
        If 128 words (random integers of 64 bits) in a row were rejected.

    Notes
    -----
    The errors are checked in this order.

    Examples
    --------
    >>> draw("4 1 6", ["Ada", "Barbara", "Chidi"])
    ['Ada', 'Barbara', 'Chidi']
    >>> draw("4 1 6", b"Ada\\nBarbara\\nChidi\\n", 4)
    Traceback (most recent call last):
    nanorand.errors.TooFew: 3 entrants, 4 asked for
    """
    wanted = None if count is None else check_count(count)
    text = _seed(seed)
    items = _entrants(entrants)
    drawn = len(items) if wanted is None else wanted
    if drawn > len(items):
        raise TooFew(len(items), drawn)
    return [items[place] for place in lots_places(text, len(items), drawn)]


def _seed(seed: Seed) -> bytes:
    """Return the bytes of a seed, after checking that it is not empty and is UTF-8."""
    try:
        text = seed.encode() if isinstance(seed, str) else check_seed(seed)
        text.decode()
    except UnicodeError:
        raise SeedNotText from None
    if not text:
        raise EmptySeed
    return text


def _entrants(entrants: object) -> "Sequence[Any]":
    if isinstance(entrants, (bytes, bytearray, memoryview)):
        return _lines(bytes(entrants))
    if isinstance(entrants, str):
        raise TypeError("entrants is a str: pass the bytes of a list, or a sequence of entrants")
    return check_entrants(entrants)


def _lines(text: bytes) -> "list[bytes]":
    count(text)
    lines = text.split(b"\n")
    if not lines[-1]:
        lines.pop()  # no line begins after the last line feed
    return lines
