"""The errors of this package.

An error of this package leaves the state of the generator unchanged, except for `Exhausted`: the
words (random integers) that were rejected, and those drawn before them, stay consumed. After a
`MemoryError` for a number that has been drawn, and after an exception of a signal handler, the
state may have changed too. A value of a wrong type, such as a float in place of an int, raises a
`TypeError`. A message shows a number in digits, or its length in bits if it has more than about 100
digits.

>>> from nanorand import EmptyRange, WyRand
>>> try:
...     WyRand.seed_from_u64(42).range(6, 1)
... except EmptyRange as error:
...     print(error)
no number from 6 to 1
"""

__all__ = [
    "EmptyLine",
    "EmptyRange",
    "EmptySeed",
    "Exhausted",
    "ForeignState",
    "LibraryRefused",
    "NanorandError",
    "OutOfBounds",
    "PastPeriod",
    "SeedNotText",
    "TooFew",
    "WrongLength",
]


class NanorandError(Exception):
    """Base class of all errors of this package.

    >>> issubclass(EmptyRange, NanorandError)
    True
    """


class EmptyRange(NanorandError, ValueError):
    """There is no number, item or weight to draw from, or a sample is larger than its population.

    >>> str(EmptyRange())
    'there is no number or item to draw'
    """

    def __str__(self) -> str:
        return super().__str__() or "there is no number or item to draw"


class Exhausted(NanorandError, RuntimeError):
    """128 words (random integers) in a row were rejected. They stay consumed.

    This happens with probability below 2^-128.

    >>> str(Exhausted())
    '128 words in a row were rejected'
    """

    def __str__(self) -> str:
        return "128 words in a row were rejected"


class OutOfBounds(NanorandError, OverflowError, ValueError):
    """A number (a seed, a bound, a length or a count) is out of range, or a weight is not valid.

    >>> from nanorand import WyRand
    >>> WyRand(2**64)
    Traceback (most recent call last):
    nanorand.errors.OutOfBounds: seed is 18446744073709551616, not in 0..=18446744073709551615
    """


class PastPeriod(NanorandError, ValueError):
    """A part ends beyond the period of the generator, after which its draws repeat.

    >>> from nanorand import WyRand
    >>> WyRand.seed_from_u64(42).part(2**32, 2**32)
    Traceback (most recent call last):
    nanorand.errors.PastPeriod: part 4294967296, of 4294967296 draws, ends past the period
    """


class WrongLength(NanorandError, ValueError):
    """A key, a nonce, a state, buffered bytes or a list of weights has the wrong length.

    >>> from nanorand import Stream
    >>> Stream(b"short")
    Traceback (most recent call last):
    nanorand.errors.WrongLength: key has 5 bytes, not 32
    """


class ForeignState(NanorandError, ValueError):
    """A state that is to be set was not returned by a generator of the same class.

    >>> str(ForeignState("WyRand"))
    'the state is not one of WyRand'
    """

    def __init__(self, generator: str) -> None:
        super().__init__(generator)
        self.generator = generator

    def __str__(self) -> str:
        return f"the state is not one of {self.generator}"


class LibraryRefused(NanorandError, ImportError):
    """The extension module cannot be loaded, or the library in it is too old or of another major version.

    >>> issubclass(LibraryRefused, ImportError)
    True
    """


class EmptySeed(NanorandError, ValueError):
    """The seed of a draw by lot is empty.

    >>> str(EmptySeed())
    'the seed is empty'
    """

    def __str__(self) -> str:
        return "the seed is empty"


class SeedNotText(NanorandError, ValueError):
    """The seed of a draw by lot is not UTF-8.

    >>> str(SeedNotText())
    'the seed is not UTF-8'
    """

    def __str__(self) -> str:
        return "the seed is not UTF-8"


class EmptyLine(NanorandError, ValueError):
    """A line of a list is empty. `line` is the number of the first such line, counted from 1.

    >>> EmptyLine(3).line
    3
    """

    def __init__(self, line: int) -> None:
        super().__init__(line)
        self.line = line

    def __str__(self) -> str:
        return f"line {self.line} is empty"


class TooFew(NanorandError, ValueError):
    """A draw by lot asks for `count` entrants, but there are only `entrants`.

    >>> error = TooFew(10, 11)
    >>> error.entrants, error.count
    (10, 11)
    """

    def __init__(self, entrants: int, count: int) -> None:
        super().__init__(entrants, count)
        self.entrants = entrants
        self.count = count

    def __str__(self) -> str:
        return f"{self.entrants} entrants, {self.count} asked for"
