"""The generators, their calls and the drawing of lots, written from the definitions in docs/REFERENCE.md and
docs/LOTS.md.

The module shares no code with the library, needs only Python's standard library, and is not written for speed. A word
is a random number of 32 or 64 bits. A request is one read of n bytes from a generator.
"""

import hashlib
import struct

WORD_LIMIT = 128  # a range fails after this many rejected words
DRAWN, EMPTY, EXHAUSTED, PAST_PERIOD = 0, 1, 2, 3
SEED_REFUSED, TOO_FEW, EMPTY_LINE, LOTS_EXHAUSTED = 2, 3, 4, 8


class Refused(Exception):
    """128 words in a row were rejected."""


def seed_from(number, length):
    """The first `length` bytes of SplitMix64 seeded with a number (Steele, Lea and Flood; with Vigna's constants)."""
    words = []
    while 8 * len(words) < length:
        number = (number + 0x9E3779B97F4A7C15) % 2**64
        mixed = (number ^ number >> 30) * 0xBF58476D1CE4E5B9 % 2**64
        mixed = (mixed ^ mixed >> 27) * 0x94D049BB133111EB % 2**64
        words.append(struct.pack("<Q", mixed ^ mixed >> 31))
    return b"".join(words)[:length]


class Plain:
    """A generator whose requests each begin a new block, and drop the rest of their last block."""

    BLOCK = 8

    def draw(self):
        raise NotImplementedError

    def request(self, length):
        blocks = [self.draw() for _ in range(-(-length // self.BLOCK))]
        return b"".join(blocks)[:length]


class WyRand(Plain):
    """Wang Yi's wyrand. Its state is the seed's 8 bytes, little-endian."""

    PERIOD = 2**64

    def __init__(self, state):
        (self.seed,) = struct.unpack("<Q", state)

    def draw(self):
        self.jump(1)
        product = self.seed * (self.seed ^ 0xE7037ED1A0B428DB)
        return struct.pack("<Q", product >> 64 ^ product % 2**64)

    def jump(self, draws):
        self.seed = (self.seed + 0xA0761D6478BD642F * draws) % 2**64

    def state(self):
        return struct.pack("<Q", self.seed)


class Pcg64(Plain):
    """The library's Pcg64. Its state is the seed's 16 bytes, little-endian."""

    PERIOD = 2**126
    M = 47026247687942121848144207491837523525
    FACTOR = 3 * M * M + 2 * M + 2
    SUMMAND = M * M + M + 1

    def __init__(self, state):
        self.seed = int.from_bytes(state, "little")

    def draw(self):
        self.seed = (self.FACTOR * self.seed + self.SUMMAND) % 2**128
        return struct.pack("<Q", self.seed >> 64 ^ self.seed % 2**64)

    def jump(self, draws):
        """Applies the map x -> a x + c `draws` times, by repeated squaring."""
        factor, summand = self.FACTOR, self.SUMMAND
        while draws:
            if draws % 2:
                self.seed = (factor * self.seed + summand) % 2**128
            factor, summand = factor * factor % 2**128, (factor + 1) * summand % 2**128
            draws //= 2

    def state(self):
        return self.seed.to_bytes(16, "little")


class ChaCha(Plain):
    """Daniel J. Bernstein's ChaCha. Its state is the key, the nonce and the counter: 32, 8 and 8 bytes."""

    BLOCK = 64
    PERIOD = 2**64
    COLUMNS = [(0, 4, 8, 12), (1, 5, 9, 13), (2, 6, 10, 14), (3, 7, 11, 15)]
    DIAGONALS = [(0, 5, 10, 15), (1, 6, 11, 12), (2, 7, 8, 13), (3, 4, 9, 14)]

    def __init__(self, state, rounds):
        self.key, self.nonce = state[:32], state[32:40]
        (self.counter,) = struct.unpack("<Q", state[40:])
        self.rounds = rounds

    def draw(self):
        text = b"expand 32-byte k" + self.key + struct.pack("<Q", self.counter) + self.nonce
        before = struct.unpack("<16I", text)
        words = list(before)
        for _ in range(self.rounds // 2):
            for places in self.COLUMNS + self.DIAGONALS:
                quarter_round(words, *places)
        self.counter = (self.counter + 1) % 2**64
        return struct.pack("<16I", *((a + b) % 2**32 for a, b in zip(before, words)))

    def jump(self, draws):
        """One draw is one block."""
        self.counter = (self.counter + draws) % 2**64

    def state(self):
        return self.key + self.nonce + struct.pack("<Q", self.counter)


def seeded_state(generator, number):
    """The state for a seed that is a number. ChaCha's counter is 0, and a stream has no buffered bytes."""
    if generator in ("wyrand", "pcg64"):
        return seed_from(number, 8 if generator == "wyrand" else 16)
    return seed_from(number, 40) + bytes(8)


def quarter_round(words, a, b, c, d):
    for place, summand, mixed, bits in (a, b, d, 16), (c, d, b, 12), (a, b, d, 8), (c, d, b, 7):
        words[place] = (words[place] + words[summand]) % 2**32
        word = words[mixed] ^ words[place]
        words[mixed] = (word << bits | word >> 32 - bits) % 2**32


class Buffered:
    """A generator without gaps: what a request leaves of its last block is delivered first by the next one."""

    def __init__(self, inner, rest=b""):
        self.inner, self.rest = inner, rest

    def request(self, length):
        while len(self.rest) < length:
            self.rest += self.inner.draw()
        taken, self.rest = self.rest[:length], self.rest[length:]
        return taken


class Stream(Buffered):
    """ChaCha20's keystream without gaps. Its state is ChaCha's, followed by the 0 to 63 buffered bytes."""

    PERIOD = 2**67

    def __init__(self, state):
        super().__init__(ChaCha(state[:48], 20), state[48:])

    def jump(self, draws):
        """One draw is eight bytes. No block is computed unless some of its bytes stay buffered."""
        length = 8 * draws
        if length > len(self.rest):
            blocks, length = divmod(length - len(self.rest), 64)
            self.inner.jump(blocks)
            self.rest = b""
        self.request(length)

    def state(self):
        return self.inner.state() + self.rest


GENERATORS = {
    "wyrand": WyRand,
    "pcg64": Pcg64,
    "chacha8": lambda state: ChaCha(state, 8),
    "chacha12": lambda state: ChaCha(state, 12),
    "chacha20": lambda state: ChaCha(state, 20),
    "stream": Stream,
}


def number_below(rng, size, bits):
    """A number below `size` from words of `bits` bits, by Daniel Lemire's method. It is written by its result: with
    t = 2^bits mod size, the number k has floor(2^bits / size) words, from ceil((k * 2^bits + t) / size) on. All other
    words are rejected."""
    words, rejected = divmod(2**bits, size)
    for _ in range(WORD_LIMIT):
        word = int.from_bytes(rng.request(bits // 8), "little")
        number = word * size >> bits
        first = -(-(number * 2**bits + rejected) // size)
        if first <= word < first + words:
            return number
    raise Refused


def number_in(rng, first, last, bits):
    return first + number_below(rng, last - first + 1, bits)


def shuffle(rng, items, steps=None):
    """The Fisher-Yates shuffle in Durstenfeld's form: the item at i is swapped with one at i..n (n excluded)."""
    for i in range(len(items) if steps is None else steps):
        partner = number_in(rng, i, len(items) - 1, 64)
        items[i], items[partner] = items[partner], items[i]


def shuffle_full(rng, items):
    """Swaps the item at each index with one at 0..n (n excluded). It is biased for three items or more."""
    for i in range(len(items)):
        partner = number_in(rng, 0, len(items) - 1, 64)
        items[i], items[partner] = items[partner], items[i]


def sample(rng, count, length):
    """Distinct numbers below `count`, by Floyd's algorithm."""
    numbers = []
    for last in range(count - length, count):
        number = number_in(rng, 0, last, 64)
        numbers.append(last if number in numbers else number)
    return numbers


def part(rng, index, draws):
    """Moves the state to the beginning of the part if the part ends within the period. Returns a status."""
    if (index + 1) * draws > rng.PERIOD:
        return PAST_PERIOD
    rng.jump(index * draws)
    return DRAWN


def lots_digest(text):
    return hashlib.sha256(text).digest()


def lots_count(text):
    """A status, and the number of lines, or the number of the first empty line, from 1."""
    lines = text.split(b"\n")
    if lines[-1] == b"":
        lines.pop()  # the last line feed begins no line
    if b"" in lines:
        return EMPTY_LINE, lines.index(b"") + 1
    return DRAWN, len(lines)


def lots_draw(seed, length, count):
    """A status, and a permutation of the numbers below `length`. Its first `count` numbers are drawn, in this order."""
    if not seed or not is_text(seed):
        return SEED_REFUSED, None
    if count > length:
        return TOO_FEW, None
    places = list(range(length))
    try:
        shuffle(Stream(lots_digest(seed) + bytes(16)), places, count)
    except Refused:
        return LOTS_EXHAUSTED, None
    return DRAWN, places


def is_text(text):
    try:
        text.decode("utf-8")
    except UnicodeDecodeError:
        return False
    return True
