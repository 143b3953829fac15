"""The rows of the table: a generator, its state before the call, the call and its arguments."""

import hashlib
import struct

KEY = bytes(range(32))
NONCE = bytes(range(8))
LAST = 2**64 - 1

LENGTHS = [0, 1, 2, 7, 8, 9, 15, 16, 17, 63, 64, 65, 127, 128, 129, 255, 256, 257, 320, 513]
ITEMS = [0, 1, 2, 3, 4, 5, 7, 8, 9, 16, 31, 32, 33, 63, 64, 65]
SAMPLES = [
    *[(0, 0), (1, 0), (5, 0), (LAST, 0), (1, 1), (2, 1), (2, 2), (5, 5), (10, 3), (10, 9), (64, 8), (1000, 20)],
    *[(2**63 + 4, 4), (2**63, 3), (LAST, 3), (LAST, 1), (0, 1), (3, 4), (0, 65)],
]
DRAWS = [0, 1, 2, 3, 1000, 2**32, 2**63 - 1, 2**63, 2**63 + 1, LAST]
WIDE_DRAWS = [(low, 0) for low in DRAWS] + [(0, 1), (5, 7), (0, 2**61), (0, 2**62), (0, 2**63), (LAST, LAST)]
# Pairs of an index and a number of draws: small and large ones, and pairs whose part ends within one draw of the end of
# a period of 2^64, 2^67 or 2^126 draws.
PARTS = [
    *[(0, 0), (1, 0), (LAST, 0), (0, 1), (1, 1), (2, 1), (3, 2), (1, 7), (2, 7), (1, 8), (2, 8), (1, 9), (3, 9)],
    *[(7, 8), (1000, 64), (5, 65), (1, 2**32), (2**32, 5), (3, 2**61 - 1), (0, 2**63), (0, LAST), (1, LAST)],
    *[(LAST, LAST), (2**32 - 2, 2**32 + 1), (2**32 - 1, 2**32), (1, 2**63), (LAST, 1), (LAST, 2)],
    *[(274176, 67280421310721), (193707720, 761838257287), (15, 2**63), (LAST, 8), (21982970, 6713103182899)],
    *[(16, 2**63), (LAST, 9), (2**63 - 2, 2**63 + 1), (2**63 - 1, 2**63), (LAST, 2**62), (LAST, 2**62 + 1)],
    (118750098349 * 1429 * 14449 * 5 - 1, 40388473189 * 13 * 29 * 37 * 109 * 113),
]

# Each list has ranges of one number, whole types, powers of two, sizes that reject nearly every second word, sizes
# around those, and empty ranges.
RANGES = {
    "range_u32": [
        *[(0, 0), (7, 7), (2**32 - 1, 2**32 - 1), (0, 2**32 - 1), (1, 2**32 - 1), (0, 2**32 - 2), (0, 1)],
        *[(0, 255), (1, 6), (1, 100), (10, 12), (2**31, 2**32 - 1), (0, 2**31), (0, 2**31), (5, 2**31 + 5)],
        *[(3, 2**31 + 9), (1, 0), (10, 9), (2**32 - 1, 0)],
    ],
    "range_u64": [
        *[(0, 0), (7, 7), (LAST, LAST), (0, LAST), (1, LAST), (0, LAST - 1), (0, 1), (0, 255), (1, 6)],
        *[(1, 100), (10, 12), (2**63, LAST), (0, 2**32), (0, 2**63), (0, 2**63), (5, 2**63 + 5)],
        *[(3, 2**63 + 9), (0, 3 * 2**62), (1, 0), (10, 9), (LAST, 0)],
    ],
    "range_i64": [
        *[(0, 0), (-1, -1), (-(2**63), -(2**63)), (2**63 - 1, 2**63 - 1), (-(2**63), 2**63 - 1), (-1, 1)],
        *[(-5, 5), (-100, -1), (1, 6), (-(2**63), -1), (0, 2**63 - 1), (-(2**63), 0), (-1, 2**63 - 1)],
        *[(-(2**62), 2**62), (-(2**62) - 7, 2**62 + 7), (1 - 2**63, 2**63 - 1), (-1, -2), (5, -5)],
        *[(2**63 - 1, -(2**63)), (0, -1)],
    ],
    "range_usize": [
        *[(0, 0), (0, LAST), (LAST, LAST), (0, 9), (1, 100), (0, 2**63), (1, 2**63 + 1), (1, 0), (LAST, 0)],
    ],
}

NUMBERS = [0, 1, 2, 42, 1234567, 2**32 - 1, 2**32, 2**63, LAST - 1, LAST]

SEEDS = [b"seed", b"a seed", b" ", b"\n", b"\0", "Zürich, 1. März".encode(), b"4 1 6", b"416", b"x" * 55]
SEEDS += [b"x" * 56, b"x" * 63, b"x" * 64, b"x" * 65, b"0" * 100, "\U0010ffff".encode()]
REFUSED_SEEDS = [b"", b"\xff", b"seed\xc3", b"\xed\xa0\x80", b"\xc0\x80", b"\xf4\x90\x80\x80", b"\x80a"]
LISTS = [
    *[b"", b"a", b"a\n", b"a\nb", b"a\nb\n", b"a\r\nb\r\n", b"\r", b" \n", b"\0\xff\xfe\n\0\xc3\n", b"a\na\na\n"],
    *[b"\n", b"\n\n", b"\na\nb\n", b"a\n\nb\n", b"a\nb\n\n", b"a\n\n\nb", b"a\n" * 99 + b"\n", b"a\n" * 100],
]
TEXTS = [bytes(range(length)) for length in (0, 1, 3, 54, 55, 56, 57, 63, 64, 65, 119, 120, 127, 128, 129)]


def pseudorandom(length, number):
    """Bytes without a pattern, the same in each run."""
    digests = (hashlib.sha256(b"answers %d %d" % (number, part)).digest() for part in range(4))
    return b"".join(digests)[:length]


def chacha_states():
    states = [(bytes(32), bytes(8), counter) for counter in (0, 2**64 - 1)]
    states += [(b"\xff" * 32, b"\xff" * 8, LAST), (KEY, NONCE, 0), (KEY, NONCE, 2**32 - 1)]
    states += [(pseudorandom(32, counter), pseudorandom(8, counter), LAST - counter) for counter in (1, 2, 5)]
    states += [(pseudorandom(32, number), pseudorandom(8, number), 2**number) for number in (7, 63)]
    return [key + nonce + struct.pack("<Q", counter) for key, nonce, counter in states]


def stream_states():
    buffered = [0, 0, 63, 1, 8, 63, 7, 9, 62, 33]
    return [state + pseudorandom(rest, rest) for state, rest in zip(chacha_states(), buffered)]


def states():
    """The states of each generator. After the first two seeds in WyRand's second line, the next word is 0."""
    wyrand = [0, 1, 42, LAST]
    wyrand += [0x5F89E29B87429BD1, 0x468D616D27F6C4AC, 0x5F89E29B87429BD2]
    pcg64 = [0, 42, LAST, 2**64 + 5, 2**127, 2**128 - 1]
    return {
        "wyrand": [struct.pack("<Q", seed) for seed in wyrand] + [pseudorandom(8, n) for n in range(3)],
        "pcg64": [seed.to_bytes(16, "little") for seed in pcg64] + [pseudorandom(16, n) for n in range(4)],
        "chacha8": chacha_states(),
        "chacha12": chacha_states(),
        "chacha20": chacha_states(),
        "stream": stream_states(),
    }


def calls(generator):
    """The calls of one generator, each with its arguments, except the calls that every state has."""
    yield from (("fill_bytes", (length,)) for length in LENGTHS)
    for name, ranges in RANGES.items():
        yield from ((name, bounds) for bounds in ranges)
    for name in "shuffle", "shuffle_full":
        yield from ((name, (length,)) for length in ITEMS)
    yield from (("sample", sizes) for sizes in SAMPLES)
    yield from (("seed_from_u64", (number,)) for number in NUMBERS)
    yield from (("part", part) for part in PARTS)
    if generator == "wyrand":
        yield from (("jump", (draws,)) for draws in DRAWS)
    if generator == "pcg64":
        yield from (("jump", draws) for draws in WIDE_DRAWS)


def long_rejections():
    """Calls on seeds after which 27 or 28 words in a row are rejected. A search found these seeds."""
    wyrand = 14739031355157023725, 3071692489891611508
    pcg64 = (15492495453718437424, 11298879230812943787), (7233752262032801848, 7582194604879230685)
    requests = ("range_u64", f"0,{2**63}"), ("range_u32", f"0,{2**31}")
    for request, seed in zip(requests, wyrand):
        yield "wyrand", struct.pack("<Q", seed).hex(), *request
    for request, seed in zip(requests, pcg64):
        yield "pcg64", struct.pack("<QQ", *seed).hex(), *request


def rows_of(generator, its_states):
    """Each call with arguments on one of the states, in turn, and on every state the calls without arguments."""
    for state in its_states:
        yield generator, state.hex(), "u64", "-"
        if generator.startswith("chacha"):
            yield generator, state.hex(), "block", "-"
    for place, (call, arguments) in enumerate(calls(generator)):
        state = its_states[place * 3 % len(its_states)]
        yield generator, state.hex(), call, ",".join(map(str, arguments))
    for place, state in enumerate(its_states):  # no state keeps a fill that fits its blocks alone
        yield generator, state.hex(), "fill_bytes", str((66, 130, 200, 258, 321)[place % 5])
        yield generator, state.hex(), "part", ("1,4", "1,8", "3,3", "2,9", "1,70")[place % 5]


def lots_rows():
    for text in TEXTS:
        yield "lots", "-", "digest", text.hex() or "-"
    for text in LISTS:
        yield "lots", "-", "count", text.hex() or "-"
    for place, seed in enumerate(SEEDS):
        length = (1, 2, 3, 10, 12, 33, 64, 65)[place % 8]
        for count in sorted({0, 1, length // 2, length}):
            yield "lots", "-", "draw", f"{seed.hex()},{length},{count}"
    for length, count in (0, 0), (0, 1), (1, 2), (10, 11), (10, LAST), (200, 200):
        yield "lots", "-", "draw", f"{b'seed'.hex()},{length},{count}"
    for seed in REFUSED_SEEDS:
        yield "lots", "-", "draw", f"{seed.hex() or '-'},5,3"
    yield "lots", "-", "draw", "-,5,6"


def rows():
    for seed in 0, 42, LAST:
        yield "wyrand", "-", "new_seed", str(seed)
    for generator, its_states in states().items():
        yield from rows_of(generator, its_states)
    yield from long_rejections()
    yield from lots_rows()
