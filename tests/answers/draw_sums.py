#!/usr/bin/env python3
"""Prints the SHA-256 of what `draw` has to write in a case of tests/draw.sh, computed from definitions.py.

    tests/answers/draw_sums.py every_number     many counts of unsigned numbers, from every generator in both modes
    tests/answers/draw_sums.py many_requests    131,073 numbers of 8 bits
"""

import hashlib
import sys

from definitions import Buffered, ChaCha, Pcg64, WyRand

SEED, ZEROS = bytes.fromhex("d29b42879be2895f"), bytes(48)
GENERATORS = [
    lambda: WyRand(SEED),
    lambda: Pcg64(SEED + bytes.fromhex("0123456789abcdef")),
    *(lambda rounds=rounds: ChaCha(ZEROS, rounds) for rounds in (8, 12, 20)),
]
SIZES = [1, 2, 4, 8] * 1250
COUNTS = [*range(41), 63, 64, 65, 127, 128, 129, 255, 256, 257, 1000, 4096, 5000]


def lines_of(rng, sizes):
    """What `draw` writes for requests of unsigned numbers of these sizes, in bytes."""
    return [b"%d\n" % int.from_bytes(rng.request(size), "little") for size in sizes]


def every_number():
    for start in GENERATORS:
        for mode in (lambda rng: rng, Buffered):
            lines = lines_of(mode(start()), SIZES)
            for count in COUNTS:
                yield from lines[:count]


def many_requests():
    return lines_of(WyRand(SEED), [1] * 131073)


CASES = {"every_number": every_number, "many_requests": many_requests}


def main():
    if len(sys.argv) != 2 or sys.argv[1] not in CASES:
        sys.exit(__doc__)
    print(hashlib.sha256(b"".join(CASES[sys.argv[1]]())).hexdigest())


main()
