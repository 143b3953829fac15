#!/usr/bin/env python3
"""Draws docs/runs.svg and docs/delivery.svg by the definitions' formulas, and the diagram of docs/ARCHITECTURE.md.

    tools/pictures.py            writes both files, and the diagram into its document
    tools/pictures.py --check    checks that they are what the script draws: N passed, M failed

Each picture has its own background, for light and for dark pages. A word is a random number of 8 bits here.
"""

import re
import sys
from html import escape
from itertools import groupby
from pathlib import Path

import layers

DOCS = Path(__file__).resolve().parent.parent / "docs"
MARGIN = 20

STYLE = """
text { font-family: sans-serif; font-size: 13px; fill: #1f2328; }
.bold { font-weight: bold; }
.quiet { font-size: 12px; fill: #57606a; }
.byte { font-family: monospace; font-size: 12px; text-anchor: middle; }
.tick { font-size: 11px; fill: #57606a; text-anchor: middle; }
.on { fill: #ffffff; text-anchor: middle; }
.dark-on { fill: #1f2328; text-anchor: middle; }
.page { fill: #ffffff; }
.dropped { fill: #d8dee4; stroke: #8c959f; }
.buffered { fill: none; stroke: #57606a; stroke-width: 1.3; stroke-dasharray: 3 2; }
.first { fill: #0072b2; }
.second { fill: #e69f00; }
.third { fill: #00835f; }
.outside { fill: #c2387f; }
.rejected { fill: #8c959f; }
@media (prefers-color-scheme: dark) {
text { fill: #e6edf3; }
.quiet, .tick { fill: #9da7b1; }
.on { fill: #ffffff; }
.dark-on { fill: #1f2328; }
.page { fill: #0d1117; }
.dropped { fill: #30363d; stroke: #6e7681; }
.buffered { stroke: #9da7b1; }
}
"""


def text(x, y, words, kind=""):
    mark = f' class="{kind}"' if kind else ""
    return f'<text x="{x}" y="{y}"{mark}>{escape(words)}</text>'


def rect(x, y, width, height, kind, round_by=0):
    corner = f' rx="{round_by}"' if round_by else ""
    return f'<rect x="{x}" y="{y}" width="{width}" height="{height}"{corner} class="{kind}"/>'


def picture(title, description, width, height, parts):
    body = "\n".join(parts)
    return (
        f'<svg xmlns="http://www.w3.org/2000/svg" width="{width}" height="{height}" '
        f'viewBox="0 0 {width} {height}">\n'
        f"<title>{escape(title)}</title>\n<desc>{escape(description)}</desc>\n"
        f"<style>{STYLE}</style>\n"
        f"{rect(0, 0, width, height, 'page', 8)}\n{body}\n</svg>\n"
    )


def div_ceil(number, divisor):
    return -(-number // divisor)


# ---- runs.svg: the words of a byte, and the number that each names ----

BITS = 8


def quota(size):
    """crates/nanorand_core/specs/values/Runs.antt: quota."""
    return 2**BITS // size


def rejected(size):
    """The same file: rejected."""
    return 2**BITS % size


def first_word(size, k):
    """The same file: first_word."""
    return div_ceil(k * 2**BITS + rejected(size), size)


def named(size, word):
    """The same file: named. The least k whose run contains the word, or None."""
    for k in range(size):
        if first_word(size, k) <= word < first_word(size, k) + quota(size):
            return k
    return None


def by_runs(low, high, word):
    k = named(high - low + 1, word)
    return None if k is None else low + k


def by_remainder(low, high, word):
    return low + word % (high - low + 1)


def by_old_unsigned(low, high, word):
    """nanorand 0.7.0, src/gen.rs: u8's random_range of low..=high. None if it draws again."""
    upper = min(high + 1, 255) - low  # saturating_add
    m = upper * word
    if m % 256 < upper and m % 256 < (256 - upper) % upper:
        return None
    return (m >> 8) + low


def by_old_signed(low, high, word):
    """The same file: i8's random_range of low..=high."""
    number = by_old_unsigned(low + 128, high + 128, word)
    if number is None:
        return None
    number = (number + 127) % 256  # wrapping_add of MAX
    return number - 256 if number >= 128 else number


RUNS = [
    ("The range 10..=12", [
        ("this library, u8 and i8: 85 words a number, and the word 0 is rejected", by_runs, 10, 12),
        ("10 + word % 3: the number 10 has one word more", by_remainder, 10, 12),
        ("the Rust crate nanorand 0.7.0, u8", by_old_unsigned, 10, 12),
        ("the Rust crate nanorand 0.7.0, i8: one too low", by_old_signed, 10, 12),
    ]),
    ("The three greatest numbers of the type", [
        ("this library, u8 253..=255 (i8 125..=127 likewise)", by_runs, 253, 255),
        ("the Rust crate nanorand 0.7.0, u8 253..=255: never 255", by_old_unsigned, 253, 255),
        ("the Rust crate nanorand 0.7.0, i8 125..=127: never 126 or 127", by_old_signed, 125, 127),
    ]),
]


def kind_of(number, low, high):
    if number is None:
        return "rejected"
    return ("first", "second", "third")[number - low] if low <= number <= high else "outside"


def strip(y, rule, low, high):
    """All 256 words from left to right, and the count of words for each number."""
    cell, tall = 3, 26
    numbers = [rule(low, high, word) for word in range(2**BITS)]
    parts, word = [], 0
    for number, same in groupby(numbers):
        width = cell * len(list(same))
        kind = kind_of(number, low, high)
        parts.append(rect(MARGIN + cell * word, y, width, tall, kind))
        if width > 40:
            ink = "dark-on" if kind == "second" else "on"
            parts.append(text(MARGIN + cell * word + width // 2, y + 18, str(number), ink))
        word += width // cell
    shown = sorted(set(range(low, high + 1)) | {n for n in numbers if n is not None})
    counts = [(kind_of(n, low, high), f"{n}: {numbers.count(n)}") for n in shown]
    counts.append(("rejected", f"rejected: {numbers.count(None)}"))
    x = MARGIN + cell * 2**BITS + 16
    for place, (kind, count) in enumerate(counts):
        left, top = x + 84 * (place % 2), y - 14 + 19 * (place // 2)
        parts.append(rect(left, top, 10, 10, kind))
        parts.append(text(left + 15, top + 10, count, "quiet"))
    return parts


def runs():
    title = "Each of the 256 words of a byte, from 0 on the left to 255, by the number that it gives"
    parts = [text(MARGIN, 30, title, "bold")]
    y = 58
    for title, strips in RUNS:
        parts.append(text(MARGIN, y, title, "bold"))
        y += 22
        for name, rule, low, high in strips:
            parts.append(text(MARGIN, y, name))
            parts += strip(y + 8, rule, low, high)
            y += 62
        for word in (0, 64, 128, 192, 255):
            parts.append(text(MARGIN + 3 * word + 1, y - 13, str(word), "tick"))
        y += 22
    x = MARGIN
    for kind, name in [("first", "the first number of the range"), ("second", "the second"), ("third", "the third"),
                       ("outside", "a number outside the range"), ("rejected", "rejected: another word is drawn")]:
        parts.append(rect(x, y - 16, 12, 12, kind))
        parts.append(text(x + 18, y - 5, name, "quiet"))
        x += 44 + 7 * len(name)
    return picture(
        "The runs of a range",
        "For the range 10..=12 this library gives each number 85 consecutive words of a byte and rejects one; the "
        "remainder by 3 gives 10 one word more; the Rust crate nanorand 0.7.0 gives 9, 10 and 11 for i8.",
        1000,
        y + 14,
        parts,
    )


# ---- delivery.svg: the same blocks, plain and buffered ----

OUTPUT = 8
REQUESTS = [3, 6, 4]
SEED = 0x5F89E29B87429BD2


def next_seed(seed):
    """crates/nanorand/specs/generators/WyRand.antt: next_seed."""
    return (seed + 0xA0761D6478BD642F) % 2**64


def wyrand_block(seed):
    """The same file: wyrand_block, with folded of Halves.antt."""
    seed = next_seed(seed)
    wide = seed * (seed ^ 0xE7037ED1A0B428DB)
    return (wide // 2**64 ^ wide % 2**64).to_bytes(8, "little")


def plain_requests():
    """Blocks.antt: taken and plain_after. For each request: the blocks drawn, the bytes taken, the bytes left."""
    drawn = 0
    for n in REQUESTS:
        needed = div_ceil(n, OUTPUT)
        start, end = OUTPUT * drawn, OUTPUT * (drawn + needed)
        drawn += needed
        yield needed, range(start, start + n), range(start + n, end)


def buffered_requests():
    """Buffered.antt: blocks_needed, buffered_taken and buffered_after, for the positions of the bytes."""
    rest, drawn = [], 0
    for n in REQUESTS:
        needed = div_ceil(max(n - len(rest), 0), OUTPUT)
        row = rest + list(range(OUTPUT * drawn, OUTPUT * (drawn + needed)))
        drawn += needed
        rest = row[n:]
        yield needed, row[:n], rest


def count(number, name):
    return f"{number} {name}" + ("" if number == 1 else "s")


def delivery():
    left, cell, gap, tall = 160, 26, 14, 24
    kinds = ["first", "second", "third"]
    stream, seed = b"", SEED
    for _ in range(3):
        stream += wyrand_block(seed)
        seed = next_seed(seed)

    def column(place):
        return left + cell * place + gap * (place // OUTPUT)

    parts = []
    for block in range(3):
        parts.append(text(column(OUTPUT * block), 30, f"block {block + 1}", "quiet"))

    def rows(y, title, requests, rest_kind, rest_word):
        parts.append(text(MARGIN, y, title, "bold"))
        blocks = remaining = 0
        for (n, kind, (needed, taken, rest)) in zip(REQUESTS, kinds, requests):
            y += 40
            parts.append(text(MARGIN, y, f"request of {n} bytes"))
            top = y - 17
            for place in rest:
                parts.append(rect(column(place) + 1, top, cell - 2, tall, rest_kind))
                parts.append(text(column(place) + cell // 2, y, f"{stream[place]:02x}", "byte"))
            for place in taken:
                ink = "byte dark-on" if kind == "second" else "byte on"
                parts.append(rect(column(place) + 1, top, cell - 2, tall, kind))
                parts.append(text(column(place) + cell // 2, y, f"{stream[place]:02x}", ink))
            x = column(3 * OUTPUT - 1) + cell + 14
            parts.append(text(x, y - 5, f"{count(needed, 'block')} drawn", "quiet"))
            parts.append(text(x, y + 10, f"{count(len(rest), 'byte')} {rest_word}", "quiet"))
            blocks += needed
            remaining = remaining + len(rest) if rest_kind == "dropped" else len(rest)
        return y + 34, blocks, remaining

    y, blocks, lost = rows(56, "Plain: WyRand", plain_requests(), "dropped", "dropped")
    said = f"{count(blocks, 'block')} for {sum(REQUESTS)} bytes; {lost} bytes are never delivered."
    parts.append(text(MARGIN, y, f"{said} Each request begins a new block."))
    y, blocks, kept = rows(y + 36, "Buffered: BufferedRng over WyRand", buffered_requests(), "buffered", "buffered")
    said = f"{count(blocks, 'block')} for {sum(REQUESTS)} bytes; {kept} bytes wait for the next request."
    parts.append(text(MARGIN, y, f"{said} Nothing is lost."))
    y += 34
    x = MARGIN
    for kind, name in [("first", "delivered to the first request"), ("second", "to the second"),
                       ("third", "to the third"),
                       ("dropped", "dropped"), ("buffered", "buffered: first at the next request")]:
        parts.append(rect(x, y - 11, 13, 13, kind))
        parts.append(text(x + 20, y, name, "quiet"))
        x += 48 + 7 * len(name)
    return picture(
        "Plain and buffered delivery of the same blocks",
        "Requests of 3, 6 and 4 bytes of WyRand's blocks of 8 bytes. Plain, they draw three blocks and drop 11 bytes; "
        "buffered, they draw two blocks and keep 3 bytes.",
        970,
        y + MARGIN,
        parts,
    )


PICTURES = {"runs.svg": runs, "delivery.svg": delivery}


def architecture():
    """docs/ARCHITECTURE.md with the diagram that tools/layers.py draws."""
    before = (DOCS / "ARCHITECTURE.md").read_text(encoding="utf-8")
    return re.sub(r"(?<=```mermaid\n).*?(?=```\n)", lambda _: layers.diagram(), before, count=1, flags=re.DOTALL)


WRITTEN = {**PICTURES, "ARCHITECTURE.md": architecture}


def is_drawn(name, draw):
    """Whether a file of docs/ is what its function draws; says what is wrong."""
    path = DOCS / name
    try:
        if path.exists() and path.read_text(encoding="utf-8") == draw():
            return True
        print(f"docs/{name} is not what tools/pictures.py draws: run it")
    except layers.LayersError as error:
        print(error)
    return False


def check():
    failed = sum(not is_drawn(name, draw) for name, draw in WRITTEN.items())
    print(f"{len(WRITTEN) - failed} passed, {failed} failed")
    return 1 if failed else 0


def main():
    if sys.argv[1:] == ["--check"]:
        return check()
    if sys.argv[1:]:
        print(__doc__.strip())
        return 2
    for name, draw in WRITTEN.items():
        (DOCS / name).write_text(draw(), encoding="utf-8")
    return 0


if __name__ == "__main__":
    sys.exit(main())
