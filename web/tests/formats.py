"""Records of both formats: what format 2 shows of any text and any bytes, and committed records of format 1."""

import random
import re
from typing import Dict, List

import checks
from counts import Counts, lots
from glue import build
from page import Page
from records import (END, FORMAT1, FORMAT2, RANGES, bytes_of, of_format1, old_record, quoted, record_of,
                     without_module)

# The record of the example in docs/LOTS.md, as the format's description has it.
KNOWN = """nanorand public draw 2
announcement SHA-256: none
seed: "4 1 6 3 3 2 5 6 1 4 2 6 5 3 1 1 6 2 4 5"
list SHA-256: 32230fec7f4d73fc1dc4888e4bd9becc094a248cb2098b991ab26c2ef227e860
entrants: 12
drawn: 3
module SHA-256: {}
result SHA-256: d44df65b613f78f8bb637295ecfbaf57109d9ec26487514c036dc826f6757939
1: "Katherine"
2: "Jun"
3: "Chidi"
end of the record
"""
BY_PROGRAM = "The record names no drawing program (module), as records of the program lots do not."
NOT_COMPARED = "Warning: The record names an announcement, which was not compared."
READING = """
return ["announcement-label", "reading-announcement"].map((id) => document.getElementById(id).innerText);
"""
# The characters that the scripts of the page escape, of each `step` ones the one with a number, in ranges; and what
# they write for bytes, and read from texts.
SHOW_ALL = """
const [lists, texts, number, step] = arguments;
const escaped = [];
for (let code = number; code < 0x110000; code += step) {
  const isHalf = 0xd800 <= code && code < 0xe000;
  const isEscaped = !isHalf && quotedText(String.fromCodePoint(code)) !== `"${String.fromCodePoint(code)}"`;
  if (isEscaped && escaped[escaped.length - 1]?.[1] === code - step) escaped[escaped.length - 1][1] = code;
  else if (isEscaped) escaped.push([code, code]);
}
const read = texts.map((text) => unquoted(text) && Array.from(unquoted(text)));
return [escaped, lists.map((list) => quoted(Uint8Array.from(list))), read];
"""
# How many random bytes are written and read.
BYTES = 1000
# Bytes that are not UTF-8, or nearly so, and texts with marks, backslashes, spaces and joined emoji.
ODD = [b"", b" ", b"  ", b'"', b'""', b'" "', b"\\", b"\\\\", b"\\x41", b"\\x5c", b" x ", b"a  b", b"1: x",
       b"and 1 more", END.encode(),
       b"\xff", b"\x80", b"\xc3", b"\xc3\xa9", b"\xc3\xa9\xff", b'\xff"\\ ', b"\xed\xa0\x80", b"\xc0\x80",
       b"\xf4\x90\x80\x80", b"\xf4\x8f\xbf\xbf", b"\xe2\x82", b"\xef\xbb\xbfx", b"\x7f\xff", b"\x1f\xff~", b"\0", b"\n",
       *(text.encode() for text in (
           "\U0001f469\u200d\U0001f4bb", "\u2764\ufe0f", "1\ufe0f\u20e3", "\U0001f3f4\U000e0067\U000e007f",
           "\u0645\u06cc\u200c\u062e", "e\u0301", "\u00e9", "\u5f20", "\u2019\u201c\u201d", "\ufffd", "\u200b\u202e"))]


def edges() -> List[str]:
    """The first and the last character of each range, the one before and the one after, as UTF-8 has no halves."""
    codes = {code for first, last in RANGES for code in (first - 1, first, last, last + 1)}
    return [chr(code) for code in sorted(codes) if 0 <= code < 0x110000 and not 0xD800 <= code < 0xE000]


def some_bytes(rng: random.Random) -> bytes:
    """A few letters or bytes of any kind."""
    pieces = [*ODD, *(letter.encode() for letter in edges()), *(bytes([byte]) for byte in range(256)), b"Ada", b" "]
    return b"".join(rng.choices(pieces, k=rng.randint(1, 6)))


def edited(rng: random.Random, text: str) -> str:
    """A quoted value with one letter added, removed or replaced."""
    place = rng.randrange(len(text) + 1)
    letter = rng.choice([*'"\\x05cCa \u00e9', "\\x41", "\\xc3", "\\x5C", "\u200b", ""])
    return text[:place] + letter + text[place + rng.randint(0, 1):]


def is_right(text: str) -> bool:
    """Whether a text is the one way to write the bytes that it stands for."""
    body = text[1:-1]
    return (len(text) > 1 and text[0] == text[-1] == '"' and re.search(r"\\(?!x[0-9a-f]{2})", body) is None
            and quoted(bytes_of(text)) == text)


def values(counts: Counts, page: Page) -> None:
    """The page writes any bytes as other code does, and reads nothing but what it writes. Each browser has its share of
    all characters, and bytes of its own."""
    rng = random.Random(2 + page.number)
    random_ones = (some_bytes(rng) for _ in range(BYTES // page.browsers))
    data = [*ODD, *(letter.encode() for letter in edges()), *random_ones]
    texts = ["", '"', "x", *(edited(rng, quoted(one)) for one in data for _ in range(3))]
    code = '"use strict";\n' + build.joined("quoted", set()) + SHOW_ALL
    escaped, written, read = page.browser.run(code, [list(one) for one in data], texts, page.number, page.browsers)
    found = {one for first, last in escaped for one in range(first, last + 1, page.browsers)}
    wanted = {one for first, last in [(ord("\\"), ord("\\")), *RANGES] for one in range(first, last + 1)
              if one % page.browsers == page.number and not 0xD800 <= one < 0xE000}
    counts.same("the escaped characters", sorted(found ^ wanted)[:20], [])
    for one, text in zip(data, written):
        counts.same(f"{one!r}", text, quoted(one))
    for text, found in zip(texts, read):
        counts.same(f"the value {text!r}", found, list(bytes_of(text)) if is_right(text) else None)


def known(counts: Counts, page: Page, module: str) -> None:
    """The record of the example; the same draw by the program; a record that names an announcement."""
    page.load()
    record = checks.first_record(page)
    counts.same("the example", record, KNOWN.format(module))
    for name, text, findings in (("the example", record, ()), ("by the program", without_module(record), [BY_PROGRAM])):
        checks.outcome(counts, page, name, text, "agrees", *findings)
        counts.same(f"{name}: its announcement", page.browser.run(READING), ["Announcement", "none"])
        announced = checks.with_value(FORMAT2, text, "announcement SHA-256", "a1" * 32)
        checks.outcome(counts, page, f"{name}, announced", announced, "agrees", *findings)
        counts.same(f"{name}, announced: a warning",
                    [one.startswith(NOT_COMPARED) for one in page.shown()["warned"]], [True])
        counts.same(f"{name}: its sum", page.browser.run(READING), ["SHA-256 of the announcement", "a1" * 32])
    other = without_module(checks.with_entrant(FORMAT2, record, 1, "Ada"))
    wrong = 'Line 1 of the result: the record says "Ada"'
    checks.outcome(counts, page, "another one by the program", checks.with_line(other, 8, '1: "Ada"'), "differs", wrong,
                   BY_PROGRAM)
    checks.outcome(counts, page, "format 1", old_record(record), "agrees")
    counts.same("format 1: its announcement", page.browser.run(READING), ["Announcement", "none"])


def entrants(counts: Counts, page: Page, program: str, module: str) -> None:
    """Draws of entrants and seeds of every kind: the page's record is that of other code, and agrees."""
    bare = [one for one in ODD if one and b"\n" not in one]
    each = [f"a{letter}b".encode() for letter in edges()] + [letter.encode() for letter in edges()]
    lists = {"odd bytes": bare, "edges": [one for one in each if b"\n" not in one]}
    for name, lines in lists.items():
        data = b"".join(line + b"\n" for line in lines)
        page.load()
        page.open_file(data)
        seeds = ["seed", *(one.decode() for one in bare if is_text(one))] if name == "odd bytes" else [
            "".join(letter for letter in edges() if letter not in "\0\n\r")]
        for seed in page.share(seeds) if name == "odd bytes" else seeds:
            seed = re.sub(r"[\0\n\r]", "x", seed)
            page.fill(seed, "all")
            record = page.draw()["record"]
            wanted = record_of(seed, data, lots(program, seed, "all", data).output, module)
            counts.same(f"{name}, the seed {seed!r}", record, wanted)
            checks.outcome(counts, page, f"{name}: a check of {seed!r}", record, "agrees")
            checks.outcome(counts, page, f"{name}: without its module", without_module(record), "agrees", BY_PROGRAM)


def is_text(data: bytes) -> bool:
    try:
        return data.decode() != ""
    except UnicodeDecodeError:
        return False


def numbers(counts: Counts, page: Page, program: str, module: str) -> None:
    """From no entrant to more than a record names."""
    data = b"".join(b"%d\n" % number for number in range(1002))
    page.load()
    page.open_file(data)
    for count in page.share(("0", "1", "999", "1000", "1001", "1002")):
        page.fill("a seed", count)
        record = page.draw()["record"]
        result = lots(program, "a seed", count, data).output
        counts.same(f"{count} drawn", record, record_of("a seed", data, result, module))
        checks.outcome(counts, page, f"a check of {count}", record, "agrees")
        # 999 and 1002 are as 1 and 1001.
        if count in ("999", "1002"):
            continue
        fewer = re.sub(r"(?m)^[0-9]+: .*\n", "", record, count=1) if count != "0" else ""
        for name, text in (("an entrant", record.replace(END, f'{int(count) + 1}: "x"\n{END}')),
                           ("a number", record.replace(END, f"and 1 more\n{END}")), ("no end", record.replace(END, "")),
                           ("the end twice", record + END), ("an end above", f"{END}\n{record}"),
                           ("fewer entrants", fewer)):
            checks.outcome(counts, page, f"{count} drawn, {name}", text, "no record", "Line ")
        checks.outcome(counts, page, f"{count} drawn, text below", f"{record}Mallory\n\"\n", "agrees")


def reasons(counts: Counts, page: Page) -> None:
    """Each fault of a value is told with its line."""
    page.load()
    record = checks.first_record(page)
    seed, first = "the value of “seed” cannot be read. ", "the value of “1” cannot be read. "
    advice = "Ask for the file, or copy it as plain text."
    marks = 'It has to be between two quotation marks (").'
    plain, written = "stands for a character that has to be written as it is.", "has to be written as"
    digits = "is not “\\x” and two digits (0-9, a-f). A backslash is \\x5c."
    for value, reason in (
            ('""', "A seed is UTF-8, and not empty."), ('"\\xff"', "A seed is UTF-8, and not empty."), ("4 1 6", marks),
            ('"', marks), ('"4', marks), ('"\\x34 1"', f"“\\x34” {plain}"), ('"\\xc3\\xa9"', f"“\\xc3” {plain}"),
            ('"\\x5C"', f"“\\x5C” {digits}"), ('"\\u0034"', f"“\\u00” {digits}"), ('"\\\\"', f"“\\\\” {digits}"),
            ('"a\\"', f"“\\” {digits}"),
            ('"4\u200b1"', f"The character U+200B zero width space {written} \\xe2\\x80\\x8b here. {advice}"),
            ('"4\ue0001"', f"The character U+E000 {written} \\xee\\x80\\x80 here. {advice}"),
            ('"\u00e9\\xff"', f"The character U+00E9 {written} \\xc3\\xa9 here. {advice}")):
        counts.same(f"the seed {value}", page.check(checks.with_value(FORMAT2, record, "seed", value))["findings"],
                    [f"Line 3: {seed}{reason}"])
    for value, reason in (('""', "An entrant is not empty, and has no line feed."),
                          ('"\\x0a"', "An entrant is not empty, and has no line feed."), ("Ada", marks),
                          ('"\\x20Ada"', f"“\\x20” {plain}")):
        counts.same(f"the entrant {value}", page.check(checks.with_line(record, 9, f"1: {value}"))["findings"],
                    [f"Line 9: {first}{reason}"])
    more = checks.with_value(FORMAT2, record, "drawn", 13)
    counts.same("more drawn than there are", page.check(more)["findings"],
                ["Line 6: 13 of 12 entrants cannot be drawn."])
    counts.same("no end", page.check(record.replace(END, "the end"))["findings"],
                ["Line 12: “end of the record” is missing."])


def old_ones(counts: Counts, page: Page, module: str) -> None:
    """Records that earlier versions of the page wrote still agree, and no other text in their place does."""
    for name, (data, record) in page.share(of_format1(module).items()):
        page.load()
        page.open_file(data)
        checks.outcome(counts, page, name, record, "agrees")
        checks.outcome(counts, page, f"{name}, Windows", record.replace("\n", "\r\n"), "agrees")
        other = checks.with_value(FORMAT1, record, "result SHA-256", "0" * 64)
        checks.outcome(counts, page, f"{name}, another result", other, "differs", "The SHA-256 of the result differs.")
        renamed = record.replace("draw 1", "draw 2", 1)
        checks.outcome(counts, page, f"{name}, as format 2", renamed, "no record", "Line 2: ")


def run(counts: Counts, page: Page, program: str, digests: Dict[int, str]) -> None:
    values(counts, page)
    known(counts, page, digests[64])
    entrants(counts, page, program, digests[64])
    numbers(counts, page, program, digests[64])
    reasons(counts, page)
    old_ones(counts, page, digests[64])
