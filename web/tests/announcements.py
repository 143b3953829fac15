"""Writes and reads announcements by other code than the page's, and compares the two: texts, mutations, numbers of
seeds, forms of seeds."""

import base64
import math
import random
import re
import textwrap
from typing import Any, Dict, List, NamedTuple, Optional, Tuple

from counts import Counts, lots, sha256
from formats import ODD, edges, is_text
from glue import build
from page import Page
from records import bytes_of, quoted, record_of, without_module

LIST = b"Ada\nBarbara\nChidi\nDmitri\nElif\nFarid\nGrace\nHedy\nInes\nJun\nKatherine\nLise\n"
SEED = "4 1 6 3 3 2 5 6 1 4 2 6 5 3 1 1 6 2 4 5"
SAMPLE = "1 2 3 4 5 6 1 2 3 4 5 6 1 2 3 4 5 6 1 2"
TITLE, END = "nanorand announcement 1", "end of the announcement"
NAMES = ["occasion", "list SHA-256", "entrants", "winners", "reserves", "seed source", "seed form", "seed example",
         "time"]
TEXTS = [0, 5, 6, 7, 8]
# The announcement of the format's description.
KNOWN = """nanorand announcement 1
occasion: "Summer raffle of the school"
list SHA-256: 32230fec7f4d73fc1dc4888e4bd9becc094a248cb2098b991ab26c2ef227e860
entrants: 12
winners: 3
reserves: 1
seed source: "20 throws of a die, in the hall"
seed form: "the numbers thrown, in order, with one space between them"
seed example: "1 2 3 4 5 6 1 2 3 4 5 6 1 2 3 4 5 6 1 2"
time: "Friday 4 December 2026, 12:00, Madrid"
end of the announcement
"""
READ_ALL = """
const [files, texts] = arguments;
const tried = (read, value) => {
  try { return writeAnnouncement(read(value)); } catch (error) {
    if (!(error instanceof RecordError)) throw error;
    return [error.message];
  }
};
return [files.map((file) => tried(readAnnouncementFile, fromBase64(file))),
  texts.map((text) => tried(readPastedAnnouncement, text))];
"""
CHECK_ALL = """
const [code, list, pairs] = arguments;
return (async () => {
  const module = await Module.from(fromBase64(code), 64);
  const made = hex(module.digest(fromBase64(code)));
  const maker = { version: "1", module: made, otherModule: "", words: "", otherWords: "" };
  return pairs.map(([text, announced]) => {
    const { outcome, title, findings, reading } = check(module, maker, fromBase64(list), { text, announced:
      announced === null ? null : { text: announced } });
    return [outcome, title === WITH_ANNOUNCEMENT, findings.map((one) => one.text), reading && reading.winners];
  });
})();
"""
COUNT_ALL = """
return arguments[0].map(([all, count]) => {
  const sets = setsOf(all, count);
  return [sets && String(sets), bitsOfSets(all, count), throwsFor(sets), advisedThrows(sets)];
});
"""


class Announcement(NamedTuple):
    """The values of an announcement; the texts are quoted."""

    occasion: str
    digest: str
    entrants: int
    winners: int
    reserves: int
    source: str
    form: str
    example: str
    time: str

    def text(self) -> str:
        return "".join(f"{line}\n" for line in [TITLE, *(f"{name}: {value}" for name, value in zip(NAMES, self)), END])


EXAMPLE = Announcement(*(quoted(value.encode()) if number in TEXTS else value for number, value in enumerate((
    "Summer raffle of the school", sha256(LIST), 12, 3, 1, "20 throws of a die, in the hall",
    "the numbers thrown, in order, with one space between them", SAMPLE, "Friday 4 December 2026, 12:00, Madrid"))))


def is_quoted(value: str) -> bool:
    """Whether a value is the one way to quote some UTF-8 that is not empty."""
    body = value[1:-1]
    return (len(value) > 2 and value[0] == value[-1] == '"' and re.search(r"\\(?!x[0-9a-f]{2})", body) is None
            and quoted(bytes_of(value)) == value and is_text(bytes_of(value)))


def is_value(number: int, value: str) -> bool:
    """Whether this is a value of the line with this number."""
    form = r"[0-9a-f]{64}" if number == 1 else r"0|[1-9][0-9]{0,14}"
    return is_quoted(value) if number in TEXTS else re.fullmatch(form, value, re.A) is not None


def announcement_of(values: List[str]) -> Optional[Announcement]:
    """The announcement with these values, or None if its numbers do not fit."""
    found = Announcement(*(int(value) if number in (2, 3, 4) else value for number, value in enumerate(values)))
    return found if 1 <= found.winners and found.winners + found.reserves <= found.entrants else None


def read(data: bytes) -> Optional[Announcement]:
    """The announcement of these bytes, or None if they are not exactly those of one."""
    if not is_text(data):
        return None
    lines = data.decode().split("\n")
    if len(lines) != len(NAMES) + 3 or (lines[0], lines[-2], lines[-1]) != (TITLE, END, ""):
        return None
    values = [line[len(name) + 2:] for name, line in zip(NAMES, lines[1:])]
    are_lines = all(line == f"{name}: {value}" for name, value, line in zip(NAMES, values, lines[1:]))
    return announcement_of(values) if are_lines and all(is_value(*one) for one in enumerate(values)) else None


def read_pasted(text: str) -> Optional[Announcement]:
    """The announcement of a pasted text, whose lines a mail program may have marked and folded, or None."""
    first, *lines = without_marks(text).split("\n")
    values: List[str] = []
    for number, name in enumerate(NAMES):
        line = lines.pop(0) if lines else ""
        if line != f"{name}:" and not line.startswith(f"{name}: "):
            return None
        value = line[len(name) + 2:]
        while not is_value(number, value):
            line = lines.pop(0) if lines else ""
            if line in ("", END) or re.match("[0-9]+: ", line) or line.startswith(tuple(f"{one}: " for one in NAMES)):
                return None
            value += (" " if number in TEXTS and value else "") + line
        values.append(value)
    return announcement_of(values) if (first, lines) == (TITLE, [END, ""]) else None


def without_marks(text: str) -> str:
    """A pasted text without what a mail program adds."""
    lines = [re.sub(r"^(?:> ?)+", "", line.rstrip(" \t\r")) for line in text.split("\n")]
    while lines and lines[0] == "":
        lines.pop(0)
    while lines and lines[-1] == "":
        lines.pop()
    return "".join(f"{line}\n" for line in lines)


def mutated(rng: random.Random, text: str) -> str:
    """A text with a letter added, removed or replaced, or with lines swapped, repeated or removed."""
    kind = rng.randrange(8)
    if kind < 6:
        place = rng.randrange(len(text) + 1)
        letter = rng.choice([*' "\\x0159abAF:>\n\r\t', "\\x41", "\\x0a", "\u200b", "\u0430", "\ufeff", "\u00e9", ""])
        return text[:place] + letter + text[place + rng.randint(0, 1):]
    lines = text.split("\n")
    one, other = rng.randrange(len(lines)), rng.randrange(len(lines))
    if kind == 6:
        lines[one], lines[other] = lines[other], lines[one]
    else:
        line = lines[one]
        lines[one:one + 1] = rng.choice([[], [line, line], [line + " "], ["> " + line], [line, ""]])
    return "\n".join(lines)


def no_text() -> List[bytes]:
    """Bytes that are not UTF-8: single ones, and too long, cut off, too large ones, or halves of characters."""
    odd = [*ODD, b"Friday \xff", b"\xe2\x80", b"\xf0\x9f\x91", b"\xe0\x80\x80", b"\xed\xbf\xbf",
           b"\xed\xa0\xbd\xed\xb0\x80", *(bytes([byte]) for byte in range(0x80, 0x100))]
    return [one for one in odd if one and not is_text(one)]


def with_text(number: int, data: bytes) -> Announcement:
    """The example with other bytes in place of one of its texts."""
    return EXAMPLE._replace(**{EXAMPLE._fields[number]: quoted(data)})


def some(rng: random.Random) -> Announcement:
    """An announcement with odd texts."""
    pieces = [*filter(is_text, ODD), *(letter.encode() for letter in edges()), b"Ada", b" ", b'"']
    values = [quoted(b"".join(rng.choices(pieces, k=rng.randint(1, 5)))) for _ in TEXTS]
    entrants = rng.choice([1, 2, 12, 10**15 - 1])
    winners = rng.randint(1, entrants)
    return Announcement(values[0], sha256(values[1].encode()), entrants, winners, rng.randint(0, entrants - winners),
                        *values[1:])


def texts(counts: Counts, page: Page) -> None:
    """Files and pasted texts are read exactly if other code reads them. Each browser has changes of its own."""
    counts.same("the known text", EXAMPLE.text(), KNOWN)
    rng = random.Random(4 + page.number)
    good = [EXAMPLE, *(some(rng) for _ in range(300 // page.browsers))]
    files = [one.text().encode() for one in good]
    files += [mutated(rng, KNOWN if rng.random() < 0.5 else rng.choice(good).text()).encode()
              for _ in range(2000 // page.browsers)]
    files += [KNOWN.replace("\n", "\r\n").encode(), b"\xef\xbb\xbf" + KNOWN.encode(), KNOWN[:-1].encode(), b"",
              KNOWN.encode() + b"\n", KNOWN.encode() + b" ", b"\n" + KNOWN.encode(), KNOWN.encode() * 2,
              KNOWN.encode("utf-16"), KNOWN.encode().replace(b"school", b"sch\xffl")]
    files += [with_text(number, one).text().encode() for one in no_text() for number in TEXTS]
    pasted = [one.decode() for one in files if is_text(one)]
    pasted += [re.sub("(?m)^", "> ", KNOWN), re.sub("(?m)$", " \t", KNOWN), f"\n\n{KNOWN}\n \n", f"Mallory\n{KNOWN}",
               f"{KNOWN}Mallory\n"]
    # Folded after each name, at each space of a value, and as mail programs fold.
    places = [match.start() for match in re.finditer(" ", KNOWN)]
    pasted += [f"{KNOWN[:place]}\n{KNOWN[place + 1:]}" for place in places]
    pasted += ["\n".join(textwrap.fill(line, width) for line in KNOWN.split("\n")) for width in (30, 60, 72, 76)]
    counts.same("a folded text", read_pasted(re.sub("(?m)^", "> ", pasted[-1])), EXAMPLE)
    code = '"use strict";\n' + build.joined("announcement", set()) + READ_ALL
    found, forgiven = page.browser.run(code, [base64.b64encode(one).decode() for one in files], pasted)
    for data, text in zip(files, found):
        wanted = read(data)
        right = isinstance(text, list) if wanted is None else text == data.decode() == wanted.text()
        counts.case(f"the file {data[:400]!r}", "" if right else f"{text!r}")
    for pasted_text, text in zip(pasted, forgiven):
        wanted = read_pasted(pasted_text)
        right = isinstance(text, list) if wanted is None else text == wanted.text()
        counts.case(f"the pasted text {pasted_text[:400]!r}", "" if right else f"{text!r}")


def run_checks(page: Page, module: bytes, pairs: List[Tuple[str, Optional[str]]]) -> List[List[Any]]:
    seen = {"check", "module"}
    code = '"use strict";\n' + "".join(build.joined(name, seen) for name in ("module", "check")) + CHECK_ALL
    encoded = [base64.b64encode(one).decode() for one in (module, LIST)]
    return page.browser.run(code, *encoded, pairs)


def example_record(program: str, module: bytes, announcement: str = KNOWN, drawn: int = 4) -> str:
    result = lots(program, SEED, str(drawn), LIST).output
    return record_of(SEED, LIST, result, sha256(module), sha256(announcement.encode()))


def pairs_mutated(counts: Counts, page: Page, program: str, module: bytes) -> None:
    """2,000 records and announcements of which one or both were changed: they agree only if nothing was. Each browser
    has its own."""
    rng = random.Random(5 + page.number)
    record = example_record(program, module)
    pairs: List[Tuple[str, str]] = [(record, KNOWN)]
    for number in range(2000 // page.browsers):
        pairs.append((mutated(rng, record) if number % 3 != 0 else record,
                      mutated(rng, KNOWN) if number % 3 != 1 else KNOWN))
    agreed = 0
    for (text, announced), (outcome, with_it, findings, _) in zip(pairs, run_checks(page, module, list(pairs))):
        is_announced = read_pasted(announced) == EXAMPLE
        agrees = outcome == "agrees"
        right = (not agrees or with_it and is_announced and same_record(text, record)) and (
            agrees or not is_announced or without_marks(text) != record)
        agreed += agrees
        counts.case("a pair of a record and an announcement",
                    "" if right else f"{outcome}, {with_it}: {findings}, {text!r}, {announced!r}")
    counts.case("some pairs agree", "" if 1 < agreed < 1000 // page.browsers else str(agreed))


def same_record(text: str, record: str) -> bool:
    """Whether a text has the lines of a record, which a mail program may have marked and folded, with or without other
    lines around them that are blank, and with or without the line of the module."""
    lines = [line for line in without_marks(text).split("\n") if line != ""]
    for wanted in record, without_module(record):
        left = list(lines)
        for line in wanted.rstrip("\n").split("\n"):
            joined = left.pop(0) if left else None
            while joined is not None and joined != line and left and line.startswith(joined):
                joint = "" if line.endswith(joined + left[0]) and re.search("[0-9a-f]{9}$", line) else " "
                joined += joint + left.pop(0)
            if joined != line:
                break
        else:
            return not left or all(re.match(r"[0-9]+: |and [0-9]", one) is None for one in left)
    return False


def forged(counts: Counts, page: Page, program: str, module: bytes) -> None:
    """A record that names an announcement of another list, or of another number: its SHA-256 alone is not enough."""
    named = "The record names this announcement, but was drawn from another list than the announced one."
    changes: Dict[str, Tuple[Dict[str, Any], List[str]]] = {
        "as it is": ({}, []), "4 winners": ({"winners": 4, "reserves": 0}, []),
        "another list": ({"digest": "0" * 64},
                         [named, "The announcement is of another list: it names the SHA-256 000"]),
        "13 entrants": ({"entrants": 13}, ["Entrants: the announcement says 13, the record 12."]),
        "2 winners": ({"winners": 2}, ["Drawn: the announcement says 3 (2 winners and 1 reserve), the record 4."]),
        "no reserve": ({"reserves": 0}, ["Drawn: the announcement says 3 (3 winners), the record 4."]),
        "all": ({"winners": 1, "reserves": 9, "digest": "1" * 64, "entrants": 11},
                [named, "The announcement is of another list", "Entrants: ",
                 "Drawn: the announcement says 10 (1 winner and 9"]),
    }
    for name, (values, wanted) in changes.items():
        announced = EXAMPLE._replace(**values)
        record = example_record(program, module, announced.text())
        [[outcome, with_it, findings, winners]] = run_checks(page, module, [(record, announced.text())])
        right = (outcome, with_it) == (("differs", False) if wanted else ("agrees", True))
        right = right and (winners is None if wanted else winners == announced.winners)
        right = right and (not wanted or len(findings) == len(wanted)) and all(
            one.startswith(begin) for one, begin in zip(findings, wanted))
        counts.case(f"forged: {name}", "" if right else f"{outcome}, {with_it}, {winners}: {findings}")
    record, none = example_record(program, module), "announcement SHA-256: none"
    for name, text, announced_text, wanted_outcome, begin in (
            ("another announcement", record, EXAMPLE._replace(time='"x"').text(), "differs", "Another announcement: "),
            ("none named", re.sub("(?m)^announcement.*$", none, record), KNOWN, "differs",
             "The record names no announcement"),
            ("not given", record, None, "agrees", "The record names an announcement, which was not compared."),
            ("no announcement", record, "nanorand", "no announcement", "Line 1: “nanorand announcement 1” is missing."),
            ("another result too", record.replace("Jun", "Ada"), EXAMPLE._replace(time='"x"').text(), "differs",
             'Line 2 of the result: the record says "Ada"')):
        [[outcome, with_it, findings, winners]] = run_checks(page, module, [(text, announced_text)])
        right = (outcome, with_it, winners) == (wanted_outcome, False, None) and findings[0].startswith(begin)
        counts.case(f"announcements: {name}", "" if right else f"{outcome}, {with_it}, {winners}: {findings}")


def not_utf8(counts: Counts, page: Page, program: str, module: bytes) -> None:
    """A text that is not UTF-8 makes no announcement, even if a record names it: the line is told."""
    cases = [(number, with_text(number, one).text()) for one in no_text() for number in TEXTS]
    pairs = [(example_record(program, module, text), text) for _, text in cases]
    for (number, text), (outcome, _, findings, _) in zip(cases, run_checks(page, module, list(pairs))):
        counts.same(f"not UTF-8: {text!r}", [outcome, findings], ["no announcement", [
            f"Line {number + 2}: the value of “{NAMES[number]}” cannot be read. Its bytes are not UTF-8."]])


def needed(sets: int) -> int:
    """The least number of throws with at least as many outcomes."""
    throws = 0
    while 6**throws < min(sets, 2**256):
        throws += 1
    return throws


def bits(counts: Counts, page: Page) -> None:
    """The numbers of sets, of bits and of throws are those that Python computes."""
    rng = random.Random(6)
    draws = [(n, k) for n in range(1, 61) for k in range(1, n + 1)]
    draws += [(340, k) for k in range(1, 341)] + [(6**k, 1) for k in range(1, 10)]
    draws += [(256, 128), (260, 130), (261, 131)]
    draws += [(n, rng.randint(1, n)) for n in (rng.randint(1, 5000) for _ in range(300))]
    draws += [(10**6, k) for k in (1, 2, 12, 13, 14, 15, 100, 999_990, 10**6)] + [(2**53, 5), (10**15 - 1, 3)]
    found = page.browser.run('"use strict";\n' + build.joined("enough", set()) + COUNT_ALL, draws)
    for (n, k), (sets, power, throws, advised) in zip(draws, found):
        wanted = math.comb(n, k)
        enough = needed(wanted)
        counts.same(f"{k} of {n}", [sets, throws, advised],
                    [str(wanted) if wanted <= 2**256 else None, enough,
                     max(20, enough + 2 if wanted <= 2**256 else enough)])
        counts.case(f"the bits of {k} of {n}", "" if math.isclose(power, log2(wanted), rel_tol=1e-9, abs_tol=1e-9)
                    else f"{power} and not {log2(wanted)}")
    counts.same("12 of 340", [f"{log2(math.comb(340, 12)):.1f}", needed(math.comb(340, 12))], ["71.8", 28])


def log2(number: int) -> float:
    """Exact enough for numbers that no float can hold."""
    shift = max(0, number.bit_length() - 60)
    return math.log2(number >> shift) + shift


def forms(counts: Counts, page: Page) -> None:
    """The form of a seed is compared with the example."""
    hexadecimal = "5a0de1b6c9f2437788e14c0d93ab62f7"
    none, end = "The seed has {}, the example has none.", "The seed has a space at an end or two spaces in a row, " \
        "the example has not."
    die = "The seed has the {}, which no die has; the example has only 1 to 6."
    lacks, words = "The seed has no {}, the example has.", "The seed has {} between spaces, the example has {}."
    cases = {
        (SEED, SEED): [], ("1 2", "3 4"): [], ("1 2", "3 4 5"): [words.format("2 parts", "3 parts")],
        ("12", "3 4"): [lacks.format("spaces"), words.format("1 part", "2 parts")],
        ("1 a", "3 4"): [none.format("small letters (a-z)")], ("1 A", "3 4"): [none.format("capital letters (A-Z)")],
        ("1,2", "1.2"): [none.format("“,”"), lacks.format("“.”")], ("1  2", "1 2"): [end],
        (" 1", "1"): [none.format("spaces"), end],
        ("1\u00a02", "1 2"): [none.format("U+00A0 no-break space"), lacks.format("spaces"),
                              words.format("1 part", "2 parts")],
        ("\u0661", "1"): [none.format("“\u0661”"), lacks.format("digits")],
        ("\u0430", "a"): [none.format("letters beyond a-z"), lacks.format("small letters (a-z)")],
        (hexadecimal, hexadecimal[::-1]): [],
        (hexadecimal[1:], hexadecimal): ["A part of the seed has another length than in the example."],
        ("7 0 9", "4 1 6"): [die.format("digits 7, 0, 9")], ("416338", "416335"): [die.format("digit 8")],
        ("8 8 1", "6 6 6"): [die.format("digit 8")], ("0", "1"): [die.format("digit 0")], ("6 5 4", "1 2 3"): [],
        ("7 0 9", "4 1 7"): [], ("7 18 39", "5 13 24"): [], ("9.1", "4.1"): [],
        ("9 1", "4 1 6"): [words.format("2 parts", "3 parts"), die.format("digit 9")],
    }
    script = "return arguments[0].map(([seed, example]) => formDifferences(seed, example));"
    found = page.browser.run('"use strict";\n' + build.joined("form", set()) + script, list(cases))
    for (pair, wanted), differences in zip(cases.items(), found):
        counts.same(f"the form of {pair}", differences, wanted)


def run(counts: Counts, page: Page, program: str, module: bytes) -> None:
    texts(counts, page)
    forged(counts, page, program, module)
    not_utf8(counts, page, program, module)
    pairs_mutated(counts, page, program, module)
    bits(counts, page)
    forms(counts, page)
