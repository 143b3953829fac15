#!/usr/bin/env python3
"""Compares the records and announcements that builds of the program `lots` write and accept with those of
tests/records.py.

    tests/compare_records.py PROGRAM..

For example, tests/compare_records.py target/release/lots. It compares:

- 100 announcements of pseudorandom plans, the same in each run, with odd texts and entrants: `lots --announce` writes
  the bytes that `announcement` returns.
- 100 records of pseudorandom draws with odd seeds, entrants and announcements: `lots --record` writes the bytes that
  `record` returns, and `lots --check` accepts them, also with a line of a module. Both refuse an announcement that is
  not that of the draw.
- 2,000 changes of records, lists and announcements: `lots --check` has status 0 if and only if `is_record` accepts the
  text.
- 2,000 changes of announcements, and of their lists and numbers, with records that name what was changed: the same, and
  `lots --record` has status 0 if and only if `is_announcement` accepts the text.

The last line is N passed, M failed.
"""

import os
import random
import re
import sys
import tempfile
from pathlib import Path

from records import announcement as made_announcement
from records import entrants_of, hidden, is_announcement, is_record, record
from second_opinion import a_count, a_seed, result, some_entrants

ANNOUNCEMENTS, RECORDS, CHANGES = 100, 100, 2000
AGREES = b"the record agrees with the list; no announcement was compared\n"
NAMES = b"the record agrees with the list, and names the announcement\n"
FAILURES = {
    3: rb"lots: \d+ entrants, \d+ asked for\n",
    4: rb"lots: line \d+ is empty\n",
    9: rb"lots: this is no record of format 2\n",
    10: rb"lots: the record names another announcement, or none\n",
    11: rb"lots: the record is (not that of a draw from this list|that of a draw from another list)\n",
    12: rb"lots: the announcement does not fit this list and the number of entrants drawn\n",
}
NOT_ANNOUNCED = (12, b"", FAILURES[12].replace(rb"\n", b"\n"))

# Characters at the edges of the ranges that do not show, and others that may be taken for something else.
EDGES = sorted(code for code in hidden | {one + 1 for one in hidden} | {one - 1 for one in hidden}
               if 0 < code < 0x110000 and not 0xD800 <= code < 0xE000
               and len({code - 1 in hidden, code in hidden, code + 1 in hidden}) == 2)
ODD = [*map(chr, EDGES), *'"\\" \'`\u00b4\u201c\u201d\u2032\u2033xn0', "\\x", "\\x41", "\\\\", "\\n", '" ', "e\u0301"]
LOOKALIKES = {
    "a": "\u0430", "c": "\u0441", "e": "\u0435", "o": "\u043e", "p": "\u0440", "x": "\u0445", "i": "\u0456",
    "A": "\u0391", "H": "\u041d", "S": "\u0405", "0": "O", "1": "l", "2": "\uff12", "-": "\u2010", ":": "\uff1a",
    " ": "\u00a0", '"': "\u201d", "\\": "\u2216", "\n": "\u2028",
}


def odd_text(rng, most):
    """A text of ordinary and odd characters, without line feeds and NUL."""
    odd = rng.choice([0.1, 0.5, 1])
    size = rng.randint(1, most)
    return "".join(rng.choice(ODD if rng.random() < odd else "abc XYZ.") for _ in range(size)).replace("\n", "") or "x"


def odd_entrants(rng, size):
    return [odd_text(rng, rng.choice([1, 3, 20])).encode() for _ in range(size)]


def a_draw(rng, size):
    """A seed, a list, the argument of a count and its number, and an announcement or None."""
    seed = odd_text(rng, 30) if rng.random() < 0.6 else a_seed(rng)
    entrants = odd_entrants(rng, size) if rng.random() < 0.6 else some_entrants(rng, size)
    text = b"".join(entrant + b"\n" for entrant in entrants)
    if size and rng.random() < 0.3:
        text = text[:-1]
    argument, count = a_count(rng, size)
    return seed, text, argument, count, an_announcement(rng, text, count)


def a_plan(rng, count):
    """The occasion, how many winners and reserves, and the other texts of an announcement of `count` entrants."""
    winners = rng.randint(1, count)
    occasion, source, form, example, time = (odd_text(rng, rng.choice([1, 5, 40])) for _ in range(5))
    if rng.random() < 0.1:
        time += "\nend of the announcement\n"
    return occasion, winners, count - winners, source, form, example, time


def an_announcement(rng, text, count):
    """An announcement of a draw of `count` entrants from the list, another text, or None."""
    if count and rng.random() < 0.6:
        return made_announcement(*a_plan(rng, count), text)
    return rng.choice([None, None, None, b"", b"none", rng.randbytes(rng.randint(1, 200)), odd_text(rng, 50).encode()])


def problem(program, case, found, wanted):
    """What is wrong with the result of a program, or None."""
    if found == wanted:
        return None
    return f"({Path(program).name}) {case}: {found} and not {wanted}"[:1000]


def announced(programs):
    """For each announcement and program, what is wrong, or None: what is written."""
    rng = random.Random(39)
    for number in range(ANNOUNCEMENTS):
        _, text, _, _, _ = a_draw(rng, rng.choice([1, 2, rng.randint(1, 60)]))
        plan = a_plan(rng, rng.randint(1, len(entrants_of(text))))
        wanted = made_announcement(*plan, text)
        case = f"announcement {number}: {plan}"
        yield None if is_announcement(wanted, text, plan[1] + plan[2]) else f"{case}: none for is_announcement"
        zeros = "0" * rng.choice([0, 0, 0, 1, 30])
        values = [value.encode() if isinstance(value, str) else zeros + str(value) for value in plan]
        for program in programs:
            yield problem(program, case, result([program, "--announce", *values], text), (0, wanted, b""))


def written_and_accepted(programs, folder):
    """For each record and program, what is wrong, or None: what is written, and whether it is accepted."""
    rng = random.Random(37)
    for number in range(RECORDS):
        size = rng.choice([999, 1000, 1001, 1500]) if number % 50 == 0 else rng.choice([0, 1, 2, rng.randint(0, 60)])
        seed, text, argument, count, announcement = a_draw(rng, size)
        if size > 900 and rng.random() < 0.7:
            argument, count = "all", size
        case = f"record {number}: {argument} of {size} by {seed!r}"
        wanted = record(seed, text, count, announcement)
        is_refused = announcement is not None and not is_announcement(announcement, text, count)
        yield None if is_record(wanted, text, announcement) != is_refused else f"{case}: {is_refused} for is_record"
        with_module = record(seed, text, count, announcement, b"a module")
        Path(folder, "record").write_bytes(wanted)
        Path(folder, "with module").write_bytes(with_module)
        Path(folder, "announcement").write_bytes(announcement or b"")
        path = [] if announcement is None else [Path(folder, "announcement")]
        line = AGREES if announcement is None else NAMES
        for program in programs:
            found = result([program, "--record", seed.encode(), argument, *path], text)
            yield problem(program, case, found, NOT_ANNOUNCED if is_refused else (0, wanted, b""))
            for name in ("record", "with module"):
                found = result([program, "--check", Path(folder, name), *path], text)
                yield problem(program, f"{case}: the check", found, NOT_ANNOUNCED if is_refused else (0, line, b""))
                found = result([program, "--check", Path(folder, name)], text)
                yield problem(program, f"{case}: the check without", found, (0, AGREES, b""))


def changed_bytes(rng, text):
    """The text with one to three bytes changed, removed or inserted."""
    for _ in range(rng.choice([1, 1, 1, 2, 3])):
        place = rng.randint(0, len(text))
        byte = rng.choice([rng.randbytes(1), bytes([rng.choice(b'0123456789abcdefxA "\\\r\n\t+-:')])])
        text = text[:place] + rng.choice([b"", byte]) + text[place + rng.randint(0, 1):]
    return text


def changed_lines(rng, text):
    """The text with two lines exchanged, or one line repeated, removed or ended in another way."""
    lines = text.split(b"\n")
    one, two = (rng.randrange(len(lines)) for _ in range(2))
    kind = rng.randrange(4)
    if kind == 0:
        lines[one], lines[two] = lines[two], lines[one]
    elif kind == 1:
        lines.insert(one, lines[two])
    elif kind == 2:
        lines.pop(one)
    else:
        lines[one] += rng.choice([b"\r", b" ", b"\0"])
    return b"\n".join(lines)


def raised_digit(rng, text):
    """The text with a digit raised by one, and those after it if it is a 9; also a hexadecimal one."""
    places = [place for place, byte in enumerate(text) if byte in b"0123456789abcdef"]
    if not places:
        return text
    place = rng.choice(places)
    follows = dict(zip(b"0123456789abcdef", b"123456789abcdef0"))
    return text[:place] + bytes([follows[text[place]]]) + text[place + 1:]


def with_lookalike(rng, text):
    """The text with a character replaced by one that looks like it."""
    letter = rng.choice([letter for letter in LOOKALIKES if letter.encode() in text] or [""])
    if not letter:
        return text
    places = [found.start() for found in re.finditer(re.escape(letter.encode()), text)]
    place = rng.choice(places)
    return text[:place] + LOOKALIKES[letter].encode() + text[place + len(letter):]


def respelled(rng, text):
    """The text with the same values, written in another way."""
    return rng.choice([
        lambda: re.sub(rb"\\x5c", rb"\\\\", text, count=1),
        lambda: re.sub(rb'(?<=")[a-zA-Z0-9 ]', lambda found: b"\\x%02x" % found[0][0], text, count=1),
        lambda: re.sub(rb"\\x[0-9a-f]{2}", lambda found: found[0].upper(), text, count=1),
        lambda: re.sub(rb"\\x[0-9a-f]{2}", lambda found: bytes([int(found[0][2:], 16)]), text, count=1),
        lambda: re.sub(rb"[0-9a-f]{64}", lambda found: found[0].upper(), text, count=1),
        lambda: re.sub(rb"(drawn|entrants): ", rng.choice([rb"\g<0>0", rb"\g<0>+", rb"\g<0> ", rb"\1:"]), text),
        lambda: re.sub(rb"(?<=drawn: )", rng.choice([b"9", b"50", b"1000"]), text, count=1),
        lambda: re.sub(rb"(?<=drawn: )[0-9]+", rb"\g<0>00", text, count=1),
        lambda: re.sub(rb"(?<=module SHA-256: )[0-9a-f]{64}", b"0" * 64, text),
        lambda: re.sub(rb"(?<=announcement SHA-256: )(none|[0-9a-f]{64})", b"0123456789abcdef" * 4, text),
        lambda: re.sub(rb"(?<=announcement SHA-256: )[0-9a-f]{64}", b"none", text),
        lambda: re.sub(rb"module SHA-256: .*\n", b"", text),
        lambda: re.sub(rb'seed: "', rb'\g<0>"', text),
        lambda: text.replace(b"\n", b"\r\n"),
        lambda: text.replace(b"\n", b"\n\n", 1),
        lambda: text.removesuffix(b"\n"),
        lambda: b"\xef\xbb\xbf" + text,
        lambda: text + rng.choice([b"\n", b" ", b"\0", text]),
        lambda: text[: rng.randint(0, len(text))],
    ])()


def accepted_or_not(programs, folder):
    """For each change and program, what is wrong, or None. At last, whether the changes are of all kinds."""
    rng = random.Random(38)
    kinds = [changed_bytes, changed_lines, raised_digit, with_lookalike, respelled]
    draws = [a_draw(rng, 1100 if number == 0 else rng.choice([0, 1, 2, rng.randint(3, 30)])) for number in range(100)]
    outcomes = []
    for number in range(CHANGES):
        seed, entrants, _, count, announcement = rng.choice(draws)
        # The program may be given an announcement that the record does not name, or none.
        given = announcement if rng.random() < 0.6 else rng.choice([None, None, b"another"])
        text = record(seed, entrants, count, announcement, rng.choice([None, b"a module"]))
        kind = rng.choice(kinds)
        which = rng.random()
        if which < 0.7:
            text = kind(rng, text)
        elif which < 0.9:
            entrants = kind(rng, entrants)
        elif given is not None:
            given = kind(rng, given)
        wanted = is_record(text, entrants, given)
        if wanted and entrants_of(entrants) is None:
            yield f"change {number}: is_record accepts an empty line"
        Path(folder, "record").write_bytes(text)
        Path(folder, "announcement").write_bytes(given or b"")
        path = [] if given is None else [Path(folder, "announcement")]
        for program in programs:
            status, out, err = result([program, "--check", Path(folder, "record"), *path], entrants)
            outcomes.append(status)
            if status == 0:
                good = wanted and (out, err) == (AGREES if given is None else NAMES, b"")
            else:
                good = not wanted and out == b"" and re.fullmatch(FAILURES.get(status, b""), err)
            case = f"change {number}, {kind.__name__}: {text!r} of {entrants!r} with {given!r}"
            yield None if good else f"({Path(program).name}) status {status}, {wanted}, {err!r}: {case}"[:3000]
    few = [status for status in (0, *FAILURES) if outcomes.count(status) < 5 * len(programs)]
    yield f"few changes have the statuses {few}" if few else None


def with_other_values(rng, text):
    """The announcement with other numbers or texts, most of which are no announcement of the same draw."""
    one, two = rng.choice([(1, -1), (-1, 1), (1, 0), (0, 1), (2**64, 0)])
    texts = [value.span(1) for value in re.finditer(rb'(?<=: ")(.*)(?="$)', text, re.M)]
    begin, end = rng.choice(texts)

    def raised(found):
        return b"%s: %d" % (found[1], int(found[2]) + (one if found[1] == b"winners" else two))

    def overflowing(found):
        return b"winners: %d\nreserves: %d" % (2**64 - 1, int(found[1]) + int(found[2]) + 1)

    return rng.choice([
        lambda: re.sub(rb"\b(winners|reserves): (\d+)", raised, text),
        lambda: re.sub(rb"(winners|reserves|entrants): ", rng.choice([rb"\g<0>0", rb"\g<0>+", rb"\g<0> "]), text),
        lambda: re.sub(rb"winners: (\d+)\nreserves: (\d+)", rb"winners: \2\nreserves: \1", text),
        lambda: re.sub(rb"winners: (\d+)\nreserves: (\d+)", rb"reserves: \2\nwinners: \1", text),
        lambda: re.sub(rb"winners: (\d+)\nreserves: (\d+)", overflowing, text),
        lambda: text[:begin] + text[end:],
        lambda: text[:begin] + rng.choice([b"x", b"\\", b"\\x5c", b"\\xff", b"\\xc3\\xa9"]) + text[end:],
        lambda: text[:begin] + rng.choice([b'"', b" ", b"\xc2\xa0", b"\t", b"\xff"]) + text[end:],
        lambda: text[:begin] + b"another" + text[end:],
        lambda: text.replace(b"announcement 1", rng.choice([b"announcement 2", b"announcement 1 ", b"announcement "])),
    ])()


def of_the_draw_or_not(programs, folder):
    """For each change of an announcement and program, what is wrong, or None. The record names what was changed."""
    rng = random.Random(40)
    kinds = [changed_bytes, changed_lines, raised_digit, with_lookalike, respelled, with_other_values]
    outcomes = []
    for number in range(CHANGES):
        seed, entrants, _, _, _ = a_draw(rng, rng.choice([1, 2, rng.randint(3, 30)]))
        size = len(entrants_of(entrants))
        count = rng.randint(1, size)
        given = made_announcement(*a_plan(rng, count), entrants)
        kind, which = rng.choice(kinds), rng.random()
        if which < 0.8:
            given = kind(rng, given)
        elif which < 0.9:
            count = max(0, min(size, count + rng.choice([-1, 1])))
        else:
            entrants = rng.choice([entrants + b"\nmore\n", entrants + b"more", entrants.removesuffix(b"\n"),
                                   b"x" + entrants, entrants.replace(b"\n", b"\r\n")])
            if entrants_of(entrants) is None:
                continue
        text = record(seed, entrants, count, given)
        if rng.random() < 0.05:
            given = kind(rng, given)
        good, made = is_record(text, entrants, given), record(seed, entrants, count, given)
        is_announced = is_announcement(given, entrants, count)
        Path(folder, "record").write_bytes(text)
        Path(folder, "announcement").write_bytes(given)
        case = f"announcement {number}, {kind.__name__}: {given!r} of {entrants!r}, {count}"
        for program in programs:
            status = 0 if good else 12 if text == made else 10
            outcomes.append(status)
            wanted = (0, NAMES, b"") if good else (status, b"", FAILURES[status].replace(rb"\n", b"\n"))
            found = result([program, "--check", Path(folder, "record"), Path(folder, "announcement")], entrants)
            yield problem(program, f"{case}: the check", found, wanted)
            found = result([program, "--record", seed.encode(), str(count), Path(folder, "announcement")], entrants)
            yield problem(program, f"{case}: the record", found, (0, made, b"") if is_announced else NOT_ANNOUNCED)
    few = [status for status in (0, 10, 12) if outcomes.count(status) < 50 * len(programs)]
    yield f"few changes of announcements have the statuses {few}" if few else None


def main():
    programs = [str(Path(name).resolve()) for name in sys.argv[1:]]
    if not programs or not all(os.access(program, os.X_OK) for program in programs):
        sys.exit(__doc__)
    with tempfile.TemporaryDirectory() as folder:
        outcomes = [*announced(programs), *written_and_accepted(programs, folder), *accepted_or_not(programs, folder)]
        outcomes += of_the_draw_or_not(programs, folder)
    wrong = [outcome for outcome in outcomes if outcome]
    for line in wrong[:10]:
        print(f"FAILED {line}")
    print(f"{len(outcomes) - len(wrong)} passed, {len(wrong)} failed")
    return 1 if wrong else 0


if __name__ == "__main__":
    sys.exit(main())
