"""The field that checks a record, of format 1 or 2: each outcome, and texts that are not records."""

import json
import random
import re
import textwrap
from pathlib import Path
from typing import Dict, Iterator, List, Tuple

from counts import UNSEEN, Counts, lots, sha256
from page import Page
from records import FORMAT1, FORMAT2, Layout, bytes_of, is_hidden, json_seed, old_record, quoted, record_of

LIST = "Ada\nBarbara\nChidi\nDmitri\nElif\nFarid\nGrace\nHedy\nInes\nJun\nKatherine\nLise\n"
SEED = "4 1 6 3 3 2 5 6 1 4 2 6 5 3 1 1 6 2 4 5"
TITLES = {
    "agrees": "The record agrees: the same list, and the draw repeated here gives the same result. "
              "Whether its list and its seed are those that were announced, only you can compare.",
    "other module": "The result agrees, but the record was made by another version of the program.",
    "differs": "The record differs from the draw repeated here.",
    "no record": "This text is not a record of a draw.",
    "no list": "The record can be read. Open or paste its list above, and check again.",
}
# How many lines a text without a record has. Firefox takes long to show more in its field.
LINES = {"Chromium": 200_000, "Firefox": 50_000}
HIDE_FIELD = "document.getElementById('check-text').hidden = arguments[0];"
# How many records with one changed letter are checked, in each format.
BROKEN = 60
# A text that is no record: its name, the text, and the line that is wrong.
Wrong = Tuple[str, str, int]
OTHER_LIST = "This is not the list that the record names."


def in_layout(layout: Layout, record: str) -> str:
    """A record of format 2, or the same draw in format 1."""
    return record if layout is FORMAT2 else old_record(record)


def with_line(record: str, number: int, text: str) -> str:
    """The record with another line in place of the line with this number, from 1."""
    lines = record.split("\n")
    lines[number - 1] = text
    return "\n".join(lines)


def with_value(layout: Layout, record: str, name: str, value: object) -> str:
    """The record with another value of this name."""
    return with_line(record, layout.line(name), f"{name}: {value}")


def with_seed(layout: Layout, record: str, seed: str) -> str:
    return with_value(layout, record, "seed", json_seed(seed) if layout is FORMAT1 else quoted(seed.encode()))


def line_of(layout: Layout, number: int, entrant: str) -> str:
    """The line of an entrant that has no escapes."""
    return f"{number}: {entrant}" if layout is FORMAT1 else f'{number}: "{entrant}"'


def with_entrant(layout: Layout, record: str, number: int, entrant: str) -> str:
    """The record with another entrant drawn at this number, from 1."""
    return with_line(record, layout.first + number - 1, line_of(layout, number, entrant))


def outcome(counts: Counts, page: Page, name: str, record: str, wanted: str, *findings: str) -> None:
    """Compares the outcome, and the beginning of each of its findings, no more and no fewer."""
    shown = page.check(record)
    found = shown["findings"]
    right = len(found) == len(findings) and all(one.startswith(begin) for one, begin in zip(found, findings))
    is_other_list = shown["outcome"] == "differs" and found[0].startswith("Another list:")
    right = right and shown["outcomeTitle"] == (OTHER_LIST if is_other_list else TITLES.get(shown["outcome"]))
    counts.case(name, "" if (shown["outcome"], right) == (wanted, True)
                else f"{shown['outcome']}: {found} and not {wanted}: {findings}")


def first_record(page: Page, seed: str = SEED, count: str = "3", text: str = LIST) -> str:
    page.paste(text)
    page.fill(seed, count)
    return page.draw()["record"]


def agreements(counts: Counts, page: Page, layout: Layout, record: str) -> None:
    for name, text in (("as it is", record), ("no last line feed", record[:-1]),
                       ("Windows", record.replace("\n", "\r\n")),
                       ("lines around", f"\n\n{record}\n \n"), ("a mark", f"\ufeff{record}"),
                       ("spaces at ends", record.replace("\n", "  \n"))):
        outcome(counts, page, f"agrees: {name}", text, "agrees")
    for name, text in (("an escape more", record.replace("Katherine", "\\x4batherine")),
                       ("an escaped seed", record.replace('"4 1', '"\\u0034 1'))):
        reason = ["Line "] if layout is FORMAT2 else []
        outcome(counts, page, name, text, "no record" if layout is FORMAT2 else "agrees", *reason)
    page.open_file(LIST.encode())
    outcome(counts, page, "agrees with the file", record, "agrees")
    page.paste(LIST)


def makers(counts: Counts, page: Page, layout: Layout, record: str, digests: Dict[int, str]) -> None:
    """A record by the page's other module agrees, and one by another module or version is told."""
    by_zero = with_value(layout, record, "module SHA-256", "0" * 64)
    another = "Another drawing program (module):"
    outcome(counts, page, "another module", by_zero, "other module", another)
    outcome(counts, page, "another result by another module", with_entrant(layout, by_zero, 1, "Ada"), "differs",
            'Line 1 of the result: the record says "Ada", the draw gives "Katherine".', another)
    second = record.replace(digests[64], digests[32])
    made = ("The record was made in a browser that runs this page's other drawing program (module), for 32-bit memory: "
            "built from the Rust crate, whose functions are compared with the proved ones. This browser runs the one "
            "for 64-bit memory, proved. Both draw the same.")
    outcome(counts, page, "the page's other module", second, "agrees", made)
    outcome(counts, page, "it and another result", with_entrant(layout, second, 1, "Ada"), "differs",
            "Line 1 of the result:", made)


def versions(counts: Counts, page: Page, old: str, digests: Dict[int, str]) -> None:
    """A record of format 1 names the version of the page."""
    later = with_value(FORMAT1, old, "version", "1.0.1")
    outcome(counts, page, "another version", later, "other module", "Another version:")
    outcome(counts, page, "another version, the page's other module", later.replace(digests[64], digests[32]),
            "other module", "Another version:", "The record was made in a browser")
    both = with_value(FORMAT1, with_value(FORMAT1, old, "version", "2.0.0"), "module SHA-256", "0" * 64)
    another = ("Another version:", "Another drawing program (module):")
    outcome(counts, page, "both", both, "other module", *another)
    outcome(counts, page, "another result by both", with_entrant(FORMAT1, both, 1, "Ada"), "differs",
            'Line 1 of the result: the record says "Ada", the draw gives "Katherine".', *another)


def differences(counts: Counts, page: Page, layout: Layout, record: str) -> None:
    sum_differs = "The SHA-256 of the result differs."
    for line, wrong, right in ((1, "Jun", "Katherine"), (2, "jun", "Jun"), (3, "Chid", "Chidi"), (2, "Jun  Ito", "Jun"),
                               (3, "Chidi\\x20" if layout is FORMAT1 else "Chidi ", "Chidi")):
        said = wrong.replace("\\x20", " ")
        outcome(counts, page, f"line {line} is {wrong}", with_entrant(layout, record, line, wrong), "differs",
                f'Line {line} of the result: the record says "{said}", the draw gives "{right}".')
    swapped = with_entrant(layout, with_entrant(layout, record, 1, "Jun"), 2, "Katherine")
    outcome(counts, page, "two lines are swapped", swapped, "differs",
            'Line 1 of the result: the record says "Jun", the draw gives "Katherine".')
    for name, value, reason in (("result SHA-256", "a" * 64, sum_differs),
                                ("entrants", 13, "Entrants: the record says 13, this list has 12."),
                                ("list SHA-256", "1" * 64, "Another list:")):
        outcome(counts, page, f"{name} is {value}", with_value(layout, record, name, value), "differs", reason)
    two = with_value(layout, record, "drawn", 2).split("\n")
    two = [*two[:layout.first + 1], *layout.end]
    outcome(counts, page, "two drawn", "\n".join(two), "differs", sum_differs)
    for seed in ("4 1 6", f"{SEED} "):
        outcome(counts, page, f"the seed is {seed!r}", with_seed(layout, record, seed), "differs",
                "Line 1 of the result:", sum_differs)
    more = [*with_value(layout, record, "drawn", 13).split("\n")[:layout.first + 2],
            *(line_of(layout, number, "x") for number in range(4, 14)), *layout.end]
    if layout is FORMAT1:
        outcome(counts, page, "13 drawn of 12", "\n".join(more), "differs",
                "Cannot draw 13: the list has only 12 entrants.")
    else:
        outcome(counts, page, "13 drawn of 12", "\n".join(more), "no record",
                "Line 6: 13 of 12 entrants cannot be drawn.")
        outcome(counts, page, "13 drawn of 13", with_value(layout, "\n".join(more), "entrants", 13), "differs",
                "Cannot draw 13: the list has only 12 entrants.")
    other_lists(counts, page, record)


def other_lists(counts: Counts, page: Page, record: str) -> None:
    for name, text in (("another order", LIST.replace("Ada\nBarbara", "Barbara\nAda")), ("one more", LIST + "Max\n"),
                       ("a space", LIST.replace("Ada", "Ada "))):
        page.paste(text)
        outcome(counts, page, f"another list: {name}", record, "differs", "Another list:")
    page.paste("")
    outcome(counts, page, "no list", record, "no list")
    page.paste(LIST)


def other_line_ends(counts: Counts, page: Page) -> None:
    """Of lists that differ only in line ends and in a byte order mark, the page says so, whichever was published."""
    lists = {f"{name}, {end!r}, {mark!r}": (mark + LIST[:-1].replace("\n", feed) + end).encode()
             for name, feed in (("LF", "\n"), ("CRLF", "\r\n")) for end in ("", feed) for mark in ("", "\ufeff")}
    for name, published in page.share(lists.items()):
        page.open_file(published)
        page.fill("seed", "4")
        record = page.draw()["record"]
        for other, opened in lists.items():
            page.open_file(opened)
            if opened == published:
                outcome(counts, page, f"{name} is {other}", record, "agrees")
            else:
                outcome(counts, page, f"{name} is not {other}", record, "differs", "Another list:",
                        "Only the line ends differ, or an invisible mark at the beginning")


def no(counts: Counts, page: Page, name: str, text: str, line: int) -> None:
    """The text is not a record, and the page names this line."""
    outcome(counts, page, f"no record: {name}", text, "no record", f"Line {line}: ")


def no_records(counts: Counts, page: Page, record: str) -> None:
    """Texts without a title, and with one of an unknown format."""
    for name, text in (("empty", ""), ("white", " \n\t\r\n"), ("words", "hello")):
        no(counts, page, name, text, 1)
    # A browser takes long to lay out such a text in the field.
    page.browser.run(HIDE_FIELD, True)
    for name, text in (("huge", "x" * 3_000_000), ("many lines", "x\n" * LINES[page.browser.name])):
        no(counts, page, name, text, 1)
    page.put(check_text="")
    page.browser.run(HIDE_FIELD, False)
    for title in ("nanorand public draw 3", "nanorand public draw 0", "nanorand public draw 02",
                  "nanorand public draw 1.0", "nanorand public draw 12", "<script>alert(1)</script>"):
        no(counts, page, f"the title {title}", with_line(record, 1, title), 1)


def wrong_lines(layout: Layout, record: str) -> Iterator[Wrong]:
    """Lines that are missing, doubled, swapped or indented."""
    lines = record[:-1].split("\n")
    # Without the module's line the record is one of the program `lots`.
    module = layout.line("module SHA-256") if layout is FORMAT2 else 0
    for number in range(1, len(lines) + 1):
        yield f"cut before line {number}", "\n".join(lines[:number - 1]), number
        if number != module:
            yield f"without line {number}", "\n".join(lines[:number - 1] + lines[number:]), number
        for space in (" ", "\t", "\u00a0", *(["\ufeff"] if number > 1 else [])):
            yield f"{space!r} before line {number}", with_line(record, number, space + lines[number - 1]), number
        yield f"line {number} twice", "\n".join(lines[:number] + lines[number - 1:]), number + 1
    for number, name in enumerate(layout.names, 2):
        swapped = lines[:]
        swapped[number - 1], swapped[number] = lines[number], lines[number - 1]
        at = number + 1 if number == module else number
        yield f"lines {number} and {number + 1} swapped", "\n".join(swapped), at
        for value in ("", "x", "null", "-1", "[]", "{}"):
            yield f"{name} is {value!r}", with_value(layout, record, name, value), number


# Values that no record of either format has.
WRONG = {
    "announcement SHA-256": ["None", "NONE", "no", "A" * 64, "a" * 63, "a" * 65, "none none", '"none"'],
    "seed": ['""', '"', '"a', 'a"', "'a'", '"\\ud800"', '["a"]', "7", '"\\x41"', ' "a"', '\t"a"', '"\\"', '"\\x5"',
             *(f'"a{letter}b"' for letter in UNSEEN)],
    "list SHA-256": ["A" * 64, "a" * 63, "a" * 65, "g" * 64],
    "entrants": ["012", "1e3", "+1", "1.0", "9" * 16, "9" * 100000, "00"],
    "drawn": ["0003", "\u0663"],
    "version": ["1.0", "1.0.0.0", "v1.0.0", "1.0.x"],
    "module SHA-256": ["F" * 64, "none"],
    "result SHA-256": ["F" * 64, "0x" + "a" * 62],
}


def wrong_values(layout: Layout, record: str) -> Iterator[Wrong]:
    """Values that a record does not have."""
    for name in layout.names:
        for value in WRONG[name]:
            yield f"{name} is {value[:20]}", with_value(layout, record, name, value), layout.line(name)
    first = layout.first
    for text in ("1: ", "1:", "01: Katherine", '01: "Katherine"', "2: Katherine", '2: "Katherine"', "1. Katherine",
                 "1: Kath\\erine", '1: "Kath\\erine"', "1: Kath\\x4", '1: "Kath\\x4"', "1: Kath\\X4B",
                 '1: "Kath\\X4B"', "1: \\x0a", '1: "\\x0a"', "1: a\\", '1: "a\\"',
                 *([] if layout is FORMAT1 else ['1: ""'])):
        yield f"the entrant {text!r}", with_line(record, first, text), first
    for entrant in (*(f"Kath{letter}erine" for letter in UNSEEN), "\u00e9\\xff", "\\xe2\\x80\u200b"):
        yield f"the entrant {entrant!r}, unescaped", with_entrant(layout, record, 1, entrant), first
    if layout is FORMAT1:
        yield "two seeds", with_value(layout, record, "seed", '"a" "b"'), 2
        yield "a space before an entrant", with_entrant(layout, record, 1, " Katherine"), first
        yield "more drawn than there are lines", with_value(layout, record, "drawn", "9" * 15), first + 3


def folded(line: str, width: int) -> str:
    """A line folded as a mail program does: at spaces, or within a word that is too long."""
    return "\n".join(textwrap.wrap(line, width)) or line


def records_of_mails(counts: Counts, page: Page, layout: Layout) -> None:
    """Records as mails contain them: quoted, with text around, and folded."""
    long_names = "".join(f"{name} {' '.join(['of the house at the river'] * 5)}\n" for name in ("Ada", "Max", "Zoë"))
    for name, text in (("short", LIST), ("long", long_names)):
        record = in_layout(layout, first_record(page, SEED + " 6" * 40, "3", text))
        ways = {"quoted": "> " + record.replace("\n", "\n> "), "quoted twice": ">> " + record.replace("\n", "\n>> "),
                "quoted with spaces": "> > " + record.replace("\n", "\n> > "),
                "text above": f"Dear all,\n\nthe record:\n{record}", "text below": f"{record}\nYours\n1. the clerk\n",
                "text right below": f"{record}Yours, the clerk of this town\n",
                "text around, quoted": "On Friday she wrote:\n> " + record.replace("\n", "\n> ") + "\n\nThanks\n"}
        for width in (46, 60, 72, 78):
            if width > 50 or name == "short" or layout is FORMAT2:
                ways[f"folded at {width}"] = "\n".join(folded(line, width) for line in record.split("\n"))
        for way, mail in ways.items():
            if not (name == "long" and way == "text right below" and layout is FORMAT1):
                outcome(counts, page, f"{name}, {way}", mail, "agrees")
                outcome(counts, page, f"{name}, {way}, Windows", mail.replace("\n", "\r\n"), "agrees")
        start = "3: " if layout is FORMAT1 else '3: "'
        for way in ("quoted", "text around, quoted", "folded at 60"):
            other = ways[way].replace(start, f"{start}x", 1)
            outcome(counts, page, f"{name}, {way}, of another", other, "differs", "Line 3 of")


def long_records(counts: Counts, page: Page, layout: Layout) -> None:
    """If more than 1000 entrants are drawn, a record names the first 1000."""
    text = "".join(f"{number}\n" for number in range(1500))
    record = in_layout(layout, first_record(page, "seed", "1200", text))
    lines = record.split("\n")
    counts.same("a long record ends", lines[1008:], ["and 200 more", *layout.end, ""])
    outcome(counts, page, "a long record", record, "agrees")
    for end in ("and 199 more", "and 201 more", "and 200 others", "and 0200 more", line_of(layout, 1001, "7")):
        changed = record.replace("and 200 more", end)
        outcome(counts, page, f"a long record ends with {end}", changed, "no record", "Line 1009:")
    for after in (line_of(layout, 1001, "7"), "and 200 more"):
        outcome(counts, page, f"{after} after it", record + after, "no record", f"Line {len(lines)}:")
    outcome(counts, page, "the last one named", with_line(record, 1008, line_of(layout, 1000, "9999")), "differs",
            "Line 1000 of")
    outcome(counts, page, "the sum of those not named", with_value(layout, record, "result SHA-256", "b" * 64),
            "differs", "The SHA-256 of the result differs.")


def of_no_entrants(counts: Counts, page: Page, layout: Layout, module: str) -> None:
    """`lots` makes a record of an empty list. For the page no list is open then, whatever the record says."""
    record = in_layout(layout, record_of("seed", b"", b"", module))
    page.paste("")
    outcome(counts, page, "a record of no entrants", record, "no list")
    page.open_file(b"")
    outcome(counts, page, "it, with an empty file", record, "no list")
    page.paste(LIST)
    outcome(counts, page, "it, with a list", record, "differs", "Another list:")


def seeds_survive(counts: Counts, page: Page, program: str) -> None:
    """A record contains any seed in one line, and another page reads the same seed from it."""
    seeds = [" ", "  two  ", "\ttab", "\"quoted\"", "\\", "\\n", "é", "e\u0301", "🎲", "\u200b",
             "\u00a0x", "\u2028", "\u202eabc", "\x00", "\x7f", "</script>", "{{python}}", "nanorand public draw 1",
             "\ufeffx", "\U000e0041", "漢字", f"a{UNSEEN[1:]}b"]
    for seed in page.share(seeds):
        record = first_record(page, seed, "all")
        line = record.split("\n")[2]
        right = not any(map(is_hidden, line)) and bytes_of(line[len("seed: "):]).decode() == seed
        if "\0" not in seed:
            right = right and sha256(lots(program, seed, "all", LIST.encode()).output) in record
        counts.case(f"the seed {seed!r}", "" if right else record)
        for layout in (FORMAT2, FORMAT1):
            text = in_layout(layout, record)
            outcome(counts, page, f"a check of the seed {seed!r}", text.replace("\n", "\r\n"), "agrees")
            written = json.dumps(seed, ensure_ascii=False) if layout is FORMAT1 else f'"{seed}"'
            unescaped = with_value(layout, text, "seed", written)
            if unescaped != text:
                outcome(counts, page, f"the seed {seed!r} unescaped", unescaped, "no record",
                        f"Line {layout.line('seed')}: ")


def seed_of_lines(counts: Counts, page: Page, program: str, module: str) -> None:
    """A seed with line feeds, which a field does not accept, is read from a record."""
    for seed in ("\n", "a\nb\n"):
        record = record_of(seed, LIST.encode(), lots(program, seed, "3", LIST.encode()).output, module)
        for layout in (FORMAT2, FORMAT1):
            outcome(counts, page, f"a record with the seed {seed!r}", in_layout(layout, record), "agrees")


def broken_records(counts: Counts, page: Page, layout: Layout, record: str) -> None:
    """Records with a changed character agree only if they still have the same meaning."""
    rng = random.Random(37 + page.number)
    letters: List[str] = list("0123456789abcdefx\\\":. \n") + ["é", "\u0000"]
    others = [layout.line(name) for name in ("version", "module SHA-256") if name in layout.names]
    for _ in range(BROKEN // page.browsers):
        place = rng.randrange(len(record) - 1)
        letter = rng.choice(letters)
        changed = record[:place] + letter + record[place + 1:]
        if letter == record[place] or letter in " \n" and record[place] in " \n":
            continue
        found = page.check(changed)["outcome"]
        line = record[:place].count("\n") + 1
        allowed = {"no record", "differs"} | ({"other module"} if line in others else set())
        counts.case(f"letter {place} changed to {letter!r}", "" if found in allowed else str(found))


def record_of_document(counts: Counts, record: str) -> None:
    """The record in docs/PAGE.md is the example's."""
    document = (Path(__file__).resolve().parents[2] / "docs/PAGE.md").read_text(encoding="utf-8")
    found = re.search(r"^```\n(nanorand public draw 2\n.*?)^```$", document, re.M | re.S)
    counts.same("the record of docs/PAGE.md", found[1], record)


def run(counts: Counts, page: Page, program: str, digests: Dict[int, str]) -> None:
    page.load()
    record = first_record(page)
    record_of_document(counts, record)
    no_records(counts, page, record)
    place = counts.place
    for layout in (FORMAT2, FORMAT1):
        counts.place = f"{place}, {layout.title}"
        page.paste(LIST)
        text = in_layout(layout, record)
        agreements(counts, page, layout, text)
        makers(counts, page, layout, text, digests)
        differences(counts, page, layout, text)
        for name, changed, line in page.share([*wrong_lines(layout, text), *wrong_values(layout, text)]):
            no(counts, page, name, changed, line)
        broken_records(counts, page, layout, text)
        records_of_mails(counts, page, layout)
        long_records(counts, page, layout)
        of_no_entrants(counts, page, layout, digests[64])
    counts.place = place
    other_line_ends(counts, page)
    page.load()
    page.paste(LIST)
    versions(counts, page, old_record(record), digests)
    seeds_survive(counts, page, program)
    seed_of_lines(counts, page, program, digests[64])
