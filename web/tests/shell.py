"""The page beside the shell: the program `lots` writes the announcements and records that the page writes, and each of
them reads what the other one wrote."""

import random
import subprocess
from typing import Dict, List

from announced import opened
from announcements import (EXAMPLE, KNOWN, LIST, SEED, TEXTS, mutated, no_text, read, run_checks, some, with_text)
from announcing import FIELDS, begun, saved
from counts import Counts, Ran, lines_of, lots, sha256
from formats import ODD, edges, is_text
from page import Page
from records import record_of, without_module

PLANS = 24
RECORDS = 40
AGREES = b"the record agrees with the list, and names the announcement\n"
# A quotation mark, a backslash, what a shell would change, letters that look like others, joined emoji, a long text.
PIECES = ['"', "\\", "\\x41", "$(x) `y` 'z' *", "\u0410\u0430", "l1I|", "\U0001f469\u200d\U0001f469\u200d\U0001f467",
          "\U0001f3f3\ufe0f\u200d\U0001f308", "e\u0301\u00e9", "\u202eabc\u202c", "--", " ", "\t", "long " * 1000,
          *(one.decode() for one in ODD if is_text(one)), *edges()]
LISTS = [
    LIST, LIST[:-1], LIST.replace(b"\n", b"\r\n"), b"Ada\nAda\nAda\nBob\nBob\n", b"Ada\n", b"A", b"\xef\xbb\xbf" + LIST,
    "B\u00e1rbara\nJos\u00e9\n".encode("latin-1"), b"\xff\n\xc0\x80\n\xed\xa0\x80\nAda\\\n", b"Name\nAda\nBob\n",
    b"".join(one + b"\n" for one in ODD if one and b"\n" not in one), b"".join(b"%d\n" % one for one in range(1500)),
]


def shell(program: str, words: List[str], data: bytes) -> Ran:
    """Runs the program with these words and a list."""
    done = subprocess.run([program, *(word.encode() for word in words)], input=data, capture_output=True, timeout=120)
    return Ran(done.returncode, done.stdout, done.stderr.decode())


def odd(rng: random.Random) -> str:
    """A text of one line with odd pieces. It does not consist of white space alone."""
    text = "".join(rng.choices(PIECES, k=rng.randint(0, 5)) + ["x"] + rng.choices(PIECES, k=rng.randint(0, 2)))
    return text.translate({0: None, 10: None, 13: None})


def odd_fields(rng: random.Random, data: bytes) -> Dict[str, str]:
    """Odd texts for the fields, and numbers that the list has."""
    entrants = len(lines_of(data))
    winners = rng.randint(1, entrants)
    numbers = {"winners": str(winners), "reserves": str(rng.randint(0, entrants - winners))}
    return {name: numbers[name] if name in numbers else odd(rng) for name in FIELDS}


def both_ways(counts: Counts, page: Page, program: str, module: str, name: str, data: bytes, fields: Dict[str, str],
              seed: str) -> None:
    """A draw from its announcement to its check, on the page and in the shell."""
    begun(page, data, **fields)
    announcement = saved(page)
    made = shell(program, ["--announce", *fields.values()], data)
    counts.same(f"{name}: the announcement of {fields}", [announcement, made.status], [made.output, 0])
    opened(page, announcement, seed)
    record = page.draw()["record"]
    drawn = str(int(fields["winners"]) + int(fields["reserves"]))
    path, record_path = page.folder / "announcement.txt", page.folder / "record.txt"
    path.write_bytes(made.output)
    by_program = shell(program, ["--record", seed, drawn, str(path)], data)
    counts.same(f"{name}: the record", by_program.output.decode(), without_module(record))
    result = lots(program, seed, drawn, data).output
    wanted = record_of(seed, data, result, module, sha256(announcement))
    counts.same(f"{name}: the record by other code", record, wanted)
    path.write_bytes(announcement)
    for maker, text in (("the page", record), ("the program", by_program.output.decode())):
        record_path.write_bytes(text.encode())
        checked = shell(program, ["--check", str(record_path), str(path)], data)
        counts.same(f"{name}: {maker}'s record in the program", [checked.status, checked.output], [0, AGREES])
        page.put(check_announcement=made.output.decode())
        shown = page.check(text)
        counts.same(f"{name}: {maker}'s record on the page", shown["outcome"], "agrees")


def plans(counts: Counts, page: Page, program: str, module: str) -> None:
    """The known example, and odd texts with odd lists. Each browser has plans of its own."""
    both_ways(counts, page, program, module, "the example", LIST, FIELDS, SEED)
    counts.same("the example", shell(program, ["--announce", *FIELDS.values()], LIST).output, KNOWN.encode())
    rng = random.Random(8 + page.number)
    for number in range(PLANS // page.browsers):
        data = LISTS[number % len(LISTS)]
        both_ways(counts, page, program, module, f"plan {number}", data, odd_fields(rng, data), odd(rng))


def read_alike(counts: Counts, page: Page, program: str) -> None:
    """The program takes the announcements that are read here: changed ones, other ones, and ones that are not UTF-8."""
    rng = random.Random(9)
    texts = [KNOWN, *(mutated(rng, KNOWN) for _ in range(300))]
    texts += [some(rng)._replace(digest=EXAMPLE.digest, entrants=12, winners=3, reserves=1).text() for _ in range(50)]
    texts += [with_text(number, one).text() for one in no_text() for number in rng.sample(TEXTS, 2)]
    path, taken = page.folder / "announcement.txt", 0
    for text in page.share(texts):
        path.write_bytes(text.encode())
        found = read(text.encode())
        belongs = found is not None and (found.digest, found.entrants, found.winners + found.reserves) == (
            EXAMPLE.digest, 12, 4)
        taken += belongs
        counts.same(f"the program and {text!r}", shell(program, ["--record", SEED, "4", str(path)], LIST).status == 0,
                    belongs)
    counts.case("some are taken", "" if 50 < taken * page.browsers < 200 else str(taken))


def by_program(counts: Counts, page: Page, program: str, module: bytes) -> None:
    """What the program writes agrees in the scripts of the page, and with another announcement it does not."""
    rng = random.Random(10 + page.number)
    path = page.folder / "announcement.txt"
    pairs = []
    for _ in range(RECORDS // page.browsers):
        fields = {**odd_fields(rng, LIST), "winners": "3", "reserves": "1"}
        made = shell(program, ["--announce", *fields.values()], LIST).output
        path.write_bytes(made)
        pairs.append((shell(program, ["--record", odd(rng), "4", str(path)], LIST).output.decode(), made.decode()))
    found = run_checks(page, module, [*pairs, *((record, pairs[0][1]) for record, _ in pairs[1:])])
    for place, (outcome, with_it, _, winners) in enumerate(found):
        wanted = ["agrees", True, 3] if place < len(pairs) else ["differs", False, None]
        counts.same(f"by the program, {place}", [outcome, with_it, winners], wanted)


def run(counts: Counts, page: Page, program: str, module: bytes) -> None:
    page.browser.size(1000, 900)
    counts.same("the fields are in the order of the program's words", list(FIELDS), [
        "occasion", "winners", "reserves", "source", "form", "example", "time"])
    with page.unpainted():
        plans(counts, page, program, sha256(module))
        read_alike(counts, page, program)
        by_program(counts, page, program, module)
    page.load()
