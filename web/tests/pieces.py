"""The page's scripts alone, in a browser: versions, errors, the worker's client, folded records, large lists, invisible
characters, spaces, names, encodings, headings, lookalikes."""

import unicodedata
from pathlib import Path

from counts import Counts, all_unseen
from glue import build
from page import Page

# More characters than the records have in which each one is changed.
MOST_PLACES = 1000
SCRIPTS = ("record", "warnings", "questions", "module", "client", "check", "tidy", "list", "form", "enough")
# Characters for which Unicode has no name, or one that is less clear.
NAMES = {
    0x00: "null", 0x09: "tab", 0x0d: "carriage return", 0x7f: "delete", 0x2800: "empty Braille pattern",
    0xfe0e: "text variation", 0xfe0f: "emoji variation", 0xfeff: "byte order mark",
}


def names(counts: Counts, page: Page) -> None:
    """Other invisible characters have Unicode's names."""
    found = page.browser.run('"use strict";\n' + build.joined("names", set()) + "return Array.from(NAMES);")
    counts.case("names", "" if len(found) > 30 else "there are few")
    for number, name in found:
        wanted = NAMES.get(number) or unicodedata.name(chr(number))
        counts.same(f"the name of U+{number:04X}", name.lower(), wanted.lower())


def run(counts: Counts, page: Page) -> None:
    seen = set(SCRIPTS)
    code = '"use strict";\n' + "".join(build.joined(name, seen) for name in SCRIPTS)
    here = Path(__file__)
    tests = "".join(here.with_name(name).read_text(encoding="utf-8") for name in ("writer1.js", "pieces.js"))
    # How long the entrants of a long record are, and how many more are drawn than it names.
    long = page.share(((1, 1), (43, 1), (44, 1), (50, 1), (200, 1), (44, 10**6)))
    most = f"const MOST_PLACES = {MOST_PLACES};\n"
    for name, found, wanted in page.browser.run(code + most + tests, page.share(all_unseen()), long,
                                                page.share(range(MOST_PLACES)), page.number, page.browsers,
                                                page.share((3_000_000, 9_000_000))):
        counts.same(name, found, wanted)
    names(counts, page)
