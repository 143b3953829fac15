"""Lists as people have them: long pasted ones, lines that look alike, changes, and invisible characters."""

import re
import time
import unicodedata
from itertools import product
from typing import List

from counts import Counts, sha256
from page import Page
from records import quoted
from said import grouped

# Pastes a text as the keyboard does. A script may not do this with the browser's own clipboard.
PASTE = """
const [given, first, last] = arguments;
const text = given ?? window.text;
const field = document.getElementById("list-text");
const data = new DataTransfer();
data.setData("text/plain", text);
if (first !== null) field.setSelectionRange(first, last);
const event = new ClipboardEvent("paste",
  { clipboardData: data, data: text, dataType: "text/plain", bubbles: true, cancelable: true });
return field.dispatchEvent(event);
"""
# Records when the page last responded, and how long the progress was visible.
WATCH = """
window.latest = performance.now();
window.longest = 0;
setInterval(() => {
  window.longest = Math.max(window.longest, performance.now() - window.latest);
  window.latest = performance.now();
}, 20);
"""
# For each number of lines, the seconds that the list and a draw of all may take, and a factor for slow machines.
SECONDS = {100_000: 1.0, 1_000_000: 5.0}
SLOWNESS = 3
NFC, NFD = "Zo\u00eb", "Zoe\u0308"
ONE = "1 of the lines equals an earlier line"
UNSEEN = "invisible characters or the spaces in it"
FORM = "the form of a letter, such as its width"
SAME_LOOK = "letters or signs that look the same"
DOUBLED = "1 line has two or more spaces in a row: look at line 2."
SPACED = "1 line begins or ends with a space or a tab, which belongs to the entrant"
SIGNS = "no letter and no digit, as an empty row of a spreadsheet, but can win:"
ROWS = "Delete such rows where the list was made, and open it again."
ALIKE = {
    "Ada\nada\n": ["1 of the lines equals an earlier line except for upper and lower case: look at line 2."],
    "Ada\nMax\nADA\nmax\n": ["2 of the lines equal an earlier line except for upper and lower case: look at line 3."],
    f"{NFC}\n{NFD}\n": [f"{ONE} except for how an accented letter is encoded: look at line 2."],
    f"x\n{NFD}\n{NFC.upper()}\n": [f"{ONE} except for upper and lower case: look at line 3."],
    "Ada\nAda \n": [f"{SPACED}: look at line 2.", f"{ONE} except for the spaces at its ends: look at line 2."],
    "\tada\nx\nAda\n": ["1 line begins or ends with a space",
                        f"{ONE} except for upper and lower case: look at line 3."],
    "a\nA\nb\nb\na\n": ["2 of the lines equal an earlier line: look at line 4.",
                        f"{ONE} except for upper and lower case: look at line 2."],
    "Ada\nAda\nada\n": [f"{ONE}: look at line 2. ", f"{ONE} except for upper and lower case: look at line 3."],
    "Ada\nx\n \n": [f"{SPACED}: look at line 3.", "Line 3 has nothing that can be seen, but is an entrant."],
    "\t\nx\n  \n": ["2 lines begin or end with a space or a tab, which belongs to the entrant: look at line 1.",
                    "Line 1 has nothing that can be seen, but is an entrant.",
                    "1 of the lines equals an earlier line except for the spaces at its ends: look at line 3."],
    "Ada\nBob\n;\n": [f"1 line has {SIGNS} look at line 3. {ROWS}"],
    "-\nAda\n, ,\n\"\"\n": [f"3 lines have {SIGNS} look at line 1. {ROWS}"],
    "*\nAda\n\u2605\n\U0001f600\n1;\n": [f"1 line has {SIGNS} look at line 1. {ROWS}"],
    "Ada\nAdah\nA da\n": [],
    "Ada\n\u0410da\n": [f"{ONE} except for {SAME_LOOK}: look at line 2."],
    "\u00cbva\n\u0401va\n": [f"{ONE} except for {SAME_LOOK}: look at line 2."],
    "O'Neil\nO\u00b4Neil\n": [f"{ONE} except for {SAME_LOOK}: look at line 2."],
    "\u0219i\n\u015fi\n": [f"{ONE} except for {SAME_LOOK}: look at line 2."],
    "Nora\nN\u0585ra\n": [f"{ONE} except for {SAME_LOOK}: look at line 2."],
    "O'Neil\nO\u2019Neil\n": [f"{ONE} except for {SAME_LOOK}: look at line 2."],
    "Ada B\nAda  B\n": [DOUBLED, f"{ONE} except for {UNSEEN}: look at line 2."],
    "Ada B\nAda\u00a0B\n": ["1 line has no-break spaces, which nobody sees: look at line 2.",
                            f"{ONE} except for {UNSEEN}: look at line 2."],
    "Ada\nAd\u200ba\n": ["1 line has zero-width characters, which nobody sees: look at line 2.",
                         f"{ONE} except for {UNSEEN}: look at line 2."],
    "Ada\n\uff21da\n": [f"{ONE} except for {FORM}: look at line 2."],
    "fin\n\ufb01n\nFIN\n": [f"{ONE} except for {FORM}: look at line 2.",
                            f"{ONE} except for upper and lower case: look at line 3."],
    "stra\u00dfe\nSTRASSE\n": [],
}
TIDY = {
    ("empty", b"a\n\nb\n\n\nc\n"): (b"a\nb\nc\n", 3), ("empty", b"a\nb\n"): (b"a\nb\n", 0),
    ("empty", b"\n\na"): (b"a", 2), ("empty", b"a\n\n"): (b"a\n", 1), ("empty", b"a\n \nb\n"): (b"a\n \nb\n", 0),
    ("trim", b" a\nb\t\nc\n"): (b"a\nb\nc\n", 2), ("trim", b"a\r\nb c\r\n"): (b"a\nb c\n", 2),
    ("trim", b"a\n \t b \n\xff \n"): (b"a\nb\n\xff\n", 2), ("trim", b" a"): (b"a", 1), ("trim", b"a b"): (b"a b", 0),
    ("trim", b"\xc2\xa0a\n"): (b"\xc2\xa0a\n", 0),
    ("unique", b"a\nb\na\na\nc\n"): (b"a\nb\nc\n", 2), ("unique", b"b\na\nb"): (b"b\na", 1),
    ("unique", b"\xff\n\xfe\n\xff\n"): (b"\xff\n\xfe\n", 1), ("unique", b"a\nA\na \n"): (b"a\nA\na \n", 0),
    ("unique", b"\x81\n\xc2\x81\n\x81\n"): (b"\x81\n\xc2\x81\n", 1),
    ("unique", b"\xef\xbb\xbfa\na\n"): (b"\xef\xbb\xbfa\na\n", 0),
    ("unique", b"a\n\na"): (b"a\n\n", 1), ("unique", b"\n\n\na"): (b"\na", 2), ("trim", b"a\n "): (b"a\n\n", 1),
    ("trim", b"\t"): (b"\n", 1), ("trim", b" \na"): (b"\na", 1), ("empty", b"\na\n\n"): (b"a\n", 2),
}
# No byte of another character is a space: each Latin-1 character, and each non-ASCII byte, at both ends of a line.
for whole in ("".join(f"{chr(code)}x{chr(code)}\n" for code in range(0xa0, 0x100)).encode(), b"voil\xc3\xa0\n",
              b"".join(bytes([byte, 120, byte, 10]) for byte in range(128, 256))):
    TIDY["trim", whole] = (whole, 0)
# Entrants of a list, and how the page shows them.
SHOWN = {
    "\U0001f468\u200d\U0001f469\u200d\U0001f467": "\U0001f468\u200d\U0001f469\u200d\U0001f467",
    "\u2764\ufe0f\u200d\U0001f525": "\u2764\ufe0f\u200d\U0001f525", "1\ufe0f\u20e3": "1\ufe0f\u20e3",
    "\U0001f44d\U0001f3fd\u200d\U0001f4bb": "\U0001f44d\U0001f3fd\u200d\U0001f4bb",
    "\U0001f3f4\U000e0067\U000e0062\U000e007f": "\U0001f3f4\U000e0067\U000e0062\U000e007f",
    "\u0645\u06cc\u200c\u062e\u0648\u0627\u0647\u0645": "\u0645\u06cc\u200c\u062e\u0648\u0627\u0647\u0645",
    "\u0915\u094d\u200d\u0937": "\u0915\u094d\u200d\u0937", "back\\slash": "back\\slash", "e\u0301": "e\u0301",
    "a\u200db": "a[U+200D zero width joiner]b", "a\u200cb": "a[U+200C zero width non-joiner]b",
    "\u202eabc": "[U+202E right-to-left override]abc", "x\u200b": "x[U+200B zero width space]",
    "a\ufe0f": "a[U+FE0F emoji variation]", "a\U000e0041": "a[U+E0041]", " b ": "[U+0020 space]b[U+0020 space]",
    "c\r": "c[U+000D carriage return]",
    "\u2066d\u2069": "[U+2066 left-to-right isolate]d[U+2069 pop directional isolate]",
    "4\u200d2": "4[U+200D zero width joiner]2", "7\ufe0f": "7[U+FE0F emoji variation]",
    "\U0001f468\u200d7": "\U0001f468[U+200D zero width joiner]7",
    "7\u200d\U0001f467": "7[U+200D zero width joiner]\U0001f467",
    "\u0645\u200dx": "\u0645[U+200D zero width joiner]x", "x\u200c\u0645": "x[U+200C zero width non-joiner]\u0645",
    "\U0001f468\u200c\U0001f467": "\U0001f468[U+200C zero width non-joiner]\U0001f467",
    "\U0001f468\u200d": "\U0001f468[U+200D zero width joiner]", "[U+200B]": "[U+200B]",
    "\U0001f600\U000e0041": "\U0001f600[U+E0041]", "\u2764\U000e0067\U000e0062": "\u2764[U+E0067][U+E0062]",
    "\U0001f3f3\U000e0067": "\U0001f3f3[U+E0067]",
}
# A letter of each script in which a joiner between letters matters, and letters of other scripts.
JOINING = ("ARABIC LETTER BEH", "BENGALI LETTER KA", "DEVANAGARI LETTER KA", "GUJARATI LETTER KA", "GURMUKHI LETTER KA",
           "KANNADA LETTER KA", "KHMER LETTER KA", "MALAYALAM LETTER KA", "MONGOLIAN LETTER A", "ORIYA LETTER KA",
           "SINHALA LETTER ALPAPRAANA KAYANNA", "SYRIAC LETTER BETH", "TAMIL LETTER KA", "TELUGU LETTER KA",
           "THAANA LETTER HAA")
OTHERS = ("LATIN SMALL LETTER A", "GREEK SMALL LETTER ALPHA", "CYRILLIC SMALL LETTER A", "HEBREW LETTER BET",
          "ARMENIAN SMALL LETTER AYB", "GEORGIAN LETTER AN", "THAI CHARACTER KO KAI", "LAO LETTER KO",
          "HIRAGANA LETTER KA", "HANGUL SYLLABLE GA", "CJK UNIFIED IDEOGRAPH-6587", "CHEROKEE LETTER A", "DIGIT SEVEN")
JOINERS = {"\u200c": "[U+200C zero width non-joiner]", "\u200d": "[U+200D zero width joiner]"}


def long_pastes(counts: Counts, page: Page) -> None:
    """A paste and a draw of all finish within the limits, and the page stays responsive."""
    for size, most in SECONDS.items():
        text = "".join(f"entrant {number}\n" for number in range(size))
        page.load()
        page.browser.run(WATCH)
        page.fill("seed", "all")
        page.browser.run("window.text = arguments[0];", text)
        begun = time.monotonic()
        counts.same(f"{size} lines are taken", page.browser.run(PASTE, None, None, None), False)
        page.browser.wait('return !document.getElementById("list-facts").hidden;')
        page.browser.run('document.getElementById("draw").click();')
        page.browser.wait('return !document.getElementById("result").hidden;')
        seconds = time.monotonic() - begun
        counts.case(f"{size} lines in {most} s", "" if seconds < most * SLOWNESS else f"{seconds:.2f} s")
        shown = page.shown()
        counts.same(f"the facts of {size}", [shown["digest"], shown["entrants"]],
                    [sha256(text.encode()), f"{grouped(size)} entrants"])
        longest = page.browser.run("return window.longest;")
        counts.case(f"the page answers with {size}", "" if longest < 2000 else f"{longest:.0f} ms")


def pastes(counts: Counts, page: Page) -> None:
    """Pasted text is inserted into the old text. The browser itself handles short texts."""
    page.load()
    counts.same("a short text", page.browser.run(PASTE, "Ada\n" * 20_000, None, None), True)
    places = ((0, 0, "{}x\ny\n"), (2, 2, "x\n{}y\n"), (0, 4, "{}"), (4, 4, "x\ny\n{}"))
    for lines, place in page.share(product(("Ada\r\n", "Ada\r", "Ada\n", "Ada\rBob\r\nCid\n"), places)):
        pasted_between(counts, page, lines * 30_000, *place)
    page.browser.run(PASTE.replace("given ?? window.text", "`${given}\\ud800`"), "a\n" * 60_000, None, None)
    counts.case("half a character", "" if "Line 60001 has half" in page.facts()["list"] else page.facts()["list"])
    page.fill("seed", "all")
    shown = page.draw()
    counts.same("nothing is drawn", (shown["record"], shown["title"], shown["digest"]), ("", "", ""))
    counts.case("why not", "" if "Line 60001 has half" in shown["list"] else shown["list"])


def pasted_between(counts: Counts, page: Page, long: str, first: int, last: int, wanted: str) -> None:
    """A long text at an end of a short one, within it, or in its place. All line ends become line feeds."""
    page.paste("x\ny\n")
    page.browser.run(PASTE, long, first, last)
    data = wanted.format(re.sub("\r\n?", "\n", long)).encode()
    counts.same(f"{long[:13]!r} pasted from {first} to {last}", page.facts()["digest"], sha256(data))
    name = page.browser.run("return document.getElementById('file-name').textContent;")
    counts.same("its name", name, f"Pasted text, {grouped(len(data))} bytes, not saved yet: save it")
    counts.same("the keyboard after it", page.browser.run("return document.activeElement.id;"), "close-file")


def alike(counts: Counts, page: Page) -> None:
    page.load()
    for text, begins in page.share(ALIKE.items()):
        page.paste(text)
        found = page.facts()["warnings"]
        right = len(found) == len(begins) and all(one.startswith(begin) for one, begin in zip(found, begins))
        counts.case(f"alike: {text!r}", "" if right else str(found))


def tidied(counts: Counts, page: Page) -> None:
    """Each change of a file and of a pasted text: the changed list, and the number of lines that the page reports."""
    page.load()
    for (change, before), (after, changed) in page.share(TIDY.items()):
        lines = "1 line was" if changed == 1 else f"{changed} lines were"
        said = f"{lines} {'made shorter' if change == 'trim' else 'removed'}. The list has a new SHA-256."
        said = said if changed else "No line was changed: the SHA-256 is as before."
        for way in ("file", "pasted"):
            if way == "pasted" and (b"\r" in before or not is_text(before)):
                continue
            page.open_file(before) if way == "file" else page.paste(before.decode())
            page.browser.wait("return !document.getElementById('tidy').hidden;")
            page.facts()
            page.browser.run("document.getElementById(arguments[0]).click();", f"tidy-{change}")
            page.browser.wait("return !document.getElementById('tidied').hidden;")
            found = page.browser.run("return document.getElementById('tidied').textContent;")
            shown = page.facts()
            digest = "" if shown["list"] else sha256(after)
            counts.same(f"{change} of {before!r}, {way}", (found, shown["digest"]), (said, digest))
            if way == "file":
                name = page.browser.run("return document.getElementById('file-name').textContent;")
                counts.same(f"{change} of {before!r}: the size", name.split(", ")[1], f"{len(after)} bytes")
            if way == "pasted":
                text = page.browser.run("return document.getElementById('list-text').value;")
                counts.same(f"{change} of {before!r}: the field", text, after.decode())
    hidden = "return document.getElementById('tidy').hidden;"
    page.paste("")
    counts.same("nothing to change", page.browser.run(hidden), True)
    page.browser.run("document.getElementById('draw').click();")
    page.browser.wait("return !document.getElementById('draw').disabled;")
    counts.same("nothing to change of an empty list", page.browser.run(hidden), True)


def is_text(data: bytes) -> bool:
    try:
        data.decode()
    except UnicodeDecodeError:
        return False
    return True


def alike_bytes(counts: Counts, page: Page) -> None:
    """Lines that are not text are equal only if all their bytes are equal."""
    page.load()
    each = [bytes([66, byte, 110]) for byte in range(128, 256)]
    for lines, begins in ((each, []), (each + each, ["128 of the lines equal an earlier line: look at line 129."]),
                          ([b"B\xe4n", b"B\xf6n", b"B\xef\xbf\xbdn"], []), ([b"\xe4", b"\xc4"], []),
                          ([b"\xe4 ", b"\xe4"],
                           [f"{SPACED}: look at line 1.", f"{ONE} except for the spaces at its ends"])):
        page.open_file(b"\n".join(lines))
        found = [one for one in page.facts()["warnings"] if "equal" in one or "space" in one]
        right = len(found) == len(begins) and all(one.startswith(begin) for one, begin in zip(found, begins))
        counts.case(f"alike: {len(lines)} lines of bytes, {lines[0]!r} ..", "" if right else str(found))


def joined_letters(counts: Counts, page: Page) -> None:
    """A joiner between two letters is shown unchanged in scripts in which it matters, and by its name in others."""
    pairs = [(unicodedata.lookup(name), name in JOINING) for name in JOINING + OTHERS]
    wanted = {}
    for letter, joins in pairs:
        for joiner, name in JOINERS.items():
            entrant = f"{letter}{joiner}{letter}"
            wanted[entrant] = entrant if joins else f"{letter}{name}{letter}"
    counts.same("joined letters", sorted(shown_by_name(page, list(wanted))), sorted(wanted.values()))
    record = page.shown()["record"]
    for entrant, shown in wanted.items():
        if entrant == shown:
            counts.case(f"{entrant!r} in a record", "" if f": {quoted(entrant.encode())}\n" in record else record)


def shown_by_name(page: Page, entrants: List[str]) -> List[str]:
    """What the page shows for a draw of all, with the names of invisible characters in brackets."""
    page.load()
    page.open_file("".join(f"{entrant}\n" for entrant in entrants).encode())
    page.fill("seed", "all")
    page.draw()
    return page.browser.run("""return Array.from(document.querySelectorAll("#drawn li"), (item) =>
        Array.from(item.childNodes, (node) => node.className === "unseen" ? `[${node.textContent}]` : node.data)
          .join(""));""")


def letters_by_name(counts: Counts, page: Page) -> None:
    """Joined letters are shown unchanged, and invisible characters by name."""
    counts.same("letters by name", sorted(shown_by_name(page, list(SHOWN))), sorted(SHOWN.values()))
    record = page.shown()["record"]
    for entrant in list(SHOWN)[:7]:
        counts.case(f"{entrant!r} in a record", "" if f": {quoted(entrant.encode())}\n" in record else record)
    counts.same("its check", page.check(record)["outcome"], "agrees")


def progress(counts: Counts, page: Page) -> None:
    """The progress of a long list is shown half a second after its first text, and not before."""
    page.load()
    page.browser.wait('return document.getElementById("progress-text").textContent === "";')
    page.browser.run("""window.waited = [];
        const text = document.getElementById("progress-text");
        let first = null;
        new MutationObserver(() => {
          if (text.textContent === "") first = null;
          else first ??= performance.now();
        }).observe(text, { childList: true });
        const shown = () => {
          if (!text.parentElement.hidden && first !== null) waited.push(performance.now() - first);
        };
        new MutationObserver(shown).observe(text.parentElement, { attributes: true });""")
    page.fill("seed", "all")
    page.open_file(b"".join(b"entrant %d\n" % number for number in range(600_000)))
    page.draw()
    waited = page.browser.run("return window.waited;")
    counts.case("progress", "" if waited and min(waited) >= 450 else str(waited))
    page.browser.wait('return document.getElementById("progress").hidden;')


def run(counts: Counts, page: Page) -> None:
    long_pastes(counts, page)
    with page.unpainted():
        for part in (pastes, alike, alike_bytes, tidied, letters_by_name, joined_letters, *page.share([progress])):
            part(counts, page)
