"""What the page says besides a draw: counts, hints, the module, the Python code; its HTML; and what it may load."""

import re
import time
from pathlib import Path

from counts import VERSION, Counts, all_unseen
from looks import EMPTY
from page import Page

TOP = Path(__file__).resolve().parents[2]
BYTES = r"In the record, \x and two digits stand for a byte that is no visible letter, and \x5c for a backslash."
# The description of each field for screen readers, besides its name.
DESCRIPTIONS = {
    "open-file": ["list-hint", "list-error", "file-error"], "list-text": ["list-hint", "list-error"],
    "seed": ["seed-hint", "seed-read", "seed-error"], "count": ["count-hint", "count-error"],
    "check-text": ["check-hint", "record-error"],
    "check-announcement": ["check-hint", "check-announcement-error", "record-error"],
}
POLICY = [
    "default-src 'none'", "script-src 'sha256-' 'wasm-unsafe-eval'", "worker-src blob:", "style-src 'sha256-'",
    "img-src data:", "base-uri 'none'", "form-action 'none'",
]

PROVED = [
    "The places drawn are exactly those that the rule gives for the seed.",
    "No place is drawn twice, and all draws each place once.",
    "The shares are exact: counted over lists of random words, every list of different places is drawn by equally "
    "many.",
    "The first empty line is found, the entrants are counted, and SHA-256 is the stated function.",
]
NOT_PROVED = [
    "That the seed is fair and that nobody knew it. Whoever can choose the seed after the list, or change the list "
    "after the seed, decides who wins.",
    "That the list is complete, and nobody is on it twice.",
    "That all selections come from equally many seeds.",
    "The JavaScript of this page, which gives the list to the module and shows what it drew,",
    "That this file is the one that was tested. Whoever gives it to you can change it.",
]

# A browser does not change what is typed in these fields, and does not suggest what was typed before.
TYPED = ["list-text", "seed", "count", "check-text"]
AS_TYPED = {"spellcheck": "false", "autocomplete": "off", "autocapitalize": "off", "autocorrect": "off"}
MARKED = "<b>Ada</b>&amp;<img>"


def grouped(number: int) -> str:
    return f"{number:,}".replace(",", "\u202f")


def counts_of_draws(counts: Counts, page: Page) -> None:
    for entrants, drawn in ((1, 0), (1, 1), (2, 1), (12, 12), (999, 999), (1000, 1000), (1001, 1001), (1500, 1200),
                            (1500, 3), (12345, 2345)):
        page.paste("".join(f"{number}\n" for number in range(entrants)))
        page.fill("seed", str(drawn))
        shown = page.draw()
        name = f"{drawn} of {entrants}"
        found = [page.facts()["entrants"], shown["title"], shown["more"], len(shown["drawn"])]
        left = drawn - 1000
        counts.same(name, found, [
            "1 entrant" if entrants == 1 else f"{grouped(entrants)} entrants",
            f"{grouped(drawn)} of {grouped(entrants)} drawn, in this order:" if drawn else "Nobody was drawn.",
            f"and {grouped(left)} more, in the result that you can save" if left > 0 else "", min(drawn, 1000)])
        counts.same(f"{name}: texts of nothing", page.browser.run(EMPTY), [])
        hidden = page.browser.run('return document.getElementById("progress").hidden;')
        counts.same(f"{name}: no progress", hidden, True)


def hints_on_bytes(counts: Counts, page: Page) -> None:
    for data, wanted in ((b"a\nb\n", ""), (b"a\nb\\\n", BYTES), (b"\xff\na\n", BYTES), (b"a\r\nb\r\n", BYTES)):
        page.open_file(data)
        page.fill("seed", "all")
        counts.same(f"the hint on {data!r}", page.draw()["escapes"], wanted)


def letters_that_nobody_sees(counts: Counts, page: Page) -> None:
    """Each invisible character is shown by its bytes, so that no two entrants look alike. Others are unchanged."""
    wanted = {f"a{letter}b": "a" + "".join(f"\\x{byte:02x}" for byte in letter.encode()) + "b"
              for letter in all_unseen()}
    wanted.update({entrant: entrant for entrant in ("a b", "é", "e\u0301", "漢字", "🎲", "\u2801")})
    page.open_file("".join(f"{entrant}\n" for entrant in wanted).encode())
    page.fill("seed", "all")
    counts.same("letters that nobody sees", sorted(page.draw()["drawn"]), sorted(wanted.values()))


def texts(counts: Counts, page: Page, module: str) -> None:
    text = "return document.querySelector(arguments[0]).textContent;"
    counts.same("the module", page.browser.run(text, "#maker"),
                f"Version {VERSION}, module SHA-256 {module}, for 64-bit memory, proved")
    document = (TOP / "docs/LOTS.md").read_text(encoding="utf-8")
    code = re.search(r"^```python\n(.*?)\n```$", document, re.M | re.S)
    counts.same("the Python code", page.browser.run(text, "pre[aria-label='The draw in Python']"), code and code[1])
    prose = " ".join(page.browser.run(text, ".prose").split())
    for call in ('lots "4 1 6 3 3 2 5 6" 3 < entrants.txt', "python3 lots.py SEED COUNT < entrants.txt"):
        counts.case(f"how to call {call[:12]}", "" if call in prose else "is missing")


def what_is_proved(counts: Counts, page: Page) -> None:
    """The page claims no more than this, and says what is not proved."""
    found = page.browser.run("""return Array.from(document.querySelectorAll(".prose .columns ul"), (list) =>
        Array.from(list.children, (one) => one.textContent.replace(/\\s+/g, " ").trim()));""")
    counts.same("what is proved", found[:1], [PROVED])
    counts.same("what is not proved", [text[:len(begin)] for text, begin in zip(found[1], NOT_PROVED)], NOT_PROVED)
    counts.same("how much is not proved", (len(found), len(found[1])), (2, len(NOT_PROVED)))


def descriptions(counts: Counts, page: Page) -> None:
    for field, wanted in DESCRIPTIONS.items():
        script = "return document.getElementById(arguments[0]).getAttribute('aria-describedby');"
        found = page.browser.run(script, field)
        counts.same(f"what describes {field}", (found or "").split(), wanted)


def loads_nothing(counts: Counts, page: Page) -> None:
    """No element has an address, and the content security policy allows none. The hashes in the policy may have //."""
    found = page.browser.run("""return Array.from(document.querySelectorAll("*")).flatMap((element) =>
        Array.from(element.attributes).filter(({ name, value }) => value !== "data:," && !value.startsWith("blob:") &&
          (/^(src|srcset|href|action|formaction|data|poster|ping|background|style|integrity)$/.test(name) ||
            value.replace(/'sha256-[^']*'/g, "").includes("//"))).map(({ name }) => `${element.tagName} ${name}`));""")
    counts.same("addresses", found, [])
    style = page.browser.run("return document.querySelector('style').textContent;")
    counts.same("addresses of the style", re.findall(r"url\(|@import|//", style), [])
    policy = page.browser.run("return document.querySelector('meta[http-equiv]').content;")
    counts.same("the policy", re.sub(r"(?<='sha256-)[^']+", "", policy).split("; "), POLICY)


def frame(counts: Counts, page: Page) -> None:
    """The language, the title, the width on a phone, the levels of headings, and the text without scripts."""
    found = page.browser.run("""return [document.documentElement.lang, document.title,
        document.querySelector("meta[name=viewport]")?.content, document.querySelector("noscript")?.textContent];""")
    counts.same("the frame", [" ".join((text or "").split()) for text in found], [
        "en", "A public draw", "width=device-width, initial-scale=1",
        '<p class="error">This page needs JavaScript. The program lots and the Python code below draw the same.</p>'])
    script = "return Array.from(document.querySelectorAll('h1,h2,h3,h4,h5,h6'), (one) => one.tagName);"
    levels = page.browser.run(script)
    skipped = [pair for pair in zip(levels, levels[1:]) if int(pair[1][1]) > int(pair[0][1]) + 1]
    counts.same("the levels of headings", (levels[0], levels.count("H1"), skipped), ("H1", 1, []))
    counts.same("sections that another heading names", page.browser.run("""
        return Array.from(document.querySelectorAll("section")).filter((one) =>
          document.getElementById(one.getAttribute("aria-labelledby")) !== one.querySelector("h1,h2,h3"))
          .map((one) => one.id || one.className);"""), [])
    counts.same("buttons that submit", page.browser.run("""return Array.from(document.querySelectorAll("button"))
        .filter((button) => button.getAttribute("type") !== "button").map((button) => button.id);"""), [])


def fields(counts: Counts, page: Page) -> None:
    read = "return document.getElementById(arguments[0]).getAttribute(arguments[1]);"
    for field in TYPED:
        found = {name: page.browser.run(read, field, name) for name in AS_TYPED}
        # For this attribute `none` and `off` mean the same. Firefox 140 reads `off` as `none`.
        if found["autocapitalize"] == "none":
            found["autocapitalize"] = "off"
        counts.same(f"{field} as typed", found, AS_TYPED)
    tag = page.browser.run('return document.getElementById("record").tagName;')
    counts.same("the record is not edited", tag, "PRE")


def fresh_page(counts: Counts, page: Page) -> None:
    """Before anything is typed, the list, the seed and the count are empty: nobody is drawn. A record has no list."""
    page.load()
    shown = page.draw()
    counts.same("a draw without a list", [shown[key] for key in ("list", "seed", "count", "record")],
                ["Open or paste the list first.", "", "", ""])
    page.paste("Ada\n")
    counts.same("a draw without a seed", page.draw()["seed"], "The seed is empty. Type at least one character.")
    page.fill("seed")
    counts.same("a draw without a count", page.draw()["count"],
                "Type how many are drawn: a number, or the word all.")
    page.fill("seed", "all")
    record = page.draw()["record"]
    page.load()
    counts.same("a check without a list", page.check(record)["outcome"], "no list")


def files_named(counts: Counts, page: Page) -> None:
    """The name and the size of the open file. After it is closed they disappear, and the pasted text is the list."""
    page.paste("Max\n")
    for name, size in (("one", 3), (MARKED.replace("/", ""), 12345)):
        (page.folder / name).write_bytes(b"a" * (size - 1) + b"\n")
        page.browser.type("#list-file", str(page.folder / name))
        page.facts()
        text = page.browser.run('return document.getElementById("file-name").textContent;')
        counts.same(f"the file {name}", text, f"{name}, {grouped(size)} bytes")
    page.browser.click("#close-file")
    counts.same("the keyboard after it", page.browser.run("return document.activeElement.id;"), "list-text")
    page.fill("seed", "all")
    counts.same("a draw after it", page.draw()["drawn"], ["Max"])


def mark_up(counts: Counts, page: Page) -> None:
    """Text by others is shown as it is written, and creates no element."""
    elements = 'return document.querySelectorAll("b, img").length;'
    page.paste(f"{MARKED}\n")
    page.fill(f" {MARKED}", "all")
    shown = page.draw()
    counts.same("mark-up of an entrant", shown["drawn"], [MARKED])
    counts.case("mark-up of a seed", "" if f'" {MARKED}"' in shown["read"] else shown["read"])
    finding = page.check(shown["record"].replace(f'1: "{MARKED}', f'1: "{MARKED}!'))["findings"]
    counts.same("mark-up that was checked", page.browser.run("""
        return ["reading-seed", "reading-drawn"].map((id) => document.getElementById(id).textContent);"""),
                [f'" {MARKED}"', f"{MARKED}!"])
    counts.same("mark-up of a finding", finding[:1],
                [f'Line 1 of the result: the record says "{MARKED}!", the draw gives "{MARKED}".'])
    counts.same("elements of mark-up", page.browser.run(elements), 0)


def copies_that_fail(counts: Counts, page: Page) -> None:
    """A button says for a while that nothing was copied, also to screen readers. Then it has its old text again."""
    page.tab("draw")
    page.browser.run("navigator.clipboard.writeText = () => Promise.reject(new Error());")
    heard = 'return document.getElementById("heard").textContent;'
    said = "Not copied: select the text"
    for button in ("copy-digest", "copy-record"):
        label = page.browser.label(f"#{button}")
        page.browser.run(f'document.getElementById("{button}").click();')
        time.sleep(0.5)
        counts.same(f"{button} that failed", [page.browser.label(f"#{button}"), page.browser.run(heard)], [said] * 2)
        time.sleep(2.5)
        counts.same(f"{button} afterwards", [page.browser.label(f"#{button}"), page.browser.run(heard)], [label, ""])


def run(counts: Counts, page: Page, module: str) -> None:
    for part in (frame, fields, fresh_page, files_named, mark_up, copies_that_fail):
        part(counts, page)
    page.load()
    texts(counts, page, module)
    what_is_proved(counts, page)
    descriptions(counts, page)
    loads_nothing(counts, page)
    counts_of_draws(counts, page)
    hints_on_bytes(counts, page)
    letters_that_nobody_sees(counts, page)
