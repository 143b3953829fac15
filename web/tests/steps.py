"""The steps of a draw and the tab for a check: what is where, the keyboard, dropped files, and printing."""

import re
import time
import zlib
from pathlib import Path
from typing import List

from counts import Counts, sha256
from drivers import BACKSPACE, CONTROL, ENTER, SHIFT, SPACE, TAB
from page import Page

LIST = "Ada\nBarbara\nChidi\nDmitri\nElif\nFarid\nGrace\nHedy\nInes\nJun\nKatherine\nLise\n"
SEED = "4 1 6 3 3 2 5 6 1 4 2 6 5 3 1 1 6 2 4 5"
ARROW_LEFT, ARROW_RIGHT, HOME, END = "\ue012", "\ue014", "\ue011", "\ue010"
# The height of two screens of a phone with a width of 360 pixels.
TWO_SCREENS = 1600
HEADINGS = """return Array.from(document.querySelectorAll("h2"))
  .filter((one) => one.checkVisibility()).map((one) => one.textContent);"""
SIZES = """
const size = (element) => Number.parseFloat(getComputedStyle(element).fontSize);
const shown = Array.from(document.querySelectorAll("body *")).filter((one) => one.checkVisibility());
const others = shown.filter((one) => !one.closest("#drawn"));
return [size(document.querySelector("#drawn li")), Math.max(...others.map(size)),
  document.getElementById("record").getBoundingClientRect().top -
    document.getElementById("drawn").getBoundingClientRect().bottom];
"""
# The width of a winner's number, the space before the winners, and the width of a number with one more digit.
NUMBERS = """
const list = document.getElementById("drawn");
const widthOf = (text) => {
  const item = list.firstElementChild.cloneNode();
  item.textContent = text;
  item.style.cssText = "position: absolute; list-style: none;";
  list.append(item);
  const { width } = item.getBoundingClientRect();
  item.remove();
  return width;
};
const room = list.firstElementChild.getBoundingClientRect().left - list.getBoundingClientRect().left;
return [widthOf(`${arguments[0]}.`), room, widthOf(`${arguments[0]}0.`)];
"""
# The number of characters in each row of each digest.
ROWS = """
const digests = Array.from(document.querySelectorAll(".digest")).filter((digest) => digest.checkVisibility());
return digests.map((digest) => {
  const text = digest.firstChild;
  const rows = new Map();
  for (let place = 0; place < text.length; place += 1) {
    const range = document.createRange();
    range.setStart(text, place);
    range.setEnd(text, place + 1);
    const { top } = range.getBoundingClientRect();
    rows.set(top, (rows.get(top) ?? 0) + 1);
  }
  return Array.from(rows.values());
});
"""
ON_PAPER = """
return ["tab-draw", "list-heading", "list-hint", "list-file", "list-text", "file-name", "close-file", "entrants",
  "list-warnings", "list-digest", "unsaved", "seed", "check-text", "outcome", "reading", "publish-hint", "drawn",
  "record", "print", "paper-title", "paper-date", "signatures"]
  .filter((id) => document.getElementById(id).checkVisibility());
"""
# Whether a part is higher than its visible part, and how the rest is reached.
CUT = """
const part = document.getElementById(arguments[0]);
return [part.scrollHeight > part.clientHeight + 1, getComputedStyle(part).overflowY];
"""
FRAMED = """
document.getElementById(arguments[0]).focus({ focusVisible: true });
return getComputedStyle(document.activeElement).outlineStyle;
"""
DROP = """
const [id, name, bytes] = arguments;
const data = new DataTransfer();
data.items.add(new File([Uint8Array.from(bytes)], name));
for (const kind of ["dragover", "drop"]) {
  const event = new DragEvent(kind, { dataTransfer: data, bubbles: true, cancelable: true });
  document.getElementById(id).dispatchEvent(event);
  if (!event.defaultPrevented) throw new Error(`${kind} is left to the browser`);
}
"""


def drop(page: Page, element: str, name: str, data: bytes) -> None:
    page.browser.run(DROP, element, name, list(data))


def focused(page: Page) -> str:
    return str(page.browser.run("return document.activeElement.id;"))


def drawn(page: Page) -> None:
    page.load()
    page.paste(LIST)
    page.fill(SEED, "3")
    page.draw()


def tab_is(counts: Counts, page: Page, name: str) -> None:
    """The tab with this name is selected, it is the only one that the Tab key reaches, and it labels its panel."""
    found = page.browser.run("""return Array.from(document.querySelectorAll("[role=tab]"), (tab) =>
        [tab.id, tab.getAttribute("aria-selected"), tab.tabIndex, tab.getAttribute("aria-controls")]);""")
    wanted = [[f"tab-{one}", str(one == name).lower(), 0 if one == name else -1, "panel"] for one in ("draw", "check")]
    counts.same(f"the tab {name}", found, wanted)
    panel = page.browser.run("return document.getElementById('panel').getAttribute('aria-labelledby');")
    counts.same(f"the panel of {name}", panel, f"tab-{name}")


def tabs(counts: Counts, page: Page) -> None:
    """The steps are in one tab; the list, the record and the answer are in the other."""
    page.load()
    steps = ["1. Close the list", "2. Draw", "3. Publish the result", "Why believe it"]
    counts.same("the steps", page.browser.run(HEADINGS), steps)
    tab_is(counts, page, "draw")
    record = "nanorand"
    page.check(record)
    counts.same("a check", page.browser.run(HEADINGS), ["The list", "The record that was published", "Why believe it"])
    shown = page.shown()
    counts.same("its answer", shown["outcome"], "no record")
    for key, name in ((ARROW_LEFT, "draw"), (ARROW_RIGHT, "check"), (ARROW_RIGHT, "draw"), (ARROW_LEFT, "check"),
                      (HOME, "draw"), (HOME, "draw"), (END, "check"), (END, "check")):
        page.browser.run("document.querySelector('[role=tab][aria-selected=true]').focus();")
        page.browser.press(key)
        counts.same(f"the keyboard at {name}", focused(page), f"tab-{name}")
        tab_is(counts, page, name)


def winners_first(counts: Counts, page: Page) -> None:
    drawn(page)
    for width in (360, 1440):
        page.browser.size(width, 900)
        winner, other, below = page.browser.run(SIZES)
        counts.case(f"the winners are the largest text, {width}", "" if winner > other else f"{winner} and {other}")
        counts.case(f"the record is below them, {width}", "" if below >= 0 else str(below))
        counts.same(f"the rows of digests, {width}", page.browser.run(ROWS), [[32, 32]] * 4)
    page.browser.size(360, 800)
    page.load()
    height = page.browser.run("return document.documentElement.scrollHeight;")
    counts.case("an empty page has two screens at most", "" if height <= TWO_SCREENS else str(height))
    page.browser.size(1000, 900)


def numbers_of_winners(counts: Counts, page: Page) -> None:
    """No winner's number is cut off, and the winners are indented no more than their numbers, or two digits, need."""
    for drawn in (1, 9, 10, 99, 100, 999, 1000):
        page.paste("".join(f"entrant {number}\n" for number in range(drawn)))
        page.fill(SEED, "all")
        page.draw()
        for width in (360, 1440):
            page.browser.size(width, 900)
            widths = page.browser.run(NUMBERS, max(drawn, 10))
            counts.case(f"the number {drawn}, {width}", "" if widths == sorted(widths) else str(widths))
    page.browser.size(1000, 900)


def details(counts: Counts, page: Page) -> None:
    """What is proved, the rule and the Python code can be opened, and the rule is the one in docs/LOTS.md."""
    found = page.browser.run("""return Array.from(document.querySelectorAll("details"),
        (one) => [one.open, one.querySelector("summary").textContent]);""")
    counts.same("details", found, [[False, "What is proved, and what is not"], [False, "The rule of the draw"],
                                   [False, "Check it without this page"]])
    text = (Path(__file__).resolve().parents[2] / "docs/LOTS.md").read_text(encoding="utf-8")
    rule = re.search(r"^## The rule of the draw\n.*?\n(- .*?)\n\nIn the example", text, re.M | re.S)
    wanted = re.sub(r"\[(.*?)\]\(.*?\)|\*\*|`|^- ", r"\1", rule[1] if rule else "", flags=re.M)
    found = page.browser.run("return document.querySelectorAll('details')[1].querySelector('ul').textContent;")
    counts.same("the rule", found.split(), wanted.split())


def enter_draws(counts: Counts, page: Page) -> None:
    for field in ("seed", "count"):
        page.load()
        page.paste(LIST)
        page.fill(SEED, "3")
        page.browser.run("document.getElementById(arguments[0]).focus();", field)
        page.browser.run("""document.activeElement.dispatchEvent(
            new KeyboardEvent("keydown", { key: "Enter", isComposing: true, bubbles: true }));""")
        counts.same(f"Enter that ends a word in {field}", page.shown()["record"], "")
        page.browser.press("x" + BACKSPACE + ENTER)
        page.browser.wait('return document.getElementById("record").textContent;')
        counts.same(f"Enter in {field}", page.shown()["drawn"], ["Katherine", "Jun", "Chidi"])


def files_dropped(counts: Counts, page: Page) -> None:
    """A dropped file is the list, unless it is dropped on the field for the record."""
    drawn(page)
    record = page.shown()["record"]
    drop(page, "list-text", "people.txt", f"{LIST}Max\n".encode())
    counts.same("a list dropped", page.facts()["entrants"], "13 entrants")
    text = page.browser.run("return document.getElementById('file-name').textContent;")
    counts.same("its name", text.split(",")[0], "people.txt")
    page.open_file(b"chosen\n")
    page.facts()
    page.tab("check")
    drop(page, "panel", "entrants.txt", LIST.encode())
    counts.same("a list dropped beside it", page.facts()["entrants"], "12 entrants")
    drop(page, "panel", "marked.txt", b"\xef\xbb\xbfM\xfcller\r\n")
    wanted = sha256(b"\xef\xbb\xbfM\xfcller\r\n")
    counts.same("a list dropped that is no UTF-8", page.facts()["digest"], wanted)
    drop(page, "panel", "entrants.txt", LIST.encode())
    page.facts()
    drop(page, "check-text", "record.txt", record.encode())
    page.browser.wait("return document.getElementById('check-text').value;")
    page.browser.run("document.getElementById('check').click();")
    page.browser.wait("return !document.getElementById('outcome').hidden;")
    counts.same("a record dropped", page.shown()["outcome"], "agrees")
    for text in (record.replace("drawn: 3", "drawn: 2"), "", record + "\n"):
        drop(page, "check-text", "record.txt", text.encode())
        page.browser.wait("return document.getElementById('check-text').value === arguments[0];", text)
        counts.same("no outcome of the record before", page.shown()["outcome"], "")
        page.check(record)


def records_beside_the_field(counts: Counts, page: Page) -> None:
    """A record is dropped anywhere on its step. One that cannot be read, such as a folder, is an error."""
    drawn(page)
    record = page.shown()["record"].encode()
    page.tab("check")
    for element in ("check-hint", "check-heading", "check-text"):
        page.browser.run("document.getElementById('check-text').value = '';")
        drop(page, element, "record.txt", record)
        page.browser.wait("return document.getElementById('check-text').value === arguments[0];", record.decode())
        counts.same(f"a record dropped on {element}", page.facts()["entrants"], "12 entrants")
    error = "return document.getElementById('record-error').innerText;"
    page.browser.run("""window.read = Blob.prototype.arrayBuffer;
        Blob.prototype.arrayBuffer = () => Promise.reject(new Error("a folder"));""")
    drop(page, "check-text", "folder", b"")
    page.browser.wait("return !document.getElementById('record-error').hidden;")
    counts.same("a record that cannot be read", page.browser.run(error), "The file cannot be read.")
    page.browser.run("Blob.prototype.arrayBuffer = window.read;")
    counts.same("the next one", (page.check(record.decode())["outcome"], page.browser.run(error)), ("agrees", ""))


def records_dropped(counts: Counts, page: Page) -> None:
    """A record is found in a file that begins with a byte order mark, or has bytes around it that are not UTF-8."""
    drawn(page)
    record = page.shown()["record"].encode()
    page.tab("check")
    for name, data in (("a byte order mark", b"\xef\xbb\xbf" + record), ("Windows", record.replace(b"\n", b"\r\n")),
                       ("Latin-1 above", b"Gr\xfc\xdfe\n" + record), ("Latin-1 below", record + b"\nGr\xfc\xdfe"),
                       ("a letter cut off", record + b"\xe2\x82"), ("bytes of value 0", b"\0\n" + record)):
        page.check("before")
        drop(page, "check-text", "record.txt", data)
        page.browser.wait("return document.getElementById('check-text').value !== 'before';")
        page.browser.run("document.getElementById('check').click();")
        page.browser.wait("return !document.getElementById('outcome').hidden;")
        counts.same(f"a record dropped, {name}", page.shown()["outcome"], "agrees")


def sheets(document: bytes) -> int:
    """The number of pages of a PDF, whose objects may be compressed."""
    parts = [document]
    for stream in re.findall(rb"stream\r?\n(.*?)endstream", document, re.S):
        try:
            parts.append(zlib.decompressobj().decompress(stream))
        except zlib.error:
            continue
    return len(re.findall(rb"/Type\s*/Page\b(?!s)", b"\n".join(parts)))


def on_paper(counts: Counts, page: Page, name: str, wanted: List[str]) -> None:
    """The page prints on one sheet, with only the wanted parts."""
    counts.same(f"sheets of paper, {name}", sheets(page.browser.printed()), 1)
    if page.browser.media("print"):
        frame = ["paper-title", "paper-date", "signatures"]
        counts.same(f"on paper, {name}", page.browser.run(ON_PAPER), [*wanted, *frame])
        counts.same(f"no focus on paper, {name}", page.browser.run(FRAMED, wanted[0]), "none")
        page.browser.media()


def paper(counts: Counts, page: Page) -> None:
    """Printed before a draw: what is to be published about the list. After it: the winners and the record. For a check:
    the record and the outcome."""
    page.load()
    page.paste(LIST)
    page.facts()
    on_paper(counts, page, "a list", ["entrants", "list-digest", "unsaved"])
    page.check("")
    on_paper(counts, page, "a check without a draw", ["outcome"])
    page.tab("draw")
    page.open_file(LIST[:-1].encode())
    page.facts()
    on_paper(counts, page, "a file with a warning", ["file-name", "entrants", "list-warnings", "list-digest"])
    drawn(page)
    on_paper(counts, page, "a draw", ["drawn", "record"])
    page.check(page.shown()["record"])
    on_paper(counts, page, "a check", ["outcome", "reading"])


def paper_of_old_browsers(counts: Counts, page: Page) -> None:
    """Browsers without the selector :has print the same parts."""
    page.load()
    page.browser.run("""
        const prune = (rules) => Array.from(rules).reverse().forEach((rule, index, { length }) => {
          if (rule.cssRules) prune(rule.cssRules);
          if (rule.selectorText?.includes(":has")) rule.parentRule ? rule.parentRule.deleteRule(length - 1 - index)
            : rule.parentStyleSheet.deleteRule(length - 1 - index);
        });
        prune(document.styleSheets[0].cssRules);""")
    page.paste(LIST)
    page.fill(SEED, "3")
    page.facts()
    if page.browser.media("print"):
        for wanted in ("list-digest", "record"):
            seen = page.browser.run("""return ["list-digest", "record"].filter((id) =>
                document.getElementById(id).checkVisibility());""")
            counts.same(f"without :has, the {wanted}", seen, [wanted])
            page.draw()
        page.browser.media()


def long_results(counts: Counts, page: Page) -> None:
    """Many winners can be scrolled on the screen, and are all printed. So is a long record in its field."""
    page.paste("".join(f"entrant {number}\n" for number in range(300)))
    page.fill(SEED, "all")
    record = page.draw()["record"]
    counts.same("winners on the screen", page.browser.run(CUT, "drawn"), [True, "auto"])
    for drawn_ones in (12, 100, 101):
        page.fill(SEED, str(drawn_ones))
        page.draw()
        counts.same(f"{drawn_ones} winners are all seen", page.browser.run(CUT, "drawn")[0], drawn_ones > 100)
    page.fill(SEED, "all")
    page.draw()
    counts.same("the record on the screen", page.browser.run(CUT, "record")[0], False)
    if page.browser.media("print"):
        counts.same("winners on paper", page.browser.run(CUT, "drawn")[0], False)
        page.check(record)
        counts.same("a check on paper", page.browser.run(CUT, "outcome")[0], False)
        page.browser.media()
        page.tab("draw")


def by_keyboard(counts: Counts, page: Page) -> None:
    """A draw of 100 entrants and its check, with the keyboard only, take less than a minute."""
    page.load()
    begun = time.monotonic()

    def go(element: str, back: bool = False) -> None:
        for _ in range(40):
            page.browser.press_with(SHIFT, TAB) if back else page.browser.press(TAB)
            if focused(page) == element:
                return
        raise AssertionError(f"Tab does not reach {element}")

    go("list-text")
    for first in range(0, 100, 50):
        page.browser.press("".join(f"n{number}{ENTER}" for number in range(first, first + 50)))
    go("seed")
    page.browser.press("4 1 6")
    go("count")
    page.browser.press("5" + ENTER)
    page.browser.wait("return document.activeElement.id === 'result-title';")
    counts.same("100 entrants", (page.shown()["entrants"], len(page.shown()["drawn"])), ("100 entrants", 5))
    go("copy-record")
    page.browser.press(SPACE)
    page.browser.wait("return document.getElementById('copy-record').textContent === 'Copied';")
    go("tab-draw", back=True)
    page.browser.press(ARROW_RIGHT)
    go("check-text")
    page.browser.press_with(CONTROL, "v")
    go("check")
    page.browser.press(SPACE)
    page.browser.wait("return !document.getElementById('outcome').hidden;")
    counts.same("its check", page.shown()["outcome"], "agrees")
    seconds = time.monotonic() - begun
    counts.case("in a minute", "" if seconds < 60 else f"{seconds:.0f} s")


def run(counts: Counts, page: Page) -> None:
    for part in (tabs, winners_first, numbers_of_winners, details, enter_draws, paper, paper_of_old_browsers,
                 long_results, by_keyboard):
        part(counts, page)
    with page.unpainted():
        for part in (files_dropped, records_dropped, records_beside_the_field):
            part(counts, page)
