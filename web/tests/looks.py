"""Widths, colours, names for screen readers, the keyboard, what the page says about a list, and no network requests."""

import http.server
import threading
from pathlib import Path
from typing import List, Optional

from announced import opened
from announcements import KNOWN
from announcing import CHOOSE, begun, pressed
from counts import Counts
from drivers import ENTER, SPACE, TAB
from page import Page

LABELS = {
    "open-file": "Open a file", "list-text": "or paste the list", "seed": "Seed",
    "count": "How many are drawn",
    "record": "The record: with it and the list, anyone can repeat the draw", "check-text": "Record",
    "draw": "Draw", "check": "Check", "copy-digest": "Copy the SHA-256", "save-list": "Save the list",
    "copy-record": "Copy the record", "save-record": "Save the record", "save-result": "Save the result",
    "tidy-empty": "Remove the empty lines", "tidy-trim": "Remove spaces at the ends of lines",
    "tidy-unique": "Remove equal lines", "tab-draw": "Hold a draw", "tab-check": "Check a draw", "print": "Print",
    "print-list": "Print the SHA-256", "occasion": "Occasion", "winners": "Winners", "reserves": "Reserves",
    "preset": "Where the seed comes from", "preset-throws": "Number of throws", "source": "Source of the seed",
    "form": "Form of the seed", "example": "Example of a seed", "time": "Time and place",
    "save-announcement": "Save the announcement", "print-announcement": "Print the announcement",
    "check-announcement": "Announcement, if there was one",
}
HIDDEN = ["check-text", "check-announcement", "check"]
ORDER = ["tab-draw", "open-file", "list-text", "tidy-empty", "tidy-trim", "tidy-unique", "copy-digest",
         "save-list", "print-list", "occasion", "winners", "reserves", "preset", "preset-throws", "source", "form",
         "example", "time", "save-announcement", "print-announcement", "seed", "count", "draw", "drawn", "record",
         "copy-record", "save-record", "save-result", "print"]
COLOURS = """
const number = (colour) => colour.match(/[\\d.]+/g).map(Number);
const light = (colour) => {
  const [red, green, blue] = number(colour).slice(0, 3).map((part) => part / 255)
    .map((part) => part <= 0.04045 ? part / 12.92 : ((part + 0.055) / 1.055) ** 2.4);
  return 0.2126 * red + 0.7152 * green + 0.0722 * blue;
};
const behind = (element) => {
  for (let at = element; at; at = at.parentElement) {
    const colour = getComputedStyle(at).backgroundColor;
    if (number(colour)[3] !== 0) return colour;
  }
  return "rgb(255, 255, 255)";
};
const low = (elements, least, colours) => Array.from(document.querySelectorAll(elements))
  .filter((element) => element.checkVisibility() && !element.disabled).map((element) => {
    const two = colours(element).map(light);
    return [element.id || element.tagName, (Math.max(...two) + 0.05) / (Math.min(...two) + 0.05)];
  }).filter(([, contrast]) => contrast < least);
"""
# The contrast of texts with their background, and of the borders of fields and buttons, and of the selected tab, with
# their surroundings.
CONTRAST = COLOURS + """
return [
  ...low("p, li, label, h1, h2, h3, code, pre, summary, textarea, input, select, button, strong", 4.5,
    (element) => [getComputedStyle(element).color, behind(element)]),
  ...low("textarea, select, input:not([type=file]), button:not([role=tab])", 3,
    (element) => [getComputedStyle(element).borderTopColor, behind(element.parentElement)]),
  ...low("[role=tab][aria-selected=true]", 3,
    (tab) => [getComputedStyle(tab).borderBottomColor, behind(tab.parentElement)]),
];
"""
LAST_IS_LEFT = """
const [text] = document.querySelector("#drawn li").childNodes;
const left = (place) => {
  const range = document.createRange();
  range.setStart(text, place);
  range.setEnd(text, place + 1);
  return range.getBoundingClientRect().left;
};
return left(text.length - 1) < left(0);
"""
# What extends out of its card or of the window, and what has to be scrolled sideways.
WIDE = """
const shown = Array.from(document.querySelectorAll("body *")).filter((element) => element.checkVisibility());
const right = (element) => element.getBoundingClientRect().right;
const edge = (element) => element ? right(element) : innerWidth;
const name = (element) => element.id || element.tagName;
return [
  ...shown.filter((element) => !element.closest("pre, ol") &&
    right(element) > edge(element.parentElement.closest("section")) + 0.5),
  ...shown.filter((element) => element.scrollWidth > element.clientWidth + 1 &&
    !element.matches("textarea, input, #heard") && getComputedStyle(element).overflowX !== "visible"),
].map(name);
"""
# Whether the list is beside the second step, and whether it is above it.
PLACES = """
const [one, other] = Array.from(document.querySelectorAll("#panel > .columns > section"))
  .filter((section) => section.checkVisibility()).map((section) => section.getBoundingClientRect());
return [one.right <= other.left, one.bottom <= other.top];
"""
# Visible elements without a text.
EMPTY = """
return Array.from(document.querySelectorAll("p, ul, ol, pre, h1, h2, h3, label, details, section")).filter((element) =>
  element.checkVisibility() && element.id !== "heard" && element.textContent.trim() === "")
  .map((element) => element.id || element.tagName);
"""
# Errors, warnings and the like that have no colour of their own, but should have one.
COLOURED = """
const colour = (element) => getComputedStyle(element).color;
const wanted = ["[role=alert]", ".error", "#list-warnings", "#check-warnings", ".unseen",
  ...["agrees", "differs", "no record"].map((outcome) => `[data-outcome="${outcome}"]`)];
return Array.from(document.querySelectorAll(wanted.join()))
  .filter((element) => element.checkVisibility() && colour(element) === colour(document.body))
  .map((element) => element.id || element.className);
"""
LONG = "W" * 300 + "\nAda\nBarbara\r\n Chidi\nAda\n\\\n"


def before(page: Page) -> None:
    page.load()


def after(page: Page) -> None:
    page.open_file(LONG.encode())
    page.fill("4 1 6 3 3 2 5 6 é" + "w" * 100, "all")
    page.draw()


def checked(page: Page) -> None:
    page.check(page.shown()["record"].replace("drawn: 6", "drawn: 7"))


def refused(page: Page) -> None:
    page.tab("draw")
    page.open_file(b"a\n\nb\n")
    page.facts()
    page.fill("", "1,000")
    page.draw()


def announced_late(page: Page) -> None:
    """An announcement that is out of date, with a long text and an error."""
    begun(page, source="W" * 300)
    page.browser.run(CHOOSE, "several")
    page.put(source="W" * 300)
    pressed(page, "save-announcement")
    page.put(time="")
    page.browser.run("document.getElementById('save-announcement').click();")


def drawn_as_announced(page: Page) -> None:
    """A draw with reserves, and then another list and another count."""
    begun(page)
    opened(page, KNOWN.encode())
    page.fill("W" * 100)
    page.draw()
    page.fill(count="5")
    page.draw()


def winners_and_reserves(page: Page) -> None:
    opened(page, KNOWN.encode())
    page.draw()


def widths_and_colours(counts: Counts, page: Page, pictures: Optional[Path]) -> None:
    for state in (before, after, checked, refused, announced_late, drawn_as_announced, winners_and_reserves):
        state(page)
        for dark in (False, True):
            page.browser.dark(dark)
            for width in (360, 1440):
                width_and_colour(counts, page, pictures, width, dark, state.__name__)
    page.browser.dark(False)
    page.browser.size(1000, 900)


def width_and_colour(counts: Counts, page: Page, pictures: Optional[Path], width: int, dark: bool,
                     state: str) -> None:
    page.browser.size(width, 900)
    name = f"{state} {width} {'dark' if dark else 'light'}"
    found = page.browser.run("return [innerWidth, document.documentElement.scrollWidth];")
    counts.case(f"the width {name}", "" if found[0] == width and found[1] <= width else str(found))
    counts.same(f"nothing is cut off, {name}", page.browser.run(WIDE), [])
    counts.same(f"the steps, {name}", page.browser.run(PLACES), [width > 1000, width < 1000])
    counts.same(f"texts of nothing, {name}", page.browser.run(EMPTY), [])
    counts.same(f"contrast, {name}", page.browser.run(CONTRAST), [])
    counts.same(f"texts without a colour of their own, {name}", page.browser.run(COLOURED), [])
    colour = page.browser.run("return getComputedStyle(document.body).backgroundColor;")
    counts.same(f"background, {name}", colour, "rgb(15, 19, 24)" if dark else "rgb(246, 247, 249)")
    if pictures is not None:
        page.browser.picture(pictures / f"{page.browser.name.lower()}-{name.replace(' ', '-')}.png")


def names(counts: Counts, page: Page) -> None:
    """What a screen reader says, and that errors and progress are announced."""
    page.load()
    page.paste("a\nb\n")
    page.fill("seed", "all")
    page.facts()
    page.draw()
    for element, label in LABELS.items():
        page.tab("check" if element in HIDDEN else "draw")
        found = page.browser.label(f"#{element}")
        counts.same(f"the name of {element}", found, label)
    roles = page.browser.run("""return Object.fromEntries(Array.from(document.querySelectorAll("[id][role]"),
        (element) => [element.id, element.getAttribute("role")]));""")
    wanted = {f"{field}-error": "alert"
              for field in ("page", "list", "file", "seed", "count", "announce", "announcement", "check-announcement")}
    wanted.update({"announced-status": "status", "announcement-status": "status", "announcement-text": "region",
                   "enough-status": "status", "seed-form-status": "status",
                   "question-error": "alert", "record-error": "alert",
                   "list-status": "status", "progress-status": "status", "changed-status": "status",
                   "outcome-status": "status", "stale-status": "status",
                   "heard": "status", "panel": "tabpanel", "record": "region", "tab-draw": "tab", "tab-check": "tab"})
    counts.same("roles", roles, wanted)
    counts.same("each reference has its element", page.browser.run("""
        return Array.from(document.querySelectorAll("[aria-describedby], [aria-labelledby], label[for]"))
          .flatMap((element) => [element.getAttribute("aria-describedby"), element.getAttribute("aria-labelledby"),
            element.getAttribute("for")]).filter(Boolean).flatMap((ids) => ids.split(" "))
          .filter((id) => !document.getElementById(id));"""), [])
    counts.same("what scrolls is reached by keys and has a name", page.browser.run("""
        return Array.from(document.querySelectorAll("pre, #drawn, #reserves-drawn, #preview"))
          .filter((element) => element.tabIndex !== 0 ||
            !(element.ariaLabel || element.getAttribute("aria-labelledby")))
          .map((element) => element.outerHTML);"""), [])
    counts.same("each field has a label", page.browser.run("""
        return Array.from(document.querySelectorAll("input:not([hidden]), textarea, select"))
          .filter((field) => field.labels.length === 0).map((field) => field.id);"""), [])


def reached(page: Page) -> List[str]:
    """The elements that the Tab key reaches, from the tab on."""
    page.browser.run("document.getElementById(arguments[0]).focus();", ORDER[0])
    places = [ORDER[0]]
    while len(places) < len(ORDER):
        page.browser.press(TAB)
        places.append(page.browser.run("return document.activeElement.id || document.activeElement.tagName;"))
    return places


def keyboard(counts: Counts, page: Page) -> None:
    """A draw and its check without a mouse: Tab reaches everything in the order of the page, Space presses."""
    page.load()

    def go(element: str) -> None:
        for _ in range(40):
            page.browser.press(TAB)
            if page.browser.run("return document.activeElement.id;") == element:
                return
        raise AssertionError(f"Tab does not reach {element}")

    page.browser.run("document.activeElement.blur();")
    go("list-text")
    page.browser.press(f"a{ENTER}b{ENTER}c")
    go("seed")
    page.browser.press("seed")
    go("count")
    page.browser.press("2")
    go("draw")
    page.browser.press(SPACE)
    page.browser.wait('return document.getElementById("record").textContent;')
    counts.same("after a draw the keyboard is at the result",
                page.browser.run("return document.activeElement.id;"), "result-title")
    shown = page.shown()
    counts.same("a draw by keyboard", (shown["entrants"], len(shown["drawn"])), ("3 entrants", 2))
    counts.same("the order of Tab", reached(page), ORDER)
    ring = page.browser.run("""document.getElementById("draw").focus({focusVisible: true});
        return getComputedStyle(document.getElementById("draw")).outlineWidth;""")
    counts.same("the focus is seen", ring, "3px")
    page.browser.press(ENTER)
    page.browser.wait("return document.activeElement.id === 'result-title';")
    ring = page.browser.run("return getComputedStyle(document.activeElement).outlineStyle;")
    counts.same("the focus is seen after a draw", ring, "solid")


def directions(counts: Counts, page: Page) -> None:
    """A name is read in the direction of its first letter, whatever is around it."""
    ada = "\u05d0\u05d3\u05d4"
    for entrant, is_left in (("Ada!", False), ("7 Ada (7)", False), (f"Ada {ada}!", False), (f"{ada}!", True),
                             ("\u0639\u0644\u064a!", True), (f"7 {ada}!", True), (f"{ada} Ada!", True)):
        page.paste(f"{entrant}\n")
        page.fill("seed", "all")
        page.draw()
        counts.same(f"the direction of {entrant!r}", page.browser.run(LAST_IS_LEFT), is_left)


def forced_colours(counts: Counts, page: Page) -> None:
    """If the user's own colours replace the page's, the selected tab still differs."""
    page.load()
    if page.browser.media(forced_colors="active"):
        for tab in ("draw", "check"):
            page.tab(tab)
            found = page.browser.run(COLOURS + """return [
                ...low("[role=tab][aria-selected=true]", 3,
                  (tab) => [getComputedStyle(tab).borderBottomColor, behind(tab.parentElement)]),
                ...low("[role=tab]", 4.5, (tab) => [getComputedStyle(tab).color, behind(tab)])];""")
            counts.same(f"forced colours, {tab}", found, [])
        page.browser.media()


def said_of_lists(counts: Counts, page: Page) -> None:
    page.load()
    cases = {
        b"a\r\nb\r\n": ["2 lines end with a carriage return"], b"a\r\nb\n": ["1 line ends with a carriage return"],
        b" a\nb \n\tc\n": ["3 lines begin or end with a space"],
        b"a\nb\na\na\n": ["2 of the lines equal an earlier line: look at line 3."],
        b"a\na\n": ["1 of the lines equals an earlier"], b"a\nb": ["The last line has no line end"],
        b"\xef\xbb\xbfa\n": ["The list begins with an invisible mark"],
        b"a\0\nb\n": ["The list has characters of value 0", "1 line has other invisible characters"],
        b"\xff\n": ["The list is not UTF-8"], b"a\nb\n": [], b"\xc3\xa9\n\xe2\x82\xac\n": [],
        b"\xff\na\r\na\r": ["The list is not UTF-8", "The last line", "2 lines end", "1 of the lines"],
    }
    for data, begins in cases.items():
        page.open_file(data)
        shown = page.facts()
        found = shown["warnings"]
        right = len(found) == len(begins) and all(one.startswith(begin) for one, begin in zip(found, begins))
        counts.case(f"warnings of {data!r}", "" if right else str(found))
    for seed, read in (("plain seed", ""), (" x", 'The seed is read as " x".'),
                       ("x\t", 'The seed is read as "x\\x09".'), ("4 1  6", 'The seed is read as "4 1  6".'),
                       ("   x", 'The seed is read as "   x".'),
                       ("é", 'The seed is read as "é".'), ("\u200b", 'The seed is read as "\\xe2\\x80\\x8b".')):
        page.fill(seed)
        shown = page.shown()["read"]
        right = shown.startswith(read) and bool(read) == bool(shown)
        counts.case(f"the seed {seed!r} is shown", "" if right else f"{shown!r} and not {read!r}")


def no_request(counts: Counts, page: Page) -> None:
    """Nothing is sent to the network, even if a script in the page tries it."""
    asked: List[str] = []

    class Server(http.server.BaseHTTPRequestHandler):
        def do_GET(self) -> None:
            asked.append(self.path)
            self.send_response(200)
            self.end_headers()

        def log_message(self, *_: object) -> None:
            pass

    # A browser may connect without a request. Each connection has a thread, so that no other one waits for it.
    server = http.server.ThreadingHTTPServer(("127.0.0.1", 0), Server)
    threading.Thread(target=server.serve_forever, daemon=True).start()
    page.browser.run("""
        const address = arguments[0];
        window.refused = [];
        document.addEventListener("securitypolicyviolation", (event) => refused.push(event.effectiveDirective));
        fetch(address + "fetch").catch(() => {});
        new Image().src = address + "image";
        const add = (tag, values) => document.body.append(Object.assign(document.createElement(tag), values));
        add("script", {src: address + "script"});
        add("link", {rel: "stylesheet", href: address + "style"});
        add("iframe", {src: address + "frame"});
        add("script", {textContent: "window.inline = true;"});
        """, f"http://127.0.0.1:{server.server_port}/")
    page.browser.wait("return window.refused.length >= 6;", seconds=20)
    counts.same("no request", asked, [])
    counts.same("no other script", page.browser.run("return window.inline ?? null;"), None)
    server.shutdown()
    page.load()
    page.browser.errors()


def run(counts: Counts, page: Page, pictures: Optional[Path]) -> None:
    widths_and_colours(counts, page, pictures)
    names(counts, page)
    keyboard(counts, page)
    directions(counts, page)
    forced_colours(counts, page)
    said_of_lists(counts, page)
    no_request(counts, page)
