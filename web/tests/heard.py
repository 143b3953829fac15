"""What a screen reader announces: status elements that exist before they get a text, and their texts."""

import time
from typing import List

from counts import Counts
from drivers import BACKSPACE, TAB
from page import Page

STATUSES = {"draw": ["list-status", "announced-status", "seed-form-status", "changed-status", "progress-status",
                     "heard"],
            "check": ["list-status", "outcome-status", "progress-status", "heard"]}
# What the page says about the list in each tab: the heading, the hint, and the purpose of its SHA-256.
LIST_WORDS = {
    "draw": ["1. Close the list", "Open the file with the names, one on each line, and correct what the page finds. "
             "Then publish the list with its SHA-256 (a fingerprint: it changes if a single letter changes), before "
             "anybody knows the seed.", "SHA-256 to publish:"],
    "check": ["The list", "Open the list that was published, as a file if there is one: each byte counts.",
              "SHA-256, to compare with the one that was published:"],
}
SPACED = "1 line begins or ends with a space or a tab, which belongs to the entrant: look at line 2."
ALIKE = ("1 of the lines equals an earlier line except for the spaces at its ends: look at line 2. They are separate "
         "entrants.")


def said(page: Page, status: str) -> List[str]:
    """The lines that a status shows."""
    text = page.browser.run("return document.getElementById(arguments[0]).innerText;", status)
    return [line for line in text.split("\n") if line]


def before_they_speak(counts: Counts, page: Page) -> None:
    """A screen reader announces changes in an existing status element. It may miss one that is added with its text."""
    page.load()
    for tab, wanted in STATUSES.items():
        page.tab(tab)
        found = page.browser.run("""return Array.from(document.querySelectorAll("[role=status]"))
            .filter((status) => status.checkVisibility()).map((status) => [status.id, status.innerText.trim()]);""")
        counts.same(f"statuses of {tab}", found, [[status, ""] for status in wanted])


def of_a_list(counts: Counts, page: Page) -> None:
    """It announces the count and the warnings, but not the digits of the SHA-256, and only what changes."""
    page.load()
    page.paste("Ada\nAda \n")
    page.facts()
    counts.same("a list", said(page, "list-status"),
                ["2 entrants", SPACED, "Line 2: AdaU+0020 space", "Remove these spaces", ALIKE, "Line 1: Ada",
                 "Line 2: AdaU+0020 space"])
    page.browser.click("#tidy-trim")
    page.browser.wait("return !document.getElementById('tidied').hidden;")
    page.facts()
    counts.same("a change", said(page, "list-status"), [
        "1 line was made shorter. The list has a new SHA-256.", "2 entrants",
        "1 of the lines equals an earlier line: look at line 2. Equal lines are separate entrants, each with its own "
        "chance.", "Lines 1 and 2: Ada"])
    atomic = page.browser.run("return document.getElementById('list-status').getAttribute('aria-atomic');")
    counts.same("changes alone are read", atomic, "false")
    page.paste("")
    counts.same("no list", said(page, "list-status"), [])


def of_a_check(counts: Counts, page: Page) -> None:
    page.load()
    shown = page.check("nonsense")
    counts.same("a check", said(page, "outcome-status"),
                [shown["outcomeTitle"], *shown["findings"], "Print the check"])


def of_copies(counts: Counts, page: Page) -> None:
    """A copy is announced beside the button, whose own text changes for two seconds."""
    page.load()
    page.paste("Ada\n")
    page.facts()
    page.browser.click("#copy-digest")
    page.browser.wait("return document.getElementById('heard').textContent !== '';")
    counts.same("a copy", said(page, "heard"), ["Copied"])
    time.sleep(2.5)
    counts.same("later", said(page, "heard"), [])
    found = page.browser.run("return getComputedStyle(document.getElementById('heard')).display;")
    counts.same("it stays in the tree", found, "block")


def of_a_seed(counts: Counts, page: Page) -> None:
    """How an odd seed is read is announced once it has been typed, not at each key."""
    page.load()
    for typed, wanted in ((" x", ['The seed is read as " x". Each space, sign and accent counts: others must type '
                                  "exactly the same."]), (BACKSPACE * 2 + "4 1 6", [])):
        before = said(page, "heard")
        page.browser.type("#seed", typed)
        counts.same(f"while {typed!r} is typed", said(page, "heard"), before)
        page.browser.press(TAB)
        counts.same(f"after {typed!r}", said(page, "heard"), wanted)


def of_tabs(counts: Counts, page: Page) -> None:
    """In the tab for a check, nothing asks the user to publish a list."""
    page.load()
    page.paste("Ada\n")
    page.facts()
    for tab in ("draw", "check", "draw"):
        page.tab(tab)
        found = page.browser.run("""return ["list-heading", "list-hint", "digest-label"].map((id) =>
            document.getElementById(id).innerText.replace(/\\n/g, " "));""")
        counts.same(f"the list of {tab}", found, LIST_WORDS[tab])


def run(counts: Counts, page: Page) -> None:
    for part in (before_they_speak, of_a_list, of_a_check, of_copies, of_a_seed, of_tabs):
        part(counts, page)
