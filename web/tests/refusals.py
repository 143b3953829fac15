"""Each error of the page, compared with the status of the program `lots` if it has one."""

from typing import Callable

from counts import Counts, lots
from page import Page

INVALID = "return Array.from(document.querySelectorAll('[aria-invalid]'), (field) => field.id);"
LETTERS = "a\nb\nc\nd\ne\nf\ng\nh\ni\nj\n"
LONG = "a\n" * 70_000
NO_NUMBER = "Type only digits, without a sign, a space or a comma, or the word all."
TOO_LARGE = "This number is too large: at most 18446744073709551615."


def too_few(entrants: int, count: str) -> str:
    return f"Cannot draw {count}: the list has only {entrants} {'entrant' if entrants == 1 else 'entrants'}."


def empty(line: int) -> str:
    return f"Line {line} is empty. Each line of the list must have an entrant."


def half(line: int) -> str:
    return f"Line {line} has half of a character, as a broken copy leaves it. Copy the list again."


def refused(counts: Counts, page: Page, name: str, field: str, words: str) -> None:
    """Draws. The text is shown only at the field, there is no result, and the field has the focus."""
    shown = page.draw()
    said = {key: shown[key] for key in ("page", "list", "question", "seed", "count", "record", "title") if shown[key]}
    counts.same(name, said, {field: words})
    focus = {"list": "list-text"}.get(field, field)
    counts.same(f"{name}: focus", page.browser.run("return document.activeElement.id;"), focus)
    counts.same(f"{name}: aria", page.browser.run(
        "return document.getElementById(arguments[0]).getAttribute('aria-invalid');", focus), "true")


def counts_refused(counts: Counts, page: Page, program: str) -> None:
    page.paste(LETTERS)
    page.fill("seed", "")
    refused(counts, page, "an empty count", "count", "Type how many are drawn: a number, or the word all.")
    for count in ("-", "+", "-0", "-1", "+1", "1.5", "1e0", "0x1", "1_0", "1,0", " 1", "1 ", "ALL", "All", "al",
                  "alll", " all", "-all", "a", "*", "٣", "１"):
        page.fill("seed", count)
        refused(counts, page, f"the count {count!r}", "count", NO_NUMBER)
        counts.same(f"the count {count!r} of lots", lots(program, "seed", count, LETTERS.encode()).status, 2)
    for count in (str(2**64), "0" + str(2**64), "9" * 41):
        page.fill("seed", count)
        refused(counts, page, f"the count {count}", "count", TOO_LARGE)
        counts.same(f"the count {count} of lots", lots(program, "seed", count, LETTERS.encode()).status, 2)
    for text, count, said in ((LETTERS, "11", "11"), ("only", "2", "2"), (LETTERS, str(2**64 - 1), str(2**64 - 1)),
                              ("a\n", "00002", "2"), (LETTERS, str(2**32), str(2**32))):
        page.paste(text)
        page.fill("seed", count)
        entrants = len(text.split())
        refused(counts, page, f"{count} of {entrants}", "count", too_few(entrants, said))
        ran = lots(program, "seed", count, text.encode())
        counts.same(f"{count} of {entrants} by lots", (ran.status, ran.error),
                    (3, f"lots: {entrants} entrants, {said} asked for\n"))


def seeds_refused(counts: Counts, page: Page) -> None:
    page.paste(LETTERS)
    page.fill("", "all")
    refused(counts, page, "an empty seed", "seed", "The seed is empty. Type at least one character.")
    words = "The seed has half of a character, as a broken copy leaves it. Type the seed again."
    for number, seed in enumerate(('"\\ud83d"', '"a\\ude00b"', '"\\ude00\\ud83d"')):
        page.browser.run("""document.getElementById("seed").value = JSON.parse(arguments[0]);
            document.getElementById("seed").dispatchEvent(new Event("input"));""", seed)
        refused(counts, page, f"half a character in seed {number}", "seed", words)


def lists_refused(counts: Counts, page: Page, program: str) -> None:
    for text, line in (("\na\nb\n", 1), ("a\n\nb\n", 2), ("a\nb\n\n", 3), ("\n", 1), ("a\n\n\nb", 2),
                       (LETTERS + "\n", 11), (LONG + "\n", 70001)):
        ran = lots(program, "seed", "all", text.encode())
        counts.same(f"line {line} by lots", (ran.status, ran.error), (4, f"lots: line {line} is empty\n"))
        # A browser takes long to show so many lines in a field.
        for way in ("pasted", "a file") if text != LONG + "\n" else ("a file",):
            page.paste(text) if way == "pasted" else page.open_file(text.encode())
            counts.same(f"line {line} is seen at once, {way}", page.facts()["list"], empty(line))
            page.fill("seed", "all")
            shown = page.draw()
            counts.same(f"line {line}, {way}", (shown["list"], shown["record"], shown["digest"]), (empty(line), "", ""))
            field = "list-text" if way == "pasted" else "open-file"
            counts.same(f"line {line}, {way}: focus", page.browser.run("return document.activeElement.id;"), field)
            counts.same(f"line {line}, {way}: aria", page.browser.run(INVALID), [field] if way == "pasted" else [])
        page.paste("")
        counts.same("no field is invalid", page.browser.run(INVALID), [])
    page.browser.run("""document.getElementById("list-text").value = "a\\nb\\ud83d\\n";
        document.getElementById("list-text").dispatchEvent(new Event("input"));""")
    counts.same("half a character", page.facts()["list"], half(2))
    refused(counts, page, "half a character in the list", "list", half(2))
    page.paste("a\n")
    counts.same("an error goes with its cause", page.facts()["list"], "")
    page.paste("")
    page.fill("seed", "all")
    refused(counts, page, "no list", "list", "Open or paste the list first.")
    page.paste("a\n")
    counts.same("an error goes with a list", page.facts()["list"], "")


def stale_results(counts: Counts, page: Page) -> None:
    """A result and an outcome disappear once the list changes. If the seed or the count changes, the result is marked
    as that of before, until they are what they were. A late answer is not shown."""
    for field, value in (("list-text", "a\nb\nc\n"), ("seed", "other"), ("count", "1"), ("check-text", "other")):
        page.paste("a\nb\n")
        page.fill("seed", "all")
        shown = page.draw()
        counts.same(f"{field}: a result, and no hint", (shown["record"] != "", shown["hint"]), (True, ""))
        counts.same(f"{field}: an outcome", page.check(shown["record"])["outcome"], "agrees")
        page.browser.run("""document.getElementById(arguments[0]).value = arguments[1];
            document.getElementById(arguments[0]).dispatchEvent(new Event("input"));""", field, value)
        counts.same(f"{field}: no outcome of before", page.shown()["outcome"], "")
        page.tab("draw")
        shown = page.shown()
        if field == "list-text":
            counts.same(f"{field}: no result of before", (shown["record"], shown["title"]), ("", ""))
            counts.same(f"{field}: the hint again", shown["hint"],
                        "The list has changed since the draw. Draw again, or open the list of the draw.")
            page.paste("a\nb\n")
            page.facts()
            counts.same(f"{field}: the list of the draw again", len(page.shown()["drawn"]), 2)
        elif field != "check-text":
            counts.same(f"{field}: the result of before", len(shown["drawn"]), 2)
            counts.same(f"{field}: marked where it is typed", page.browser.run(
                "return document.getElementById('changed').innerText;"),
                "The winners below belong to the seed and the number before this change.")
            counts.same(f"{field}: marked", shown["stale"].split(",")[0],
                        'These winners belong to the seed "seed" and the number all')
            page.fill("seed", "all")
            counts.same(f"{field}: no mark", page.shown()["stale"], "")
            page.fill(**{field: value})
            counts.same(f"{field}: a new draw", page.draw()["stale"], "")
    page.open_file(LONG.encode())
    page.facts()
    page.fill("seed", "all")
    page.browser.run("""document.getElementById("draw").click();
        document.getElementById("seed").value = "later";
        document.getElementById("seed").dispatchEvent(new Event("input"));""")
    page.browser.wait('return !document.getElementById("draw").disabled;')
    counts.same("a late answer", page.shown()["record"], "")


def run(counts: Counts, page: Page, program: str) -> None:
    page.load()
    parts: "list[Callable[[], None]]" = [
        lambda: counts_refused(counts, page, program), lambda: seeds_refused(counts, page),
        lambda: lists_refused(counts, page, program), lambda: stale_results(counts, page)]
    for part in parts:
        part()
