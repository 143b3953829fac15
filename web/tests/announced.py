"""The draw that was announced, and its check: opening the announcement, refusals, warnings, winners and reserves."""

import re
from pathlib import Path
from typing import List

from announcements import EXAMPLE, KNOWN, LIST, SAMPLE, SEED, with_text, without_marks
from announcing import FIELDS, begun, pressed, saved, saved_file, seen
from counts import Counts, lots, sha256
from page import Page
from records import END, record_of
from steps import drop, sheets

NONE_NAMED = "The record names no announcement. So nothing shows that the list was closed before the seed was known."
# Reading a list takes until `letGo` is called, or fails then. An announcement is read at once.
SLOW = """
const [isLost] = arguments;
window.read = Blob.prototype.arrayBuffer;
const free = new Promise((resolve) => { window.letGo = resolve; });
Blob.prototype.arrayBuffer = async function () {
  const bytes = await window.read.call(this);
  if (new TextDecoder().decode(bytes).startsWith("nanorand")) return bytes;
  await free;
  if (isLost) throw new Error("lost");
  return bytes;
};
"""


def opened(page: Page, data: bytes, seed: str = SEED) -> None:
    """Opens an announcement, and waits until the page has it or says why not."""
    page.browser.run("""document.getElementById("announced").hidden = true;
        document.getElementById("announcement-error").hidden = true;""")
    page.open_file(data)
    page.browser.wait("""return !document.getElementById("announced").hidden ||
        !document.getElementById("announcement-error").hidden;""")
    page.fill(seed)
    if page.browser.run("return !document.getElementById('entrants').textContent;"):
        page.facts()


def whole_way(counts: Counts, page: Page, program: str, module: bytes, downloads: Path) -> None:
    """The holder announces, comes back with both files, draws and publishes; others check."""
    begun(page)
    announcement = saved_file(page, downloads)
    record = record_of(SEED, LIST, lots(program, SEED, "4", LIST).output, sha256(module), sha256(announcement))
    for order in ("the list first", "the announcement first"):
        for where in ("list-step", "draw-step", "file"):
            page.load()
            files = [("entrants.txt", LIST), ("announcement.txt", announcement)]
            for name, data in files if order == "the list first" else files[::-1]:
                drop(page, where, name, data) if where != "file" else page.open_file(data)
                if data is LIST:
                    page.facts()
                else:
                    page.browser.wait("return !document.getElementById('announced').hidden;")
            page.facts()
            counts.same(f"{order}, {where}", seen(page, "count", "announced-digest", "occasion", "announcement-error"),
                        ["4", sha256(announcement), "", ""])
            page.fill(SEED)
            shown = page.draw()
            counts.same(f"the record, {order}, {where}", shown["record"], record)
    counts.same("winners", [shown["title"], shown["drawn"]],
                ["The 3 winners, in the order drawn:", ["Katherine", "Jun", "Chidi"]])
    found = seen(page, "reserves-title", "reserves-drawn", "chance", "unannounced", "seed-form", "stale")
    counts.same("the reserve", [found[0], found[1].replace("4.", "").strip(), *found[2:]], [
        "The reserve, who takes the place of a winner who declines:", "Farid", "The chance of each entrant: 3 of 12",
        "", "", ""])
    counts.same("its number", page.browser.run("return document.getElementById('reserves-drawn').start;"), 4)
    counts.same("sheets of paper of the result", sheets(page.browser.printed()), 1)
    if page.browser.media("print"):
        on_paper = seen(page, "reserves-title", "reserves-drawn", "chance")
        counts.same("reserves on paper", [bool(one) for one in on_paper], [True] * 3)
        page.browser.media()
    page.put(check_announcement=announcement.decode())
    shown = page.check(record)
    counts.same("its check", [shown["outcome"], shown["outcomeTitle"]], [
        "agrees", "The record agrees: the same list, the announcement that it names, and the draw repeated here gives "
        "the same result. What only you can compare is said below."])
    counts.same("what was compared", [one.split(":")[0].split(" is ")[0] for one in shown["findings"]], [
        "The record fits the announcement", 'Only you can compare the seed with its source',
        'Only you can know when the announcement of "Summer raffle of the school" was published. It has to be before '
        "the seed could be known. The time that it names"])
    counts.same("sheets of paper of the check", sheets(page.browser.printed()), 1)
    counts.same("who won", seen(page, "drawn-label"), ["Winners (the first 3), and then reserves"])


# What the page prints as the occasion when a button is pressed. The browser's own printing is left out.
OCCASION = """
window.print = () => { window.occasion = document.getElementById("paper-occasion").textContent; };
document.getElementById(arguments[0]).click();
return window.occasion;
"""


def occasions(counts: Counts, page: Page) -> None:
    """The paper names the occasion if the announcement of what is printed says it. Otherwise its line is blank."""
    def printed(*buttons: str) -> List[str]:
        return [page.browser.run(OCCASION, button) for button in buttons]

    page.load()
    page.open_file(LIST)
    page.facts()
    page.fill(SEED, "4")
    shown = page.draw()
    counts.same("without an announcement", printed("print-list", "print"), ["", ""])
    page.check(shown["record"])
    counts.same("a check without an announcement", printed("print-check"), [""])
    page.tab("draw")
    opened(page, KNOWN.encode())
    counts.same("a draw before its announcement was opened", printed("print-list", "print"), [EXAMPLE.occasion, ""])
    record = page.draw()["record"]
    counts.same("an announced draw", printed("print-list", "print"), [EXAMPLE.occasion, EXAMPLE.occasion])
    page.open_file(LIST + b"Max\n")
    page.facts()
    counts.same("another list", printed("print-list"), [""])
    page.open_file(LIST)
    page.facts()
    page.browser.run("document.getElementById('take-away').click();")
    counts.same("taken away", printed("print-list", "print"), ["", ""])
    for name, announced, wanted in (("its announcement", KNOWN, EXAMPLE.occasion), ("none", "", ""),
                                    ("another", KNOWN.replace("12:00", "12:01"), ""), ("no announcement", "x", "")):
        page.put(check_announcement=announced)
        page.check(record)
        counts.same(f"a check with {name}", printed("print-check"), [wanted])


def made_here(counts: Counts, page: Page, program: str, module: bytes) -> None:
    """An announcement that was saved or printed a moment ago: the page says that it is not open, and opens it."""
    words = "You {} an announcement of this draw. Open it before you draw, so that the record names it."
    page.load()
    counts.same("nothing was saved, without a list", seen(page, "made"), [""])
    begun(page)
    counts.same("nothing was saved", seen(page, "made"), [""])
    page.browser.run("window.print = () => {};")
    for word, data in (("printed", KNOWN.encode()), ("saved", EXAMPLE._replace(time='"x"').text().encode())):
        page.put(time="x" if word == "saved" else FIELDS["time"])
        pressed(page, "print-announcement") if word == "printed" else saved(page)
        counts.same(f"it was {word}", seen(page, "made")[0].split("\n")[::2], [
            words.format(word), "Open this announcement"])
        for name, value in FIELDS.items():
            before = seen(page, name)[0]
            page.put(**{name: "2" if value.isdigit() else "another"})
            counts.same(f"{word}, and {name} has changed", seen(page, "made"), [""])
            page.put(**{name: before})
            counts.same(f"{word}, and {name} is as before", seen(page, "made-words"), [words.format(word)])
        for other in (LIST + b"Max\n", b"Ada\n\n", b""):
            page.open_file(other)
            page.browser.wait("return !document.getElementById('made').checkVisibility();")
            page.facts()
            counts.same(f"{word}, and the list {other!r}", seen(page, "made"), [""])
            page.open_file(LIST)
            page.browser.wait("return document.getElementById('made').checkVisibility();")
        page.tab("check")
        counts.same(f"{word}: not in a check", seen(page, "made-words"), [""])
        page.fill(SEED, "4")
        counts.same(f"{word}, but not opened", ["SHA-256: none" in page.draw()["record"], *seen(page, "made-words")],
                    [True, words.format(word)])
        page.browser.run("""document.getElementById("announced").hidden = true;
            document.getElementById("count").value = ""; document.getElementById("open-made").click();""")
        page.browser.wait("return document.activeElement.id === 'seed';")
        counts.same(f"{word} and opened", seen(page, "made-words", "announced-digest", "count", "announcement-error"),
                    ["", sha256(data), "4", ""])
        record = page.draw()["record"]
        counts.same(f"{word}: the record", record, record_of(SEED, LIST, lots(program, SEED, "4", LIST).output,
                                                             sha256(module), sha256(data)))
        page.browser.run("document.getElementById('take-away').click();")
        counts.same(f"{word}, and taken away", seen(page, "made-words"), [words.format(word)])
        opened(page, EXAMPLE._replace(winners=2).text().encode())
        counts.same(f"{word}, and another one opened", seen(page, "made-words"), [""])
        page.browser.run("document.getElementById('take-away').click();")


def refused(counts: Counts, page: Page) -> None:
    """A draw from another list or with another number is refused until the announcement is taken away."""
    begun(page)
    opened(page, KNOWN.encode())
    other = LIST + b"Max\n"
    page.open_file(other)
    page.facts()
    wanted = (f"This list is not the announced one. The announcement names the SHA-256 {sha256(LIST)}, this list "
              f"has {sha256(other)}. Open the announced list, or take the announcement away.")
    counts.same("another list", seen(page, "announcement-error"), [wanted])
    shown = page.draw()
    counts.same("no draw from it", [shown["record"], *seen(page, "announcement-error")], ["", wanted])
    page.open_file(LIST)
    page.facts()
    counts.same("the announced list", seen(page, "announcement-error"), [""])
    for count in ("3", "5", "0", "all", "12"):
        page.fill(count=count)
        shown = page.draw()
        counts.same(f"{count} drawn", [shown["record"], shown["count"]], [
            "", "The announcement says 3 winners and 1 reserve. Type 4, or take the announcement away."])
    page.fill(count="4")
    counts.same("the announced number", sha256(KNOWN.encode()) in page.draw()["record"], True)
    page.browser.run("document.getElementById('take-away').click();")
    counts.same("taken away after a draw",
                [bool(one) for one in seen(page, "stale", "changed", "announced-words", "occasion")],
                [True, True, False, True])
    page.fill(count="5")
    shown = page.draw()
    found = "announcement SHA-256: none" in shown["record"]
    counts.same("a draw without it", [found, shown["title"], len(shown["drawn"]), *seen(
        page, "reserves-title", "chance", "unannounced", "stale")], [
        True, "5 of 12 drawn, in this order:", 5, "", "The chance of each entrant: 5 of 12", NONE_NAMED, ""])
    wrong = EXAMPLE._replace(entrants=13).text().encode()
    opened(page, wrong)
    counts.same("another number of entrants", seen(page, "announcement-error"), [
        "The announcement says that the list has 13 entrants, but it has 12. Open the right announcement, or take "
        "the announcement away."])
    counts.same("no draw of it", page.draw()["record"], "")


def unreadable(counts: Counts, page: Page) -> None:
    """A file that begins as an announcement, but is none, is an error, and no list. The list stays as it was."""
    begun(page)
    for name, data, reason in (
            ("Windows", KNOWN.replace("\n", "\r\n").encode(), "Line 1: “nanorand announcement 1” is missing."),
            ("a mark", b"\xef\xbb\xbf" + KNOWN.encode(), "Line 1: “nanorand announcement 1” is missing."),
            ("no end", KNOWN[:-1].encode(), "Line 11: the file has to end with the line feed of its last line."),
            ("two", KNOWN.encode() * 2, "Line 12: nothing may stand below the announcement."),
            ("no winner", KNOWN.replace("winners: 3", "winners: 0").encode(), "Line 5: there has to be a winner."),
            ("too many", KNOWN.replace("winners: 3", "winners: 12").encode(),
             "Line 5: 12 winners and 1 reserves are more than 12 entrants."),
            ("a zero", KNOWN.replace("reserves: 1", "reserves: 01").encode(),
             "Line 6: the value of “reserves” cannot be read. It has to be a decimal number without leading zeros."),
            ("empty", KNOWN.replace('"Summer raffle of the school"', '""').encode(),
             "Line 2: the value of “occasion” cannot be read. It must not be empty."),
            ("no UTF-8", with_text(8, b"Friday \xff").text().encode(),
             "Line 10: the value of “time” cannot be read. Its bytes are not UTF-8."),
            ("another format", KNOWN.replace("announcement 1", "announcement 2").encode(), "Line 1: “nanorand"),
            ("bytes", KNOWN.encode().replace(b"school", b"sch\xff"), "Line 1: the file is not UTF-8.")):
        opened(page, KNOWN.encode())
        opened(page, data)
        found = seen(page, "announcement-error", "announced-words")
        begin = f"This file is not an announcement as the page saves it. {reason}"
        counts.case(f"an announcement: {name}", "" if found[0].startswith(begin) and not found[1] else str(found))
        counts.same(f"the list after it: {name}", page.facts()["digest"], sha256(LIST))
    counts.same("no announcement is there", "SHA-256: none" in page.draw()["record"], True)
    for is_lost in (False, True):
        page.open_file(b"Eve\n")
        page.facts()
        page.browser.run(SLOW, is_lost)
        page.open_file(LIST)
        page.browser.run("document.getElementById('announced').hidden = true;")
        page.open_file(KNOWN.encode())
        page.browser.wait("return !document.getElementById('announced').hidden;")
        page.browser.run("window.letGo();")
        page.browser.wait("""return !document.getElementById("list-facts").hidden ||
            !document.getElementById("list-error").hidden;""")
        found = [page.shown()["digest"], page.shown()["list"]]
        counts.same(f"a list that was being read, lost: {is_lost}", found,
                    ["", "The file cannot be read."] if is_lost else [sha256(LIST), ""])
        page.browser.run("Blob.prototype.arrayBuffer = window.read;")
    page.browser.run("document.getElementById('take-away').click();")
    page.paste(KNOWN)
    page.facts(keep=False)
    counts.same("pasted as a list", page.draw(keep=False)["question"], "Answer the question about the list first.")


def forms(counts: Counts, page: Page) -> None:
    """A seed of another form than the example is a warning, and no error."""
    begun(page)
    opened(page, KNOWN.encode())
    begin = f'The seed has another form than the announced example "{SAMPLE}": '
    for seed, wanted in ((SEED[::-1], ""), ("", ""),
                         (SEED.replace("4", "9"), "The seed has the digit 9, which no die has; the example has only "
                          "1 to 6."),
                         (SEED[2:], "The seed has 19 parts between spaces, the example has 20 parts."),
                         (SEED.replace(" ", ""), "The seed has no spaces, the example has. The seed has 1 part between "
                          "spaces, the example has 20 parts."),
                         (SEED.replace("4", "x"), "The seed has small letters (a-z), the example has none.")):
        page.fill(seed)
        counts.same(f"the form of {seed!r}", seen(page, "seed-form"), [wanted and begin + wanted])
    for seed, warning in ((SEED[2:], f"{begin}The seed has 19 parts between spaces, the example has 20 parts."),
                          (SAMPLE, "The seed is the announced example.")):
        page.tab("draw")
        page.fill(seed)
        counts.same(f"the warning of {seed!r}", seen(page, "seed-form"), [warning])
        record = page.draw()["record"]
        counts.same(f"{seed!r} is drawn", f'seed: "{seed}"' in record, True)
        page.put(check_announcement=KNOWN)
        shown = page.check(record)
        counts.same(f"the check of {seed!r}", [shown["outcome"], shown["warned"]], ["agrees", [f"Warning: {warning}"]])


def dropped(page: Page, field: str, data: bytes) -> None:
    page.browser.run(f"document.getElementById('{field}').value = '';")
    drop(page, "check-hint", "some.txt", data)
    page.browser.wait(f"return document.getElementById('{field}').value;")


def check_fields(counts: Counts, page: Page, program: str, module: bytes) -> None:
    """The two fields of the check, pasted or dropped anywhere on the step, or opened with the list."""
    page.load()
    page.open_file(LIST)
    page.facts()
    record = record_of(SEED, LIST, lots(program, SEED, "4", LIST).output, sha256(module), sha256(KNOWN.encode()))
    marked = re.sub("(?m)^", "> ", KNOWN).replace("\n", " \r\n")
    counts.same("what a mail does", without_marks(marked), KNOWN)
    for name, text, wanted in (("as it is", KNOWN, "agrees"), ("of a mail", marked, "agrees"),
                               ("blank", " \n ", "agrees"),
                               ("another", KNOWN.replace("12:00", "12:01"), "differs"),
                               ("none", "x", "no announcement"), ("below a text", f"Hello\n{KNOWN}", "no announcement"),
                               ("cut", KNOWN[:-30], "no announcement"), ("the record", record, "no announcement")):
        page.put(check_announcement=text)
        counts.same(f"an announcement: {name}", page.check(record)["outcome"], wanted)
    for name, above, line, begin in (("a greeting", "Dear all,\n\n", 1, 3), ("empty lines", "\n\nHello\n", 3, 4),
                                     ("a quoted mail", "> Hello\n> ", 1, 2)):
        page.put(check_announcement=above + KNOWN)
        counts.same(f"an announcement below {name}", page.check(record)["findings"],
                    [f"Line {line}: the announcement begins in line {begin}. Remove the lines above it."])
    page.tab("check")
    for name, data, wanted in (("as it is", KNOWN.encode(), "agrees"),
                               ("Windows", KNOWN.replace("\n", "\r\n").encode(), "no announcement"),
                               ("no end", KNOWN[:-1].encode(), "no announcement")):
        dropped(page, "check-text", record.encode())
        dropped(page, "check-announcement", data)
        counts.same(f"dropped: {name}", page.check_again()["outcome"], wanted)
    for name, data in (("no end", KNOWN[:-1].encode()), ("Windows", KNOWN.replace("\n", "\r\n").encode()),
                       ("a mark", b"\xef\xbb\xbf" + KNOWN.encode())):
        dropped(page, "check-announcement", data)
        page.put(check_announcement=KNOWN)
        counts.same(f"typed after a drop: {name}", [page.shown()["outcome"], page.check_again()["outcome"]],
                    ["", "agrees"])
    page.put(check_announcement="")
    page.open_file(KNOWN.encode())
    page.browser.wait("return document.getElementById('check-announcement').value;")
    counts.same("opened beside the list", [page.facts()["digest"], page.check_again()["outcome"]],
                [sha256(LIST), "agrees"])
    page.put(check_announcement="")
    counts.same("without it", page.check_again()["warned"], [
        "Warning: The record names an announcement, which was not compared. Paste it above or drop its file there, and "
        "check again."])


def many(counts: Counts, page: Page, program: str, module: bytes) -> None:
    """More winners and reserves than a record names."""
    data = b"".join(b"%d\n" % number for number in range(1500))
    for winners, reserves in page.share(((1, 0), (999, 3), (1000, 1), (1001, 2), (1500, 0), (1, 1499))):
        announced = EXAMPLE._replace(digest=sha256(data), entrants=1500, winners=winners, reserves=reserves)
        page.load()
        page.open_file(data)
        page.facts()
        opened(page, announced.text().encode())
        shown = page.draw()
        drawn = winners + reserves
        wanted = record_of(SEED, data, lots(program, SEED, str(drawn), data).output, sha256(module),
                           sha256(announced.text().encode()))
        counts.same(f"{winners} and {reserves}", [shown["record"] == wanted, len(shown["drawn"]), page.browser.run(
            "return document.getElementById('reserves-drawn').children.length;")],
            [True, min(winners, 1000), max(0, min(drawn, 1000) - winners)])
        page.put(check_announcement=announced.text())
        counts.same(f"{winners} and {reserves}: a check", page.check(shown["record"])["outcome"], "agrees")
    counts.same("the last line", END in shown["record"], True)


def run(counts: Counts, page: Page, program: str, module: bytes, downloads: Path) -> None:
    page.browser.size(1000, 900)
    whole_way(counts, page, program, module, downloads)
    with page.unpainted():
        made_here(counts, page, program, module)
        for part in (occasions, refused, unreadable, forms):
            part(counts, page)
        check_fields(counts, page, program, module)
        many(counts, page, program, module)
    page.load()
