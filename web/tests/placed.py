"""Files that are opened or dropped: each goes where its first line says, and what is in a wrong place is said."""

import re
import shlex
import subprocess
import time
from itertools import permutations, product
from typing import Dict, List

from announcements import KNOWN, LIST, SEED
from announcing import seen
from counts import Counts, lots, sha256
from drivers import DriverError
from page import Page
from records import old_record, record_of
from steps import drop, focused

OTHER_LIST = b"Max\nNora\nOtto\n"
A_RECORD = "This is a record of a draw. To check it, use the tab Check a draw."
NONE = "This file is no announcement: it does not begin with “nanorand announcement”."
KINDS = ("list", "record", "announcement")
NOT_COMPARED = ("Warning: The record names an announcement, which was not compared. Paste it above or drop its file "
                "there, and check again.")
UNANNOUNCED = ("Warning: The record names no announcement. So nothing in it shows that the list was closed before the "
               "seed was known.")
DROP_ALL = """
const [id, files] = arguments;
const data = new DataTransfer();
for (const [name, bytes] of files) data.items.add(new File([Uint8Array.from(bytes)], name));
const event = new DragEvent("drop", { dataTransfer: data, bubbles: true, cancelable: true });
document.getElementById(id).dispatchEvent(event);
"""
# Keeps what a screen reader was told last.
LISTEN = """
window.told = "";
new MutationObserver(() => { window.told = document.getElementById("heard").textContent || window.told; })
  .observe(document.getElementById("heard"), { childList: true });
"""

# Reads a file as slowly as its name says, in milliseconds; without a number at once. One named "lost" cannot be read.
WAIT = """
window.read = Blob.prototype.arrayBuffer;
Blob.prototype.arrayBuffer = async function () {
  const name = this.name ?? "";
  await new Promise((done) => setTimeout(done, Number.parseInt(name, 10) || 0));
  if (name.includes("lost")) throw new Error("lost");
  return window.read.call(this);
};
window.cut = Blob.prototype.slice;
Blob.prototype.slice = function (...range) {
  return Object.assign(window.cut.apply(this, range), { name: this.name });
};
"""


def drop_all(page: Page, element: str, files: "List[tuple[str, bytes]]") -> None:
    page.browser.run(DROP_ALL, element, [[name, list(data)] for name, data in files])


def texts_of(program: str, module: bytes) -> Dict[str, bytes]:
    """The three texts of a draw."""
    record = record_of(SEED, LIST, lots(program, SEED, "4", LIST).output, sha256(module), sha256(KNOWN.encode()))
    return {"list": LIST, "record": record.encode(), "announcement": KNOWN.encode()}


def held(page: Page) -> Dict[str, bytes]:
    """What the page has for each of the three."""
    fields = page.browser.run("""return ["check-text", "check-announcement"].map((id) =>
        document.getElementById(id).value);""")
    return {"list": str(page.shown()["digest"]).encode(), "record": fields[0].encode(),
            "announcement": fields[1].encode()}


def begin(page: Page, tab: str) -> None:
    """A page that has another list, another record and another announcement."""
    page.load()
    page.open_file(OTHER_LIST)
    page.facts()
    page.put(check_text="the record before", check_announcement="the announcement before")
    page.tab(tab)


BEFORE = {"list": sha256(OTHER_LIST).encode(), "record": b"the record before",
          "announcement": b"the announcement before"}


def wait_for(page: Page, wanted: Dict[str, bytes]) -> None:
    page.browser.wait("""const [list, record, announcement] = arguments;
        const part = (id) => document.getElementById(id);
        return part("list-digest").textContent === list && part("check-text").value === record &&
          part("check-announcement").value === announcement && !part("list-facts").hidden;""",
                      *(wanted[kind].decode() for kind in KINDS), seconds=20)


def together(counts: Counts, page: Page, texts: Dict[str, bytes]) -> None:
    """One to three files, in any order, anywhere on the page. Two of one kind are refused, and then none is taken."""
    begin(page, "check")
    dropped = [(kinds, place) for number in (1, 2, 3) for kinds in permutations(KINDS, number)
               for place in ("check-hint", *(["check-announcement", "check-text", "list-step"] if number > 1 else []))]
    for kinds, place in page.share(dropped):
        page.put(check_text="the record before", check_announcement="the announcement before")
        page.open_file(OTHER_LIST)
        wait_for(page, BEFORE)
        wanted = {**BEFORE, **{kind: texts[kind] for kind in kinds}}
        if "list" in kinds:
            wanted["list"] = sha256(LIST).encode()
        drop_all(page, place, [(f"{kind}.txt", texts[kind]) for kind in kinds])
        try:
            wait_for(page, wanted)
        except DriverError:
            pass
        counts.same(f"{kinds} dropped on {place}", held(page), wanted)
        if len(kinds) == len(KINDS):
            shown = page.check_again()
            counts.same(f"{kinds} are checked", [shown["outcome"], shown["warned"]], ["agrees", []])


def two_of_a_kind(counts: Counts, page: Page, texts: Dict[str, bytes]) -> None:
    for tab, error in (("check", "record-error"), ("draw", "file-error")):
        begin(page, tab)
        for kind in KINDS:
            others = [other for other in KINDS if other != kind]
            for files in ([(kind, "a.txt"), (kind, "b.txt")], [(kind, "a.txt"), (others[0], "o.txt"), (kind, "b.txt")],
                          [(others[1], "o.txt"), (kind, "a.txt"), (kind, "b.txt"), (others[0], "p.txt")]):
                name = f"{[one for one, _ in files]} in {tab}"
                place = "check-hint" if tab == "check" else "panel"
                page.browser.run("document.getElementById(arguments[0]).hidden = true;", error)
                drop_all(page, place, [(file, texts[one]) for one, file in files])
                page.browser.wait("return !document.getElementById(arguments[0]).hidden;", error)
                counts.same(f"{name}: what is said", seen(page, error), [
                    f"Two of these files are for the {kind}: a.txt and b.txt. Drop only one of them."])
                counts.same(f"{name}: nothing is taken", [held(page), seen(page, "announced-words")], [BEFORE, [""]])
        page.open_file(LIST)
        page.facts()
        counts.same(f"{tab}: gone after the next file", seen(page, "file-error"), [""])


def together_for_a_draw(counts: Counts, page: Page, texts: Dict[str, bytes]) -> None:
    """Under Hold a draw, a list and its announcement are opened together, and a record is not."""
    for kinds in page.share((*permutations(KINDS, 2), *permutations(KINDS, 3))):
        begin(page, "draw")
        drop_all(page, "draw-step", [(f"{kind}.txt", texts[kind]) for kind in kinds])
        page.browser.wait("return arguments[0] ? document.getElementById('announced').checkVisibility() : true;",
                          "announcement" in kinds)
        page.browser.wait("return arguments[0] ? document.getElementById('file-error').checkVisibility() : true;",
                          "record" in kinds)
        digest = sha256(LIST if "list" in kinds else OTHER_LIST)
        page.browser.wait("return document.getElementById('list-digest').textContent === arguments[0];", digest)
        found = [page.facts()["digest"], *seen(page, "file-error", "announced-digest")]
        counts.same(f"{kinds} for a draw", found, [digest, A_RECORD if "record" in kinds else "",
                                                   sha256(KNOWN.encode()) if "announcement" in kinds else ""])


def opened(counts: Counts, page: Page, texts: Dict[str, bytes]) -> None:
    """Opened as a file: in a check it goes into its field. For a draw a record is refused, and the list stays."""
    begin(page, "check")
    page.browser.run(LISTEN)
    for kind in ("record", "announcement"):
        for name, data in (("as it is", texts[kind]), ("quoted", re.sub(rb"(?m)^", b"> ", texts[kind])),
                           ("empty lines above", b"\n \n" + texts[kind]), ("a mark", b"\xef\xbb\xbf" + texts[kind])):
            page.open_file(data)
            wanted = {**BEFORE, kind: data}
            wait_for(page, wanted)
            counts.same(f"a {kind} opened, {name}", held(page), wanted)
            counts.same(f"a {kind} opened, {name}: told", page.browser.run("return window.told;"),
                        f"Opened as the {kind}")
            page.put(**{"check_text" if kind == "record" else "check_announcement": f"the {kind} before"})
    records = (texts["record"], old_record(texts["record"].decode()).encode(), b"\xef\xbb\xbf" + texts["record"],
               re.sub(rb"(?m)^", b"> ", texts["record"]), b"nanorand public draw")
    for data, before in page.share(product(records, (OTHER_LIST, b"", b"Ada\n\nBob\n"))):
        page.load()
        if before:
            page.open_file(before)
            page.browser.wait("return document.getElementById('tidy').checkVisibility();")
            if b"\n\n" not in before:
                page.facts()
        was = [page.shown()["digest"], page.shown()["list"]]
        page.open_file(data)
        page.browser.wait("return document.getElementById('file-error').checkVisibility();")
        if b"\n\n" in before:
            page.browser.wait("return document.getElementById('list-error').checkVisibility();")
        elif before:
            page.facts()
        found = [*seen(page, "file-error"), page.shown()["digest"], page.shown()["list"]]
        counts.same(f"a record for a draw, {data[:24]!r}, {before!r}", found, [A_RECORD, *was])
        page.tab("check")
        counts.same("it is not said in a check", seen(page, "file-error"), [""])
    page.load()
    page.paste(texts["record"].decode())
    page.facts(keep=False)
    counts.same("pasted as a list", seen(page, "questions")[0].split("\n")[0], A_RECORD)


def fast(counts: Counts, page: Page, texts: Dict[str, bytes]) -> None:
    """Files that are opened one after another, whichever of them is read first: all are taken, or of one kind the
    last one."""
    other = {kind: data.replace(b"school", b"town").replace(b"Chidi", b"Cid") for kind, data in texts.items()}
    cases = [(first, last, waits, place) for first in KINDS for last in KINDS for waits in ((0, 0), (400, 0), (0, 400))
             for place in ("list-step", "check-hint")]
    for first, last, waits, place in page.share(cases):
        wanted = {**BEFORE, first: texts[first], last: other[last]}
        if "list" in (first, last):
            wanted["list"] = sha256(wanted["list"]).encode()
        begin(page, "check")
        page.browser.run(WAIT)
        drop(page, place, f"{waits[0]}.txt", texts[first])
        drop(page, place, f"{waits[1]}.txt", other[last])
        try:
            wait_for(page, wanted)
        except DriverError:
            pass
        time.sleep(0.5)
        counts.same(f"{first} and {last} on {place}, {waits}", held(page), wanted)


def three_at_once(counts: Counts, page: Page, texts: Dict[str, bytes]) -> None:
    """Three files opened one after the other, read in any order. A list that was typed before comes back as it was."""
    orders = (("list", "announcement", "record"), ("announcement", "list", "record"),
              ("record", "announcement", "list"), ("record", "announcement", "record"))
    page.load()
    page.tab("check")
    page.browser.run(WAIT)
    for kinds, waits in page.share(product(orders, permutations((0, 300, 600)))):
        page.paste(OTHER_LIST.decode())
        page.facts()
        page.put(check_text="", check_announcement="")
        for kind, wait in zip(kinds, waits):
            drop(page, "list-step", f"{wait}.txt", texts[kind])
        wanted = {"list": sha256(LIST if "list" in kinds else OTHER_LIST).encode(), "record": texts["record"],
                  "announcement": texts["announcement"]}
        try:
            wait_for(page, wanted)
        except DriverError:
            pass
        time.sleep(0.1)
        name = f"{waits[kinds.index('list')]}.txt, {len(LIST)} bytes" if "list" in kinds else ""
        counts.same(f"{kinds}, read after {waits}", [held(page), *seen(page, "file-name")], [wanted, name])


def lost(counts: Counts, page: Page, texts: Dict[str, bytes]) -> None:
    """A file that cannot be read stays an error when a record is opened after it, and goes with the next list."""
    for waits in ((0, 0), (400, 0), (0, 400)):
        begin(page, "check")
        page.browser.run(WAIT)
        drop(page, "list-step", f"{waits[0]}lost.txt", LIST)
        drop(page, "list-step", f"{waits[1]}.txt", texts["record"])
        page.browser.wait("return document.getElementById('check-text').value === arguments[0] && "
                          "document.getElementById('list-error').checkVisibility();", texts["record"].decode())
        time.sleep(0.1)
        counts.same(f"a lost list, {waits}", [held(page), page.shown()["list"]],
                    [{**BEFORE, "list": b"", "record": texts["record"]}, "The file cannot be read."])
        drop(page, "list-step", "list.txt", LIST)
        counts.same(f"the next one, {waits}", [page.facts()["digest"], page.shown()["list"]], [sha256(LIST), ""])


def below_a_mail(counts: Counts, page: Page, texts: Dict[str, bytes]) -> None:
    """A file with a record below other text is the record in a check, and a list for a draw."""
    for name, text in (("a mail", b"Dear all,\n\n" + texts["record"]),
                       ("quoted", b"She wrote:\n" + re.sub(rb"(?m)^", b"> ", texts["record"])),
                       ("Windows", (b"Hello\n" + texts["record"]).replace(b"\n", b"\r\n")),
                       ("bytes", b"\xff\xfe\n" + texts["record"])):
        begin(page, "check")
        page.put(check_announcement="")
        page.open_file(text)
        page.browser.wait("return document.getElementById('check-text').value !== 'the record before';")
        page.open_file(LIST)
        page.facts()
        shown = page.check_again()
        counts.same(f"{name}, in a check", [shown["outcome"], shown["digest"]], ["agrees", sha256(LIST)])
        begin(page, "draw")
        page.open_file(b"Eve\nUna\n" + texts["record"].replace(b"\n\n", b"\n"))
        found = page.facts(keep=False)["digest"]
        counts.same(f"{name}, for a draw", found != sha256(OTHER_LIST), True)


def words_of_titles(counts: Counts, page: Page, texts: Dict[str, bytes]) -> None:
    """Lines that only contain the words of a title are entrants. A title below many of them is found."""
    words = b"x nanorand public draw 2\nnanorand public draw 2x\nnanorand announcement 1x\n" * 1000
    for name, data, kind in (("nothing", words, "list"), ("no line feed", words + b"nanorand public draw 2", "list"),
                             ("a record", words + texts["record"], "record"),
                             ("a quoted title", words + b"> \tnanorand public draw 1 \r\n", "record"),
                             ("an announcement", words + texts["announcement"], "announcement")):
        begin(page, "check")
        page.open_file(data)
        wanted = {**BEFORE, kind: sha256(data).encode() if kind == "list" else data.replace(b"\r", b"")}
        try:
            wait_for(page, wanted)
        except DriverError:
            pass
        counts.same(f"{name} below words of titles", held(page), wanted)


def announced_in_a_mail(counts: Counts, page: Page, texts: Dict[str, bytes]) -> None:
    """A file with an announcement below other text is no list to check: it goes into its field, with what to do."""
    for name, text in (("a mail", b"Dear all,\n\n" + texts["announcement"]),
                       ("quoted", b"She wrote:\n\n" + re.sub(rb"(?m)^", b"> ", texts["announcement"])),
                       ("Windows", (b"Hello\n\n" + texts["announcement"]).replace(b"\n", b"\r\n"))):
        begin(page, "check")
        page.open_file(LIST)
        page.facts()
        page.put(check_text=texts["record"].decode(), check_announcement="")
        page.open_file(text)
        page.browser.wait("return document.getElementById('check-announcement').value;")
        shown = page.check_again()
        counts.same(f"an announcement in {name}", [shown["outcome"], shown["findings"], shown["digest"]],
                    ["no announcement", ["Line 1: the announcement begins in line 3. Remove the lines above it."],
                     sha256(LIST)])
        page.put(check_announcement=texts["announcement"].decode())
        counts.same(f"{name}: without the lines above it", page.check_again()["outcome"], "agrees")
        begin(page, "draw")
        page.open_file(b"Eve\nUna\n" + texts["announcement"])
        counts.same(f"{name}, for a draw", page.facts(keep=False)["digest"],
                    sha256(b"Eve\nUna\n" + texts["announcement"]))


def on_a_field(counts: Counts, page: Page, texts: Dict[str, bytes]) -> None:
    """What is dropped on the field of the announcement and is none stays out of the record, and is an error there."""
    begin(page, "check")
    for name, data in (("a record", texts["record"]), ("a list", LIST), ("empty", b""), ("bytes", bytes(range(256))),
                       ("a record below a text", b"Hello\n" + texts["record"])):
        page.put(check_announcement="the announcement before")
        page.browser.run("document.getElementById('check-announcement-error').hidden = true;")
        drop(page, "check-announcement", "some.txt", data)
        page.browser.wait("return document.getElementById('check-announcement-error').checkVisibility();")
        said = seen(page, "check-announcement-error", "record-error")
        counts.same(f"{name} on the announcement", [held(page), *said], [{**BEFORE, "announcement": b""}, NONE, ""])
        invalid = page.browser.run("""return ["check-announcement", "check-text"].map((id) =>
            document.getElementById(id).getAttribute("aria-invalid"));""")
        counts.same(f"{name}: which field", invalid, ["true", None])
        page.put(check_announcement="x")
        counts.same(f"{name}: gone with a text", seen(page, "check-announcement-error"), [""])
    page.browser.run("""window.read = Blob.prototype.arrayBuffer;
        Blob.prototype.arrayBuffer = () => Promise.reject(new Error("a folder"));""")
    for field, error in (("check-announcement", "check-announcement-error"), ("check-text", "record-error"),
                         ("check-hint", "record-error")):
        page.put(check_text="the record before")
        drop(page, field, "folder", b"")
        page.browser.wait("return document.getElementById(arguments[0]).checkVisibility();", error)
        counts.same(f"a folder on {field}", [*seen(page, error), page.facts()["digest"]],
                    ["The file cannot be read.", sha256(OTHER_LIST)])
    page.browser.run("Blob.prototype.arrayBuffer = window.read;")
    for field in ("check-announcement", "check-text"):
        page.put(check_text="the record before", check_announcement="")
        drop(page, field, "some.txt", texts["announcement"])
        page.browser.wait("return document.getElementById('check-announcement').value;")
        counts.same(f"an announcement on {field}", held(page), {**BEFORE, "announcement": texts["announcement"]})


def mails(counts: Counts, page: Page, texts: Dict[str, bytes]) -> None:
    """An announcement in the text of a record is said to be one. Nobody is accused, and nothing is checked."""
    page.load()
    page.open_file(LIST)
    page.facts()
    record, announcement = texts["record"].decode(), texts["announcement"].decode()
    lines = record.count("\n")
    for name, text, line in page.share((
            ("above", announcement + record, 1), ("below", record + announcement, lines + 1),
            ("a line between", f"{announcement}\n{record}", 1), ("alone", announcement, 1),
            ("a text above", f"Dear all,\n\n{announcement}\n{record}\nYours", 3), ("cut", announcement[:200], 1),
            ("a text above it alone", f"Dear all,\n{announcement}", 2), ("spaces", f" {announcement}{record}", 1),
            ("a mark", f"\ufeff{announcement}{record}", 1), ("capitals", announcement.upper() + record, 1),
            ("of an old record", announcement + old_record(record), 1))):
        for way, given in (("as it is", text), ("quoted", re.sub("(?m)^", "> ", text)),
                           ("Windows", text.replace("\n", "\r\n"))):
            shown = page.check(given)
            counts.same(f"a mail, {name}, {way}", [shown["outcome"], shown["findings"]],
                        ["no record", [f"Line {line}: this is an announcement: paste it below."]])
    shown = page.check(f"Nanorand announcement: see below.\n{record}")
    counts.same("words about an announcement", shown["outcome"], "agrees")
    shown = page.check(f"list SHA-256: {'0' * 64}\n{record}")
    counts.same("a line of a record above it", "ask who wrote it" in shown["findings"][0], True)


def uncompared(counts: Counts, page: Page, texts: Dict[str, bytes]) -> None:
    """A record that names an announcement, checked without it: a warning that looks like one, and no winners."""
    page.load()
    page.open_file(LIST)
    page.facts()
    record = texts["record"].decode()
    without = re.sub("announcement SHA-256: .*", "announcement SHA-256: none", record)
    compared = "Winners (the first 3), and then reserves"
    plain, reserves = "In the order drawn", "In the order drawn: winners, and then reserves if there are any"
    for name, text, announced, warned, label in (
            ("agrees", record, "", [NOT_COMPARED], reserves),
            ("differs", record.replace("Katherine", "Kate"), "", [NOT_COMPARED], reserves),
            ("other module", re.sub("module SHA-256: .*", f"module SHA-256: {'0' * 64}", record), "", [NOT_COMPARED],
             reserves),
            ("agrees", without, "", [UNANNOUNCED], plain), ("differs", without, KNOWN, [], plain),
            ("agrees", record, KNOWN, [], compared),
            ("differs", record.replace("Katherine", "Kate"), KNOWN, [], reserves),
            ("differs", record, KNOWN.replace("winners: 3", "winners: 2"), [], reserves)):
        page.put(check_announcement=announced)
        shown = page.check(text)
        counts.same(f"{name}, {label}", [shown["outcome"], shown["warned"], *seen(page, "drawn-label")],
                    [name, warned, label])
        said = [one for one in shown["findings"] if "compared. Paste" in one]
        counts.same(f"{name}: not among what agrees", said, [])
    page.put(check_announcement="")
    page.check(f"Hello\n{record}")
    colours = page.browser.run("""
        const colour = (element, kind = "color") => getComputedStyle(element)[kind];
        const [first] = document.getElementById("check-warnings").children;
        const of = document.createElement("p");
        of.className = "warnings";
        document.body.append(of);
        const wanted = colour(of);
        of.remove();
        return [colour(first) === wanted, colour(first.parentElement, "borderTopColor") === wanted,
          colour(document.getElementById("unchecked")) === wanted,
          colour(first) !== colour(document.getElementById("outcome-title")),
          first.closest("[role=status]").id];""")
    counts.same("it looks like a warning", colours, [True, True, True, True, "outcome-status"])
    counts.same("the keyboard is above it", focused(page), "outcome-title")


def published(counts: Counts, page: Page, texts: Dict[str, bytes]) -> None:
    """What is to be published beside the record."""
    page.load()
    page.open_file(LIST)
    page.fill(SEED, "4")
    page.draw()
    words = "Save the record, and publish it beside the list"
    counts.same("without an announcement", seen(page, "publish-words"), [f"{words}."])
    page.open_file(texts["announcement"])
    page.browser.wait("return document.getElementById('announced').checkVisibility();")
    page.draw()
    counts.same("with an announcement", seen(page, "publish-words"), [f"{words} and the announcement."])
    page.browser.click("#take-away")
    counts.same("of the record that is shown", seen(page, "publish-words"), [f"{words} and the announcement."])
    page.draw()
    counts.same("taken away", seen(page, "publish-words"), [f"{words}."])


def marks(counts: Counts, page: Page, texts: Dict[str, bytes]) -> None:
    """A byte order mark means the same in a pasted record and in one that is dropped or opened."""
    page.load()
    page.open_file(LIST)
    page.facts()
    page.put(check_announcement=KNOWN)
    for number in (0, 1, 2):
        text = "\ufeff" * number + texts["record"].decode()
        pasted = page.check(text)
        for way in ("dropped on the field", "dropped", "opened"):
            page.put(check_text="")
            if way == "opened":
                page.open_file(text.encode())
            else:
                drop(page, "check-hint" if way == "dropped" else "check-text", "record.txt", text.encode())
            page.browser.wait("return document.getElementById('check-text').value || !"
                              "document.getElementById('list-error').hidden || "
                              "document.querySelector('#list-digest').textContent !== arguments[0];", sha256(LIST))
            if held(page)["record"] == b"":
                counts.case(f"{number} marks, {way}", "" if number == 2 else "taken as a list")
                page.open_file(LIST)
                page.facts()
                continue
            shown = page.check_again()
            counts.same(f"{number} marks, {way}", [shown["outcome"], shown["findings"]],
                        [pasted["outcome"], pasted["findings"]])
        counts.same(f"{number} marks", pasted["outcome"], "no record" if number == 2 else "agrees")


def commands(counts: Counts, page: Page, texts: Dict[str, bytes], program: str) -> None:
    """What the page says to check a draw without it can be called, with files of these names."""
    page.load()
    shown = page.browser.run("return document.querySelector('pre[aria-label=\"How to call lots\"]').textContent;")
    lines = [line for line in shown.split("\n") if line.startswith("lots ")]
    for name, kind in (("entrants", "list"), ("record", "record"), ("announcement", "announcement")):
        (page.folder / f"{name}.txt").write_bytes(texts[kind])
    without_module = re.sub(rb"module SHA-256: .*\n", b"", texts["record"])
    for record in (texts["record"], without_module):
        (page.folder / "record.txt").write_bytes(record)
        for line in lines:
            done = subprocess.run(line.replace("lots ", f"{shlex.quote(program)} ", 1), shell=True, cwd=page.folder,
                                  stdout=subprocess.PIPE, stderr=subprocess.STDOUT, check=False)
            counts.same(f"the page's {line!r}", (done.returncode, done.stdout if done.returncode else b""), (0, b""))
    counts.same("a draw and a check", [line.split()[1] for line in lines], ['"4', "--check"])


def run(counts: Counts, page: Page, program: str, module: bytes) -> None:
    page.browser.size(1000, 900)
    texts = texts_of(program, module)
    with page.unpainted():
        for part in (together, two_of_a_kind, together_for_a_draw, opened, fast, three_at_once, lost, below_a_mail,
                     words_of_titles, announced_in_a_mail, on_a_field, mails, uncompared, published, marks):
            part(counts, page, texts)
        commands(counts, page, texts, program)
    page.load()
