"""What a clerk does with a list: opening it again, answering questions, changing, undoing, saving and printing."""

import re
import shutil
import subprocess
from pathlib import Path
from typing import Any, Dict, List, Tuple

import draws
from counts import Counts, sha256
from page import Page
from steps import drop, focused

NAMES = [f"{first} {last}" for first in ("Ada", "Bárbara", "Chidi", "Dmitri", "Elif", "Farid", "Grace", "Hedy", "Ines",
                                         "Jun", "Kate", "Lise", "Max", "Nora", "Otto", "Pia", "Quinn")
         for last in ("Abel", "Brown", "Costa", "Dietz", "Evans", "Fuchs", "Gupta", "Haas", "Ito", "Jansen", "Klein",
                      "Lopez", "Meier", "Nagy", "O’Brien", "Popov", "Quist", "Rossi", "Silva", "Tanaka")]
LIST = "".join(f"{name}\n" for name in NAMES)
SEED = "4 1 6 3 3 2 5 6 1 4 2 6 5 3 1 1 6 2 4 5 2 2 6 1 3 5 4 1"
SMALL = "Ada\nBob\nCid\n"
QUESTIONS = """
return Array.from(document.querySelectorAll(".question[role=group]"), (question) => [
  question.querySelector(".asked").textContent,
  Array.from(question.querySelectorAll(".lines li"), (line) => line.textContent),
  Array.from(question.querySelectorAll("button"), (button) => button.textContent)]);
"""
PRESS = """
Array.from(document.querySelectorAll("button")).find((one) => one.checkVisibility() && one.textContent === arguments[0])
  .click();
"""
PREVIEW = """
return Array.from(document.querySelectorAll("#preview li"), (item) =>
  item.className === "gap" ? "…" : `${item.value}: ${item.textContent}`);
"""
NAMED = "return document.getElementById('file-name').textContent;"
SEEN = "return document.getElementById(arguments[0]).checkVisibility();"
# Whether leaving the page is asked about.
LEAVE = """
const event = new Event("beforeunload", { cancelable: true });
window.dispatchEvent(event);
return event.defaultPrevented;
"""
# The distance of an element's top from that of the window, and whether all of it is in the window.
TOP = """
const { top, bottom } = document.getElementById(arguments[0]).getBoundingClientRect();
return [top, bottom <= innerHeight];
"""
HEADINGS = ("Name", "NAME", "  Name:", "\ufeffName", "Names", "Name;Vorname", "E-mail,Name", "Full name\tCity",
            "\"Name\"", "Last_Name", "Ticket No.", "Nom,Prénom", "Teilnehmende", "Apellidos;Nombre",
            "Name;Ort", "Timestamp,Name", "Participant Name", "Name (required)", "Förnamn", "Nom et prénom", "姓名",
            "Имя", "\uff2eame", "Ticket #", "sep=;", "Vorname Nachname")
NO_HEADINGS = ("Ada", "Name Ada", "Anna Name", "1", "Nomen", "Ida, No 7")


def press(page: Page, label: str) -> None:
    page.browser.run(PRESS, label)


def changed(page: Page, label: str) -> Dict[str, Any]:
    """Presses a button that changes the list, and returns what the page then shows."""
    before = page.browser.run("""document.getElementById("tidied").hidden = true;
        return document.getElementById("list-digest").textContent;""")
    press(page, label)
    page.browser.wait("""
        return ["tidied", "list-error"].some((id) => !document.getElementById(id).hidden) ||
          document.getElementById("list-digest").textContent !== arguments[0];""", before)
    page.browser.wait("return ['tidied', 'list-error'].some((id) => !document.getElementById(id).hidden);")
    return page.shown()


def opened_again(counts: Counts, page: Page) -> None:
    """A file that has changed on disk is read anew if it is opened again, by the button or by a drop."""
    path = page.folder / "people.txt"
    page.load()
    for number, text in enumerate((SMALL, SMALL + "Dora\n", "Ada\n", SMALL)):
        path.write_text(text, encoding="utf-8")
        page.browser.type("#list-file", str(path))
        page.browser.wait("return document.getElementById('list-digest').textContent === arguments[0];",
                          sha256(text.encode()), seconds=20)
        counts.same(f"the file, {number}", page.facts()["digest"], sha256(text.encode()))
        counts.same(f"no file is chosen, {number}",
                    page.browser.run('return document.getElementById("list-file").files.length;'), 0)
    for text in (SMALL, SMALL + "Eve\n"):
        drop(page, "panel", "people.txt", text.encode())
        counts.same("dropped again", page.facts()["digest"], sha256(text.encode()))
    page.fill("seed", "1")
    page.draw()
    path.write_text(SMALL + "Zoe\n", encoding="utf-8")
    page.browser.type("#list-file", str(path))
    counts.same("no result of the list before", page.shown()["record"], "")
    page.facts()
    counts.case("its record", "" if sha256((SMALL + "Zoe\n").encode()) in page.draw()["record"] else "another sum")


def previews(counts: Counts, page: Page) -> None:
    """The first and the last three lines of a file, or all six."""
    page.load()
    for number, wanted in ((1, [1]), (3, [1, 2, 3]), (6, [1, 2, 3, 4, 5, 6]), (7, [1, 2, 3, 0, 5, 6, 7]),
                           (340, [1, 2, 3, 0, 338, 339, 340])):
        for end in ("\n", ""):
            page.open_file(("\n".join(NAMES[:number]) + end).encode())
            page.facts()
            counts.same(f"a preview of {number}{end!r}", page.browser.run(PREVIEW),
                        [f"{line}: {NAMES[line - 1]}" if line else "…" for line in wanted])
    page.open_file(f"A\u200bda\n{'x' * 5000}\n B\n".encode())
    page.facts()
    counts.same("a preview of odd lines", page.browser.run(PREVIEW),
                ["1: AU+200B zero width spaceda", f"2: {'x' * 200} …", "3: U+0020 spaceB"])
    for letter in ("\u00e9", "\u6f22", "\U0001f469"):
        lines = [f"{'x' * before}{letter * 100}" for before in range(4)]
        page.open_file("\n".join(lines).encode())
        page.facts()
        begins = [line.encode()[:200].decode(errors="ignore") for line in lines]
        counts.same(f"a preview of long lines of {letter}", page.browser.run(PREVIEW),
                    [f"{place + 1}: {line}{' …' if len(lines[place].encode()) > 200 else ''}"
                     for place, line in enumerate(begins)])
    page.paste(SMALL)
    page.facts()
    counts.same("no preview of a pasted text", page.browser.run(SEEN, "preview"), False)


def asked(counts: Counts, page: Page, name: str, data: bytes, wanted: List[Any]) -> None:
    """A list with a question is neither drawn from nor published before the question is answered."""
    page.open_file(data)
    page.fill("seed", "all")
    page.facts(keep=False)
    counts.same(f"{name}: asked", page.browser.run(QUESTIONS), wanted)
    seen = [page.browser.run(SEEN, one) for one in ("list-digest", "copy-digest", "save-list")]
    counts.same(f"{name}: nothing to publish", seen, [not wanted] * 3)
    shown = page.draw(keep=False)
    said = "Answer the question about the list first." if wanted else ""
    counts.same(f"{name}: a draw", (shown["question"], shown["record"] != ""), (said, not wanted))
    if wanted:
        counts.same(f"{name}: the keyboard", focused(page), "questions")
        top, is_seen = page.browser.run(TOP, "question-error")
        counts.case(f"{name}: what is said", "" if 0 <= top and is_seen else f"{top}, {is_seen}")
        page.tab("check")
        counts.same(f"{name}: not asked in a check",
                    [page.browser.run(SEEN, one) for one in ("questions", "list-digest")], [False, True])
        page.tab("draw")


def headings(counts: Counts, page: Page) -> None:
    page.load()
    for heading in page.share(HEADINGS):
        text = f"{heading}\n{SMALL}"
        line = heading.replace("\ufeff", "U+FEFF byte order mark").replace("\t", "U+0009 tab")
        line = re.sub("^  ", "U+0020 space ", line)
        asked(counts, page, f"the heading {heading!r}", text.encode(), [[
            "Line 1 looks like a heading, not like an entrant. Could it win?", [line],
            ["Remove line 1", "It is an entrant"]]])
        shown = changed(page, "Remove line 1")
        counts.same(f"{heading!r}: removed", shown["digest"], sha256(SMALL.encode()))
        counts.same(f"{heading!r}: drawn", len(page.draw(keep=False)["drawn"]), 3)
    for heading in page.share(NO_HEADINGS):
        asked(counts, page, f"no heading {heading!r}", f"{heading}\n{SMALL}".encode(), [])
    for text, is_asked in (("Kennung\n17\n18\n", True), ("Wer\na@b.c\nd@e.f\n", True), ("17\n18\n19\n", False),
                           ("Ada\n17\nBob\n", False), ("Ada\n17\n", False), ("Name\n", False)):
        page.open_file(text.encode())
        page.facts(keep=False)
        counts.same(f"asked of {text!r}", len(page.browser.run(QUESTIONS)), int(is_asked))


def kept(counts: Counts, page: Page) -> None:
    """An answer holds until another file is opened or another first line is typed."""
    page.load()
    page.paste(f"Name\n{SMALL}")
    page.facts(keep=False)
    press(page, "It is an entrant")
    counts.same("the keyboard after it", focused(page), "copy-digest")
    page.fill("seed", "all")
    counts.same("a heading that is kept", len(page.draw(keep=False)["drawn"]), 4)
    page.paste(f"Name\n{SMALL}Dora\n")
    page.facts(keep=False)
    counts.same("more lines below it", page.browser.run(QUESTIONS), [])
    page.paste(f"Names\n{SMALL}")
    page.facts(keep=False)
    counts.same("another heading", len(page.browser.run(QUESTIONS)), 1)
    for _ in range(2):
        page.open_file(f"Name\n{SMALL}".encode())
        page.facts(keep=False)
        counts.same("a file", len(page.browser.run(QUESTIONS)), 1)
        page.keep()


def encodings(counts: Counts, page: Page) -> None:
    """Lists in UTF-16 and Windows-1252 are recognized, and converted if their owner wants that."""
    page.load()
    text = "Müller\nJosé\nØre\n€uro\n"
    lines = ["Müller", "José", "Øre"]
    utf_16 = ("This file is saved in another form of text (UTF-16, which Excel calls “Unicode text”). A draw needs the "
              "usual one, UTF-8.")
    windows = ("This file is not saved in the usual form of text, UTF-8. It seems to be in an older form of Windows "
               "(Windows-1252), as Excel saves CSV files. Letters that this form does not have, and emoji, were saved "
               "as question marks: to keep them, save the list again as CSV UTF-8.")
    choices = ["Convert it to UTF-8", "Keep the file as it is"]
    kinds = [(name, utf_16, mark) for name in ("utf-16-le", "utf-16-be") for mark in ("\ufeff", "")]
    for name, said, marked in [*kinds, ("cp1252", windows, "")]:
        for end in ("\n", "\r\n"):
            data = (marked + text.replace("\n", end)).encode(name)
            asked(counts, page, f"{name}, {end!r}, {marked!r}", data, [[said, lines, choices]])
            shown = changed(page, choices[0])
            counts.same(f"{name}: converted", (shown["digest"], shown["warnings"]), (sha256(text.encode()), []))
            counts.same(f"{name}: drawn", sorted(page.draw(keep=False)["drawn"]), sorted(text.split()))
            page.open_file(data)
            page.facts(keep=False)
            press(page, choices[1])
            counts.same(f"{name}: kept", page.shown()["digest"], sha256(data))
            is_drawn = sha256(data) in page.draw(keep=False)["record"]
            counts.case(f"{name}: kept and drawn", "" if is_drawn else "not drawn")
    no_text = ("This file does not seem to be a text. If it is a spreadsheet or a document, save it there as text in "
               "UTF-8, with one entrant on each line, and open that file.")
    asked(counts, page, "a spreadsheet", b"PK\x03\x04\x14\0\x06\0\x08\0\xff\n\x01", [[no_text, [], choices[1:]]])
    page.open_file(b"PK\x03\x04\x14\0\x06\0\x08\0\xff\n\n\x01\x02")
    counts.same("a spreadsheet with an empty line", page.facts(keep=False)["list"], no_text)
    for start in (b"%PDF-1.7\n", b"{\\rtf1 ", b"<!doctype html>", b"<?xml ?>", b"BEGIN:VCARD\n"):
        asked(counts, page, f"a document {start!r}", start + b"Ada\n", [[no_text, [], choices[1:]]])
    asked(counts, page, "UTF-8 with a byte 0", b"a\0b\nc\nd", [[no_text, [], choices[1:]]])
    for text in page.share(("Иван", "Иван\n", "Иван\nОлег Попов\n", "عمر\nزينب\n", "राम\n", "山田\n花子 太郎\n",
                            "Āda\nĒva\n", "A\u3000B\n")):
        for name in ("utf-16-le", "utf-16-be"):
            page.open_file(text.encode(name))
            page.browser.wait("return !document.getElementById('tidy').hidden;")
            page.browser.wait("return document.querySelector('.question[role=group], #list-facts:not([hidden])');")
            found = page.browser.run(QUESTIONS)
            counts.same(f"{text!r} in {name}", [question[0] for question in found], [utf_16])
            converted = changed(page, choices[0])["digest"]
            counts.same(f"{text!r} in {name}: converted", converted, sha256(text.encode()))
    heading = "Line 1 looks like a heading, not like an entrant. Could it win?"
    data = "Name\nMüller\nJosé\nØre\n".encode("cp1252")
    asked(counts, page, "a heading in another encoding", data, [
        [windows, lines, choices], [heading, ["Name"], ["Remove line 1", "It is an entrant"]]])
    press(page, choices[1])
    counts.same("a heading is still asked about", [text for text, _, _ in page.browser.run(QUESTIONS)], [heading])
    counts.same("it is removed", changed(page, "Remove line 1")["digest"], sha256(data[5:]))
    page.open_file(b"")
    page.browser.wait("return !document.getElementById('list-error').hidden;")
    counts.same("an empty file", page.shown()["list"], "This file is empty.")


def invisible(counts: Counts, page: Page) -> None:
    """Each kind of invisible characters has a warning with the first line that has it, and a button."""
    page.load()
    kinds: "Dict[str, Tuple[str, str, str]]" = {
        "\u00a0\u202f\u2007": ("no-break spaces", "Make the no-break spaces plain", " "),
        "\u3000\u2003\u2009\u1680": ("spaces of another width, such as U+3000", "Make these spaces plain", " "),
        "\u200b\u200c\u200d\u2060\u00ad\ufeff\u034f": ("zero-width characters", "Remove the zero-width characters", ""),
        "\u200e\u200f\u061c\u202a\u202e\u2066\u2069": ("directional marks", "Remove the directional marks", ""),
        "\t": ("tabs, as between the columns of a spreadsheet", "Make the tabs plain spaces", " "),
        "\x7f\u0085\u2028\ufe00\u3164\U000e0041": ("other invisible characters", "Remove these characters", ""),
    }
    for letters, (words, label, becomes) in kinds.items():
        for letter in letters:
            text = f"Ada\nBo{letter}b\nCi{letter}x{letter}d\nDo{letter}ra\n"
            for way in ("file", "pasted"):
                page.open_file(text.encode()) if way == "file" else page.paste(text)
                name = f"U+{ord(letter):04X}, {way}"
                counts.same(f"{name}: warned", page.facts(keep=False)["warnings"][:1],
                            [f"3 lines have {words}, which nobody sees: look at line 2."])
                shown = changed(page, label)
                wanted = text.replace(letter, becomes)
                counts.same(f"{name}: changed", (shown["digest"], shown["warnings"]), (sha256(wanted.encode()), []))
    page.open_file(b"\xef\xbb\xbfAda\nBob")
    counts.case("a byte order mark", "" if page.facts()["warnings"][0].startswith(
        "The list begins with an invisible mark") else "no warning")
    counts.same("no byte order mark", changed(page, "Remove the byte order mark")["digest"], sha256(b"Ada\nBob"))
    joined = "\U0001f468\u200d\U0001f469\n\u0645\u06cc\u200c\u062e\n"
    page.paste(joined)
    counts.same("joined letters", page.facts()["warnings"], [])
    page.paste(f"{joined}a\u200db\n")
    page.facts()
    counts.same("joined letters stay", changed(page, "Remove the zero-width characters")["digest"],
                sha256(f"{joined}ab\n".encode()))


def marked_letters(counts: Counts, page: Page) -> None:
    """Of two lines that look alike, the letter that differs is marked in both, with its code."""
    page.load()
    for other, marks in (("\u0410da B\u00f6ll", ["A U+0041", "\u0410 U+0410"]),
                         ("Ada Bo\u0308ll", ["\u00f6 U+00F6", "o\u0308 U+006F U+0308"]),
                         ("Ada\u00a0B\u00f6ll", ["  U+0020 space", " U+00A0 no-break space"]),
                         ("Ada B\u00f6\u200bll", ["l U+006C", " U+200B zero width space"]),
                         ("Ada B\u00f6l\uff4c", ["l U+006C", "\uff4c U+FF4C"]),
                         ("Ada B\u00f6ll\u200e", [" U+200E left-to-right mark"]),
                         ("Ada b\u00f6ll", ["B U+0042", "b U+0062"])):
        page.paste(f"x\nAda B\u00f6ll\n{other}\n")
        page.facts()
        found = page.browser.run("""return [Array.from(document.querySelectorAll("#list-warnings .lines li"),
            (item) => item.firstChild.data), Array.from(document.querySelectorAll("#list-warnings .lines mark"),
            (mark) => `${mark.firstChild.data ?? ""} ${mark.querySelector(".codes").textContent}`)];""")
        wanted = [one if one[0] != " " or one[1] == " " else one for one in marks]
        counts.same(f"{other!r} beside it", found[0][-2:], ["Line 2: ", "Line 3: "])
        counts.same(f"{other!r}: its marks", [one.strip() for one in found[1]], [one.strip() for one in wanted])


def undone(counts: Counts, page: Page) -> None:
    """Each change can be undone, the last one first, until something else changes the list."""
    page.load()
    text = "Ada \n\nBob\u00a0B\nBob\u00a0B\n"
    for way in ("file", "pasted"):
        page.open_file(text.encode()) if way == "file" else page.paste(text)
        page.browser.wait("return !document.getElementById('list-error').hidden;")
        counts.same(f"{way}: nothing to undo", page.browser.run(SEEN, "undo"), False)
        texts = [text, "Ada \nBob\u00a0B\nBob\u00a0B\n", "Ada\nBob\u00a0B\nBob\u00a0B\n", "Ada\nBob\u00a0B\n",
                 "Ada\nBob B\n"]
        for label, wanted in zip(("Remove the empty lines", "Remove spaces at the ends of lines", "Remove equal lines",
                                  "Make the no-break spaces plain"), texts[1:]):
            counts.same(f"{way}: {label}", changed(page, label)["digest"], sha256(wanted.encode()))
        for wanted in texts[-2:0:-1]:
            counts.same(f"{way}: undone", changed(page, "Undo the last change")["digest"], sha256(wanted.encode()))
            said = page.browser.run("return document.getElementById('tidied').textContent;")
            counts.same(f"{way}: it is said", said, "The last change is undone: the list is as it was before.")
        press(page, "Undo the last change")
        page.browser.wait("return !document.getElementById('list-error').hidden;")
        counts.same(f"{way}: all undone", page.browser.run(SEEN, "undo"), False)
    page.paste("a\na\n")
    page.facts()
    changed(page, "Remove equal lines")
    page.paste("b\nb\n")
    page.facts()
    counts.same("a text that is typed after a change", page.browser.run(SEEN, "undo"), False)


def origins(counts: Counts, page: Page, folder: Path) -> None:
    """The page, and so the paper, names the file that has the bytes of the list, or says that none has them. Leaving is
    asked about only then, and not while somebody checks a draw."""
    def state(name: str, said: str, asks: bool) -> None:
        page.facts()
        file = page.browser.run(SEEN, "file-name")
        found = page.browser.run(NAMED) if file else page.browser.run(
            "return document.getElementById('unsaved').textContent;")
        counts.same(name, (found, page.browser.run(LEAVE)), (said, asks))

    page.load()
    counts.same("an empty page", page.browser.run(LEAVE), False)
    path = page.folder / "people.txt"
    path.write_text("Ada\nAda\n", encoding="utf-8")
    page.browser.type("#list-file", str(path))
    state("a file", "people.txt, 8 bytes", False)
    changed(page, "Remove equal lines")
    state("a changed file", "people.txt, 4 bytes, changed here: save it", True)
    changed(page, "Undo the last change")
    state("a file as it was", "people.txt, 8 bytes", False)
    changed(page, "Remove equal lines")
    page.browser.click("#save-list")
    counts.same("what is saved", draws.saved(page, folder, "entrants.txt"), b"Ada\n")
    state("a changed file that was saved", "entrants.txt, 4 bytes, saved from this page", False)
    page.browser.click("#close-file")
    page.paste("Ada\nAda\n")
    state("a pasted list", "Pasted here: save it, and publish the file that you saved.", True)
    page.browser.click("#save-list")
    draws.saved(page, folder, "entrants.txt")
    state("a pasted list that was saved", "entrants.txt, saved from this page", False)
    page.paste("Bob\n")
    state("another pasted list", "Pasted here: save it, and publish the file that you saved.", True)
    page.load()
    page.tab("check")
    page.paste("Ada\n")
    page.facts()
    counts.same("a list to check", page.browser.run(LEAVE), False)


def named_as_saved(counts: Counts, page: Page) -> None:
    """A file that has the name of the file that the page saves was not saved from this page. A list that was pasted to
    check a draw is unsaved for whoever then holds a draw with it."""
    page.load()
    path = page.folder / "entrants.txt"
    path.write_text(SMALL, encoding="utf-8")
    page.browser.type("#list-file", str(path))
    page.facts()
    counts.same("a file of this name", page.browser.run(NAMED), "entrants.txt, 12 bytes")
    page.load()
    page.tab("check")
    page.paste(SMALL)
    page.facts()
    for tab, asks in (("check", False), ("draw", True)):
        page.tab(tab)
        counts.same(f"asked for in a {tab}", [page.browser.run(SEEN, "unsaved"), page.browser.run(LEAVE)], [asks] * 2)


def opened_early(counts: Counts, page: Page) -> None:
    """A list that is opened before the module has started is the list. So is one that is typed."""
    for way in ("dropped", "typed"):
        page.browser.open("about:blank")
        page.browser.open(page.address)
        if way == "dropped":
            drop(page, "panel", "people.txt", SMALL.encode())
        else:
            page.paste(SMALL)
        page.browser.wait("return !document.getElementById('draw').disabled;")
        found = page.facts()
        counts.same(f"{way} early", (found["digest"], found["page"]), (sha256(SMALL.encode()), ""))
        if way == "dropped":
            counts.same("its name", page.browser.run(NAMED), "people.txt, 12 bytes")


def emptied(counts: Counts, page: Page) -> None:
    """A change that leaves no line can be undone."""
    page.load()
    page.paste("\n\n")
    page.browser.wait("return !document.getElementById('list-error').hidden;")
    press(page, "Remove the empty lines")
    page.browser.wait("return !document.getElementById('tidied').hidden;")
    counts.same("nothing is left", page.browser.run("return document.getElementById('list-text').value;"), "")
    press(page, "Undo the last change")
    page.browser.wait("return document.getElementById('list-text').value === arguments[0];", "\n\n", seconds=20)


NAMELESS = "If the name is missing, the line can win all the same."


def more_warnings(counts: Counts, page: Page) -> None:
    """Carriage returns and columns have warnings, and what is said can be done."""
    page.load()
    page.open_file(b"Ada \r\nBob\r\n")
    page.facts()
    counts.same("carriage returns are removed", changed(page, "Remove the carriage returns")["digest"],
                sha256(b"Ada \nBob\n"))
    counts.same("spaces are removed", changed(page, "Remove these spaces")["digest"], sha256(b"Ada\nBob\n"))
    page.open_file(b"Ada\n \t\nBob\n\t")
    page.facts()
    counts.same("lines that cannot be seen are removed", changed(page, "Remove such lines")["digest"],
                sha256(b"Ada\nBob"))
    for text, sign in (("1;Ada;Rome\n2;Bob;Oslo\n", ";"), ("1,Ada,Rome\n2,Bob,Oslo\n", ","),
                       ("1;Ada;Rome\n2;Bob\n", ""), ("Abel, Ada\nBrown, Bob\n", ""), ("Ada\nBob\n", ""),
                       ("1;Ada;Rome\n", ""), ("1;;Rome\n2;;Oslo\n", ";")):
        page.paste(text)
        wanted = [f"Each line has 3 columns, with “{sign}” between them, and all of them are published. If only one "
                  "has the names, save that one alone."] if sign else []
        counts.same(f"the columns of {text!r}", page.facts()["warnings"], wanted)
    many = " have an empty column that other lines fill: look at line "
    for text, wanted in (("Ada;5b\n;5b\nBob;\n", f"2 lines{many}2. {NAMELESS}"),
                         ("Ada,Abel,\n ,Brown,\nEve,Cole,\n", f"1 line{many.replace('have', 'has')}2. {NAMELESS}"),
                         ("Ada;\n;\n", ""), (";5b\n;6a\n", ""), ("Ada;5b\n ; \n", "")):
        page.paste(text)
        found = [one for one in page.facts()["warnings"] if "empty column" in one]
        counts.same(f"empty columns of {text!r}", [one.split(" Line 2: ")[0] for one in found],
                    [wanted] if wanted else [])


def closed_files(counts: Counts, page: Page) -> None:
    """A changed file that is closed by mistake comes back."""
    page.load()
    page.open_file(b"Ada\nAda\nBob\n")
    page.facts()
    changed(page, "Remove equal lines")
    press(page, "Paste a list instead")
    counts.same("the file is closed", page.browser.run(SEEN, "pasted"), True)
    page.browser.wait("return document.getElementById('undo').checkVisibility();")
    counts.same("it comes back", changed(page, "Undo the last change")["digest"], sha256(b"Ada\nBob\n"))
    counts.case("its name", "" if "changed here: save it" in page.browser.run(NAMED) else page.browser.run(NAMED))
    counts.same("what it was", changed(page, "Undo the last change")["digest"], sha256(b"Ada\nAda\nBob\n"))


def in_warnings(counts: Counts, page: Page) -> None:
    """A warning shows the lines that it tells of, up to ten pairs of equal lines."""
    page.load()
    lines = """return Array.from(document.querySelectorAll("#list-warnings .lines li"), (item) => item.textContent);"""
    page.open_file(b"Ada\nBob \nCid\nAda\nBob \nAda\n")
    page.facts()
    counts.same("spaces and equal lines", page.browser.run(lines), [
        "Line 2: BobU+0020 space", "Line 5: BobU+0020 space", "Lines 1 and 4: Ada", "Lines 2 and 5: BobU+0020 space",
        "Lines 1 and 6: Ada"])
    page.open_file("".join(f"{number % 20}\n" for number in range(60)).encode())
    page.facts()
    counts.same("many equal lines", page.browser.run(lines),
                [f"Lines {number} and {number + 20}: {number - 1}" for number in range(1, 11)])
    page.open_file(f"{'x' * 5000}\u200by\nB\u200bob\n".encode())
    page.facts()
    counts.same("a long line", page.browser.run(lines),
                [f"Line 1: {'x' * 200}", "Line 2: BU+200B zero width spaceob"])
    emoji = "\U0001f469"
    page.open_file(f"x{emoji * 5000}\u200by\n{emoji * 5000}\u200by\n".encode())
    page.facts()
    counts.same("long lines of emoji", page.browser.run(lines),
                [f"Line 1: x{emoji * 199}", f"Line 2: {emoji * 200}"])


def in_view(counts: Counts, page: Page) -> None:
    """After a draw and a check, the keyboard and the window are at the result, also on a phone."""
    page.load()
    page.open_file(LIST.encode())
    for width, height in ((360, 640), (390, 800), (1280, 900)):
        page.browser.size(width, height)
        page.fill(SEED, "12")
        record = page.draw()["record"]
        counts.same(f"the keyboard after a draw, {width}", focused(page), "result-title")
        top, is_seen = page.browser.run(TOP, "result-title")
        counts.case(f"the winners' heading, {width}", "" if 0 <= top < 60 and is_seen else f"{top}, {is_seen}")
        if height >= 800:
            counts.case(f"twelve winners, {width}", "" if page.browser.run(TOP, "drawn")[1] else "are not in view")
        page.check(record)
        counts.same(f"the keyboard after a check, {width}", focused(page), "outcome-title")
        top, is_seen = page.browser.run(TOP, "outcome-title")
        counts.case(f"the answer, {width}", "" if 0 <= top < 600 and is_seen else f"{top}, {is_seen}")
    page.browser.size(1000, 900)
    sizes = page.browser.run("""return ["list-text", "seed", "count", "check-text"].map((id) =>
        getComputedStyle(document.getElementById(id)).fontSize);""")
    counts.same("fields of 16 pixels, in which a phone does not zoom", sizes, ["16px"] * 4)


def what_was_checked(counts: Counts, page: Page) -> None:
    """The answer shows what it checked: the lines, the seed, the numbers and the winners."""
    page.load()
    page.open_file(LIST.encode())
    page.fill(SEED, "12")
    shown = page.draw()
    page.check(f"Dear all,\n\n{shown['record']}\nYours\n")
    found = page.browser.run("""return ["reading-title", "reading-seed", "reading-list", "reading-count"].map((id) =>
        document.getElementById(id).innerText);""")
    counts.same("what was checked", found, ["What the record says, in lines 3 to 23 of the text:", f'"{SEED}"',
                                            sha256(LIST.encode()), "12 of 340"])
    winners = "return Array.from(document.querySelectorAll('#reading-drawn li'), (item) => item.textContent);"
    counts.same("the winners that were checked", page.browser.run(winners), shown["drawn"])
    page.fill("\u0410\u200b1", "all")
    page.check(page.draw()["record"])
    seed = page.browser.run("return document.getElementById('reading-seed').innerText;")
    counts.same("a seed with a letter that looks like another", seed, '"\u0410U+0410\\xe2\\x80\\x8b1"')
    counts.same("at most a hundred are shown", len(page.browser.run(winners)), 100)
    more = page.browser.run("return document.getElementById('reading-more').textContent;")
    counts.same("the others are counted", more, "and 240 more")


def text_on_paper(page: Page) -> str:
    """The text of the printed page, by pdftotext, or an empty text if there is no such program."""
    if shutil.which("pdftotext") is None:
        return ""
    path = page.folder / "paper.pdf"
    path.write_bytes(page.browser.printed())
    done = subprocess.run(["pdftotext", "-layout", str(path), "-"], stdout=subprocess.PIPE, check=True)
    return done.stdout.decode()


def on_paper(counts: Counts, page: Page) -> None:
    """On paper: a title, the date, the name of the file, each digit of each sum, and lines for signatures."""
    page.load()
    page.open_file((LIST + "Ada Abel\n").encode())
    page.facts()
    changed(page, "Remove equal lines")
    page.fill(SEED, "12")
    papers = {"the closed list": [sha256(LIST.encode()), "changed here: save it", "340 entrants"]}
    text = {"the closed list": text_on_paper(page)}
    shown = page.draw()
    sums = re.findall("[0-9a-f]{64}", shown["record"])
    papers["the result"] = [*sums, *shown["drawn"], SEED]
    text["the result"] = text_on_paper(page)
    page.fill("4 1 6")
    papers["the result of before"] = ["These winners belong to the seed", *shown["drawn"]]
    text["the result of before"] = text_on_paper(page)
    page.check(shown["record"])
    papers["a check"] = ["The record agrees", sums[0], SEED, "12 of 340", *shown["drawn"]]
    text["a check"] = text_on_paper(page)
    for name, wanted in papers.items():
        if not text[name]:
            continue
        title = f"Public draw: {name.replace(' of before', '')}"
        words = " ".join(text[name].split())
        wanted += [title, "Printed on ", "Occasion:", "Place, date and time:"]
        counts.same(f"{name}: missing on paper", [one for one in wanted if one not in words], [])
        counts.same(f"{name}: signatures", words.count("Signature:"), 3)


def run(counts: Counts, page: Page, downloads: Path) -> None:
    with page.unpainted():
        for part in (opened_again, opened_early, named_as_saved, previews, kept, encodings, invisible, marked_letters,
                     more_warnings, in_warnings, closed_files, undone, emptied, what_was_checked):
            part(counts, page)
    for part in (headings, in_view, on_paper):
        part(counts, page)
    origins(counts, page, downloads)
