"""The announcement on the page: its fields, its file and its paper, and what follows from changes."""

import math
import random
import re
import time
from itertools import product
from pathlib import Path
from typing import List

from announcements import EXAMPLE, KNOWN, LIST, SAMPLE, needed
from counts import Counts, sha256
from page import Page
from records import quoted
from steps import focused, sheets

FIELDS = {"occasion": "Summer raffle of the school", "winners": "3", "reserves": "1",
          "source": "20 throws of a die, in the hall",
          "form": "the numbers thrown, in order, with one space between them", "example": SAMPLE,
          "time": "Friday 4 December 2026, 12:00, Madrid"}
CALLED = {"occasion": "the occasion", "source": "the source of the seed", "form": "the form of the seed",
          "example": "the example of a seed", "time": "the time and the place"}
SHOWN = """
return Object.fromEntries(arguments[0].map((id) => {
  const element = document.getElementById(id);
  return [id, element.checkVisibility() ? element.value ?? element.innerText : ""];
}));
"""
CHOOSE = """
const preset = document.getElementById("preset");
preset.value = arguments[0];
preset.dispatchEvent(new Event("change"));
"""
# Tells the page that a field is left after something was typed.
LEAVE = """
document.getElementById(arguments[0]).dispatchEvent(new Event("change", { bubbles: true }));
"""
ASKED = "return Array.from(document.querySelectorAll('[data-ask]')).filter((one) => one.checkVisibility())" \
        ".map((one) => one.dataset.ask);"
PAPER = """
return ["entrants", "list-digest", "occasion", "save-announcement", "announcement-heading", "announcement-text",
  "announcement-digest", "announcement-stale", "list-warnings", "unsaved", "seed", "paper-title", "signatures"]
  .filter((id) => document.getElementById(id).checkVisibility());
"""
# Keeps the next file that the page saves, in place of the browser.
CAUGHT = """
window.saved = null;
let fetched;
HTMLAnchorElement.prototype.click = function () {
  delete HTMLAnchorElement.prototype.click;
  fetched.arrayBuffer().then((bytes) => { window.saved = Array.from(new Uint8Array(bytes)); });
};
const make = URL.createObjectURL;
URL.createObjectURL = (blob) => {
  URL.createObjectURL = make;
  fetched = blob;
  return make.call(URL, blob);
};
"""
STALE = ("The announcement that you saved is out of date: the list or a field has changed since. Save or print it "
         "again, and do not publish the one from before.")
TURNS = 160
BLANKS = re.compile(r"\[[a-z ,]+\]")


def seen(page: Page, *ids: str) -> List[str]:
    found = page.browser.run(SHOWN, list(ids))
    return [found[one].strip() for one in ids]


def begun(page: Page, data: bytes = LIST, **fields: str) -> None:
    """A fresh page with a list and all fields of the example."""
    page.load()
    page.open_file(data)
    page.facts()
    page.put(**{**FIELDS, **fields})


def pressed(page: Page, button: str) -> None:
    """Presses a button of the announcement, and waits for its error or its text."""
    page.browser.run("""document.getElementById("announcement-digest").textContent = "";
        document.getElementById(arguments[0]).click();""", button)
    page.browser.wait("""return document.getElementById("announcement-digest").textContent !== "" ||
        !document.getElementById("announce-error").hidden;""")


def saved(page: Page) -> bytes:
    """The bytes that the page saves. It gets no file: a browser may ask before it saves many without a click."""
    page.browser.run(CAUGHT)
    pressed(page, "save-announcement")
    return bytes(page.browser.wait("return window.saved;"))


def saved_file(page: Page, downloads: Path) -> bytes:
    """The bytes of the file that the page saves."""
    path = downloads / "announcement.txt"
    path.unlink(missing_ok=True)
    page.browser.click("#save-announcement")
    for _ in range(1000):
        if path.exists() and path.stat().st_size > 0:
            break
        time.sleep(0.01)
    return path.read_bytes()


def known(counts: Counts, page: Page, downloads: Path) -> None:
    """The announcement of the format's description: its file, and what the page shows of it."""
    page.load()
    counts.same("no list, no announcement", seen(page, "occasion", "announcement-text"), ["", ""])
    begun(page)
    counts.same("none is there yet", seen(page, "announcement-text", "announcement-stale"), ["", ""])
    counts.same("the file", saved_file(page, downloads), KNOWN.encode())
    text = page.browser.run("return document.getElementById('announcement-text').textContent;")
    counts.same("the text", [text, *seen(page, "announcement-digest", "announce-error", "announcement-stale")],
                [KNOWN, sha256(KNOWN.encode()), "", ""])
    page.tab("check")
    counts.same("not in a check", seen(page, "occasion", "announcement-digest"), ["", ""])
    page.tab("draw")


def fields(counts: Counts, page: Page) -> None:
    """Each field empty, blank, long, with quotation marks, hidden characters and half a character."""
    begun(page)
    for name, called in CALLED.items():
        for value in ("", "   ", "half"):
            page.put(**{name: value})
            if value == "half":
                page.browser.run("document.getElementById(arguments[0]).value = '\\u00e9\\ud800';", name)
            pressed(page, "save-announcement")
            again = " again: it has half of a character, as a broken copy leaves it" if value.strip() else ""
            found = [*seen(page, "announce-error", "announcement-text"), focused(page)]
            counts.same(f"{name} is {value!r}", found, [f"Type {called}{again}.", "", name])
        for value in page.share(('"', ' "x" ', "a\\b", "\u200b\u202eabc", "\U0001f469\u200d\U0001f4bb", "x" * 10000,
                                 "a\u00a0b", "\u5f20")):
            page.put(**{name: value})
            wanted = EXAMPLE._replace(**{name: quoted(value.encode())}).text()
            counts.same(f"{name} is {value[:20]!r}", saved(page), wanted.encode())
            is_told = bool(seen(page, "announcement-escapes")[0])
            counts.same(f"{name} is {value[:20]!r}: escapes", is_told, "\\" in wanted)
        page.put(**{name: FIELDS[name]})
        pressed(page, "save-announcement")
        page.browser.run("document.getElementById('announcement').hidden = true;")
    page.put(source="one\n  two")
    counts.same("two lines", saved(page), EXAMPLE._replace(source='"one two"').text().encode())


def numbers(counts: Counts, page: Page) -> None:
    begun(page)
    winners = "Type how many winners there are: a number from 1 on, with digits only."
    reserves = "Type how many reserves there are: a number, with digits only. 0 means none."
    few = "The list has too few entrants for {} winners and {} reserves: 12."
    for name, value, wanted in (
            *(("winners", value, winners) for value in ("", "0", "x", "-1", "1.5", "1e1", "all", "3 4", "\u0663")),
            *(("reserves", value, reserves) for value in ("", "x", "-1", "1.5", "none")),
            ("winners", "12", few.format(12, 1)), ("winners", "13", few.format(13, 1)),
            ("reserves", "10", few.format(3, 10))):
        page.put(**{"winners": "3", "reserves": "1", name: value})
        pressed(page, "save-announcement")
        counts.same(f"{name}: {value!r}", seen(page, "announce-error")[0], wanted)
        is_marked = page.browser.run("return document.activeElement.getAttribute('aria-invalid');")
        counts.same(f"{name}: {value!r} is marked", is_marked, "true")
    for won, kept in (("12", "0"), ("1", "11"), ("03", "01"), (" 3 ", "1")):
        page.put(winners=won, reserves=kept)
        counts.same(f"{won} and {kept}", saved(page),
                    EXAMPLE._replace(winners=int(won), reserves=int(kept)).text().encode())


def combined(throws: int) -> int:
    return math.comb(49, 6) * 2**30 * 6**throws


def enough(counts: Counts, page: Page) -> None:
    """The page says how many sets there are, how many bits the seed has, and whether that is enough."""
    meaning = (" Enough means: at least as many seeds as sets of winners, so that no set is impossible by counting. "
               "With exactly as many, some sets still come from no seed. So ")
    thrown, others = (f"{meaning}{advice} more than that." for advice in (
        "throw the die at least 2 times", "the seed should have 5 bits"))
    begun(page, "".join(f"n{number}\n" for number in range(340)).encode(), winners="12", reserves="0")
    counts.same("12 of 340 in throws", seen(page, "preset-throws"), ["30"])
    sets = "12 of 340: 2^71.8 sets of winners could come."
    few = "That is not enough: some sets cannot come."
    throws = "28 throws of a die are enough, 27 are not."
    for preset, values, has, is_enough in (
            ("die", {"throws": "28"}, "72.4 bits (28 throws of a die)", True),
            ("die", {"throws": "27"}, "69.8 bits (27 throws of a die)", False),
            ("die", {"throws": "1"}, "2.6 bits (1 throw of a die)", False),
            ("lottery", {}, "23.7 bits (6 numbers of 49)", False),
            ("lottery", {"numbers": "20", "of": "80"}, "61.6 bits (20 numbers of 80)", False),
            ("prices", {"prices": "8"}, "80.0 bits (8 prices, at about 10 bits each, which is an estimate)", True),
            ("prices", {"prices": "1"}, "10.0 bits (1 price, at about 10 bits each, which is an estimate)", False),
            ("drand", {}, "256.0 bits (64 hexadecimal digits)", True),
            ("several", {"throws": "20", "numbers": "6", "of": "49", "prices": "3"},
             f"{math.log2(combined(20)):.1f} bits (6 numbers of 49; 3 prices, at about 10 bits each, which is an "
             "estimate; 20 throws of a die)", True)):
        page.browser.run(CHOOSE, preset)
        page.put(**{f"preset_{name}": value for name, value in values.items()})
        wanted = f"{sets} The seed has {has}. {'That is enough.' if is_enough else few} {throws}"
        wanted += thrown if "throws" in values else others
        counts.same(f"{preset}, {values}", seen(page, "enough")[0], wanted)
    page.browser.run(CHOOSE, "other")
    counts.same("something else", seen(page, "enough")[0],
                f"{sets} How many seeds this form has, the page cannot know. There have to be as many as sets. {throws}"
                + others)
    page.browser.run(CHOOSE, "die")
    for winners in ("", "0", "341", "x"):
        page.put(winners=winners)
        counts.same(f"{winners!r} winners", seen(page, "enough"), [""])
    for winners in (1, 2, 150, 339, 340):
        page.put(winners=str(winners))
        found = seen(page, "enough")[0]
        begin = f"{winners} of 340: 2^{math.log2(math.comb(340, winners)):.1f} sets of winners could come."
        is_more = math.comb(340, winners) > 2**256
        end = "100 throws of a die use all keys that there are." if is_more else thrown
        least = needed(math.comb(340, winners))
        right = found.startswith(begin) and found.endswith(end) and (
            is_more or winners == 340 or re.search(rf"\b{least} throws? of a die (is|are) enough", found) is not None)
        counts.case(f"{winners} winners", "" if right else found)


def presets(counts: Counts, page: Page) -> None:
    """Each preset fills in texts, which can be edited; no blank of a text is left; the example has the stated form."""
    begun(page)
    asks = {"die": ["throws"], "lottery": ["numbers", "of"], "prices": ["prices"], "drand": ["key", "round"],
            "several": ["numbers", "of", "prices", "throws"], "other": []}
    shapes = {"die": r"([1-6] ){19}[1-6]", "lottery": r"([1-9][0-9]? ){5}[1-4][0-9]",
              "prices": r"([0-9]+\.[0-9]{2} ?){3}",
              "drand": "[0-9a-f]{64}", "several": r"([0-9]+\.){6}/([0-9]+\.){3}/([1-6]\.){20}/", "other": ""}
    for preset, wanted in asks.items():
        page.put(preset_throws="20")
        page.browser.run(CHOOSE, preset)
        counts.same(f"{preset} asks", page.browser.run(ASKED), wanted)
        source, form, example = seen(page, "source", "form", "example")
        counts.case(f"{preset}: the example", "" if re.fullmatch(shapes[preset], example) else example)
        counts.same(f"{preset}: what readers check", "SHA-256" in seen(page, "preset-checks")[0], preset == "drand")
        for _ in range(8):
            blank = BLANKS.search(seen(page, "source")[0])
            if blank is None:
                break
            pressed(page, "save-announcement")
            counts.same(f"{preset}: {blank[0]}", seen(page, "announce-error"),
                        [f"Replace {blank[0]} in the source of the seed."])
            page.put(source=seen(page, "source")[0].replace(blank[0], "X"))
        if preset == "other":
            counts.same("something else", [source, form, example], ["", "", ""])
            continue
        source = seen(page, "source")[0]
        wanted_text = EXAMPLE._replace(source=quoted(source.encode()), form=quoted(form.encode()),
                                       example=quoted(example.encode())).text()
        counts.same(f"{preset}: its file", saved(page), wanted_text.encode())
    page.browser.run(CHOOSE, "drand")
    page.put(preset_key="ab" * 48, preset_round="4242")
    counts.same("a drand round", seen(page, "source")[0],
                f"round 4242 of the drand chain with the public key {'ab' * 48}")
    page.browser.run(CHOOSE, "die")
    page.put(form="as they fall", preset_throws="5")
    counts.same("an edited text stays", seen(page, "form", "example"), ["as they fall", "4 1 6 3 3"])
    for value in ("", "0", "1001", "x"):
        page.put(preset_throws=value)
        counts.same(f"{value!r} throws", seen(page, "form", "example", "enough"), ["as they fall", "4 1 6 3 3", ""])
    page.browser.run(CHOOSE, "die")


def filled(page: Page) -> List[str]:
    return seen(page, "source", "form", "example", "preset-throws", "preset-numbers")


def of_preset(page: Page, preset: str) -> None:
    """A fresh page with the texts of a preset, without blanks and not edited otherwise."""
    page.load()
    page.open_file("".join(f"n{number}\n" for number in range(340)).encode())
    page.facts()
    page.put(**{**{name: FIELDS[name] for name in ("occasion", "time")}, "winners": "2", "reserves": "0"})
    page.browser.run(CHOOSE, preset)


def edited(counts: Counts, page: Page) -> None:
    """After a text was edited, more winners change no text and no number: the page says that it is not enough."""
    cases = product(("die", "several", "lottery", "prices"), ("source", "form", "example"))
    for preset, text in page.share(cases):
        of_preset(page, preset)
        page.put(winners="100")
        before = filled(page)
        counts.same(f"{preset}: advised", before[3], "" if preset in ("lottery", "prices") else "100")
        page.put(winners="2")
        page.put(**{text: seen(page, text)[0] + " x"})
        before = filled(page)
        for winners in ("12", "100", "1", "170"):
            page.put(winners=winners)
            counts.same(f"{preset}, {text} was edited, {winners} winners", filled(page), before)
        page.put(winners="12")
        found = seen(page, "enough")[0]
        counts.same(f"{preset}, {text} was edited: not enough", [
            "That is not enough: some sets cannot come." in found, "28 throws of a die are enough" in found],
                    [preset != "several", True])
        page.open_file("".join(f"n{number}\n" for number in range(5000)).encode())
        page.facts()
        counts.same(f"{preset}, {text} was edited, another list", filled(page), before)
        page.put(**{text: before[("source", "form", "example").index(text)][:-2]})
        page.put(winners="13")
        counts.same(f"{preset}, {text} is as before: advised", filled(page)[3] != before[3], "throws" in before[0])


def typed_anew(counts: Counts, page: Page) -> None:
    """A value that changes after a text was edited: the words for it change, whatever is typed in between."""
    kept = "120 throws, 20 throwsters and 2 throws"
    for preset, field, keys, old, new in page.share((
            ("die", "preset_throws", ("2", "", "0", "3", "30"), "20 throws", "30 throws"),
            ("die", "preset_throws", ("x", "1"), "20 throws", "1 throw"),
            ("several", "preset_throws", ("2", "22", "228"), "20 throws", "228 throws"),
            ("several", "preset_numbers", ("", "2", "20"), "6 numbers", "20 numbers"),
            ("lottery", "preset_numbers", ("60", "7"), "6 numbers", "7 numbers"),
            ("drand", "preset_round", ("4", "42"), "round [round]", "round 42"),
            ("drand", "preset_key", ("$&", "$1 (a.c)"), "public key [public key]", "public key $1 (a.c)"))):
        of_preset(page, preset)
        source, form = seen(page, "source", "form")
        page.put(source=f"Look: {source}; {kept}", form=f"{form} ({old})")
        for key in keys:
            page.put(**{field: key})
        found = seen(page, "source", "form", "disagreements")
        counts.same(f"{preset}, {field}: {keys[-1]}", found, [
            f"Look: {source}; {kept}".replace(old, new, 1), f"{form} ({new})", ""])
        page.put(source=found[0].replace(new, new.replace(" ", " \n", 1), 1))
        counts.same(f"{preset}, {field}: another line", seen(page, "disagreements"), [""])
        page.put(**{field: "5"})
        counts.same(f"{preset}, {field}: typed again", new not in " ".join(seen(page, "source")[0].split()), True)


def apart(counts: Counts, page: Page) -> None:
    """A source without the words of a value is a warning, and one with another number of throws is not saved."""
    compare = "The source of the seed does not say “{}”. Compare the two."
    for preset, source, throws, warning, said in page.share((
            ("die", "20 throws", "20", "", None), ("die", "20\n throws", "20", "", None),
            ("die", "20 THROWS: 10 throws by each", "20", "", None), ("die", "1 throw", "1", "", None),
            ("die", "25 throws", "20", "20 throws", 25), ("die", "25 throws, 7 throws", "20", "20 throws", 25),
            ("die", "120 throws", "20", "20 throws", 120), ("die", "2 throws", "20", "20 throws", 2),
            ("die", "1 throw", "20", "20 throws", 1), ("die", "20 throws", "1001", "", 20),
            ("die", "20 throws", "", "", None), ("die", "twenty throws", "20", "20 throws", None),
            ("die", "a die, 20 times", "20", "20 throws", None),
            ("several", "6 numbers, 25 throws", "20", "20 throws", 25),
            ("several", "7 numbers, 20 throws", "20", "6 numbers", None),
            ("lottery", "6 numbers, 25 throws", "20", "", None), ("lottery", "some", "20", "6 numbers", None),
            ("other", "25 throws", "20", "", None))):
        of_preset(page, preset)
        page.put(preset_throws=throws)
        page.put(source=source)
        if preset == "other":
            page.put(form="a form", example="an example")
        counts.same(f"{preset}, {source!r}: a warning", seen(page, "disagreements"),
                    [warning and compare.format(warning)])
        pressed(page, "save-announcement")
        error, text = seen(page, "announce-error", "announcement-text")
        counts.same(f"{preset}, {source!r}: saved", [error, bool(text)], [
            "" if said is None else f"The source of the seed says {said} throw{'s' * (said != 1)}, but the number of "
            f"throws is {throws}. Change one of them.", said is None])
        counts.same(f"{preset}, {source!r}: the field", focused(page) == "source", said is not None)
    of_preset(page, "die")
    page.put(source="a die, 20 times", preset_throws="30")
    counts.same("throws that no words have", seen(page, "source", "disagreements"),
                ["a die, 20 times", compare.format("30 throws")])
    of_preset(page, "several")
    page.put(source="25 throws", preset_numbers="x")
    pressed(page, "save-announcement")
    counts.same("another value is missing", seen(page, "announce-error"), [
        "The source of the seed says 25 throws, but the number of throws is 20. Change one of them."])
    of_preset(page, "lottery")
    page.put(source=seen(page, "source")[0] + ".", preset_numbers="1")
    counts.same("one number", seen(page, "source", "disagreements"), [
        "the 1 number of [name of the lottery], drawn on [date], without additional numbers.", ""])
    of_preset(page, "die")
    page.put(source="30 throws, 2 throws each")
    for value in ("30", "40", "1", "20", "25"):
        for key in (value[0], value):
            page.put(preset_throws=key)
        page.browser.run(LEAVE, "preset-throws")
        counts.same(f"the source first, then {value} throws", seen(page, "source", "disagreements"), [
            f"{value} {'throw' if value == '1' else 'throws'}, 2 throws each", ""])
    of_preset(page, "die")
    page.put(example="1 2 3")
    counts.same("a short example", seen(page, "disagreements"), ["The example has 3 parts between spaces, and not 20."])
    page.put(form="as they fall")
    counts.same("a short example of another form", seen(page, "disagreements"), [""])


def by_chance(counts: Counts, page: Page) -> None:
    """Whatever is changed in any order: what is saved does not say another number of throws than its field. Each
    browser has changes of its own."""
    rng = random.Random(7 + page.number)
    page.browser.run(CHOOSE, "die")
    saves = 0
    for turn in range(TURNS // page.browsers):
        kind = rng.randrange(6)
        if kind == 0:
            page.put(winners=str(rng.randint(1, 340)))
        elif kind == 1:
            page.put(preset_throws=rng.choice(["", "1", "2", "20", "30", "99", "x"]))
        elif kind == 2:
            page.browser.run(CHOOSE, rng.choice(["die", "several"]))
        elif kind == 3:
            text = rng.choice(["source", "form", "example"])
            old = seen(page, text)[0]
            page.put(**{text: rng.choice([f"{old}.", f"2 {old}", old.replace("20", "30"), old[3:] or "x"])})
        else:
            page.put(source=BLANKS.sub("X", seen(page, "source")[0]))
        throws, before = seen(page, "preset-throws", "source")
        pressed(page, "save-announcement")
        told, text = seen(page, "announce-error", "announcement-text")
        said = [int(one) for one in re.findall(r"(?i)([0-9]+)\s+throws?\b", before)]
        is_apart = throws not in ("", "x") and bool(said) and int(throws) not in said
        if is_apart:
            counts.same(f"turn {turn}: {throws} and {before!r}", told != "", True)
        elif not told:
            saves += 1
            counts.same(f"turn {turn}: saved", quoted(before.encode()) in text, True)
    counts.case("some are saved", "" if saves * page.browsers > 40 else str(saves))


def stale(counts: Counts, page: Page) -> None:
    """After a change of the list or of a field, the saved announcement is marked until the change is undone."""
    for name, value in page.share(FIELDS.items()):
        begun(page)
        saved(page)
        page.put(**{name: "2" if value.isdigit() else f"{value}."})
        counts.same(f"{name} has changed", seen(page, "announcement-stale"), [STALE])
        page.put(**{name: value})
        counts.same(f"{name} is as before", seen(page, "announcement-stale"), [""])
    for data in (LIST + b"Max\n", LIST.replace(b"Ada", b"Eve"), LIST[:-1]):
        page.open_file(data)
        page.facts()
        counts.same(f"the list {data[-8:]!r}", seen(page, "announcement-stale"), [STALE])
    counts.same("saved again", saved(page), EXAMPLE._replace(digest=sha256(LIST[:-1])).text().encode())
    counts.same("it is new", seen(page, "announcement-stale"), [""])
    page.open_file(LIST)
    page.facts()
    page.browser.run("window.print = () => { window.printed = document.getElementById('panel').dataset.paper; };")
    pressed(page, "print-announcement")
    counts.same("it is new if printed", [page.browser.run("return window.printed;"), *seen(page, "announcement-stale")],
                ["announcement", ""])
    page.put(winners="4")
    counts.same("a printed one", seen(page, "announcement-stale"), [STALE.replace("saved", "printed")])


def paper(counts: Counts, page: Page) -> None:
    """The announcement is printed on one sheet: its text, its SHA-256 and the lines for signatures."""
    begun(page, source="x" * 500)
    page.browser.run("""window.print = () => {
        window.occasion = document.getElementById("paper-occasion").textContent; };""")
    pressed(page, "print-announcement")
    counts.same("the occasion on paper", page.browser.run("return window.occasion;"), EXAMPLE.occasion)
    page.browser.run("document.getElementById('panel').dataset.paper = 'announcement'; window.showAgain = () => {};")
    if page.browser.media("print"):
        counts.same("on paper", page.browser.run(PAPER),
                    ["announcement-text", "announcement-digest", "paper-title", "signatures"])
        page.browser.run("document.getElementById('panel').dataset.paper = 'list';")
        counts.same("on the paper of the list", page.browser.run(PAPER),
                    ["entrants", "list-digest", "paper-title", "signatures"])
        page.browser.media()
    page.browser.run("""addEventListener("beforeprint", () => {
        document.getElementById("panel").dataset.paper = "announcement"; });""")
    counts.same("sheets of paper", sheets(page.browser.printed()), 1)


def heard(counts: Counts, page: Page) -> None:
    """A screen reader does not read the same again while a field is typed."""
    begun(page)
    pressed(page, "save-announcement")
    page.put(winners="4")
    page.browser.run("""window.changes = 0;
        const watcher = new MutationObserver((records) => { window.changes += records.length; });
        for (const id of ["enough-status", "announcement-status"]) {
          watcher.observe(document.getElementById(id), { childList: true, characterData: true, subtree: true });
        }""")
    for text in ("a", "ab", "abc"):
        page.put(occasion=text)
    counts.same("what is said again", page.browser.run("return window.changes;"), 0)
    page.put(winners="5")
    counts.case("what is said anew", "" if page.browser.wait("return window.changes;") else "nothing")


def run(counts: Counts, page: Page, downloads: Path) -> None:
    page.browser.size(1000, 900)
    known(counts, page, downloads)
    with page.unpainted():
        for part in (fields, numbers, presets, edited, typed_anew, apart, by_chance, stale, enough, heard):
            part(counts, page)
    paper(counts, page)
    page.load()
