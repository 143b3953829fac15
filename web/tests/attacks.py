"""Attacks on the check: mutated records, forged ones beside a true one, and lookalikes in records and lists. Nothing
agrees in which a reader sees something else than what was checked."""

import random
import re
from typing import Any, Callable, Dict, List, Tuple

from counts import UNSEEN, Counts, sha256
from page import PARTS, Page
from records import FORMAT1, FORMAT2, OLD_TITLE, TITLE, Layout, old_record, without_module

NAMES = ["Zoë O'Neil-Fisher", "Ada B. Ito", "Finn A1", "Chidi Ivo", "Ona Aa 7", "Max Co-op", "Sofia Ek", "Noa' Ross"]
LIST = "".join(f"{name}\n" for name in NAMES)
SEED = "Zoë's first throw: 4-1-6 3 1"
NUMBER = 400
# A colon, and what looks like one.
COLONS = ":\u02d0\u02f8\u0589\u05c3\u0703\u0704\u16ec\u1803\u1809\u205a\u2236\ua4fd\ua789\ufe13\ufe30\ufe55\uff1a"
# Letters that mutations put into a record.
LETTERS = [*"0123456789abcdefxyzAZ\\\":. >-'\n\t", "\u0430", "\u2019", "\u201c", "ë"]


def instead(before: str, *after: str) -> Callable[[str], str]:
    """Replaces each letter of one text by that of another."""
    letters = dict(zip(before, after))
    return lambda letter: letters.get(letter, letter)


# Each of these looks like what it replaces, or is invisible beside it.
LOOKALIKES: "Dict[str, Callable[[str], str]]" = {
    "Cyrillic": instead("aoeAM", *"\u0430\u043e\u0435\u0410\u041c"),
    "Greek": instead("oAIZM", *"\u03bf\u0391\u0399\u0396\u039c"),
    "full width": lambda letter: chr(ord(letter) + 0xfee0) if "!" <= letter <= "~" else letter,
    "a no-break space": instead(" ", "\u00a0"),
    "an ideographic space": instead(" ", "\u3000"),
    "two spaces": instead(" ", "  "),
    "a zero width space": lambda letter: letter + "\u200b",
    "a zero width joiner": lambda letter: letter + "\u200d",
    "a directional mark": lambda letter: letter + "\u200e",
    "a soft hyphen": lambda letter: letter + "\u00ad",
    "a byte order mark": lambda letter: "\ufeff" + letter,
    "an accent of its own": instead("ë", "e\u0308"),
    "a curly apostrophe": instead("'", "\u2019"),
    "another dash": instead("-", "\u2010"),
    "upper and lower case": lambda letter: letter.swapcase() if letter.isalpha() else letter,
}
# Each of these is put beside every third letter of a record, and between them they are put beside every letter.
INVISIBLE = ["a zero width space", "a zero width joiner", "a directional mark", "a soft hyphen", "a byte order mark"]
# Checks each text with the page's own field and button. The answer: its outcome, and what it says that it checked. The
# page is hidden meanwhile, as laying it out after each check takes two thirds of the time.
CHECK_ALL = PARTS + """
const [texts] = arguments;
const checked = async (text) => {
  set("check-text", text);
  await press("check");
  const { outcome } = part("outcome").hidden ? {} : part("outcome").dataset;
  const reading = part("reading").hidden ? [] : ["announcement", "seed", "list", "count", "drawn"]
    .map((name) => `reading-${name}`).map((id) => part(id).innerText);
  return [outcome ?? "", reading];
};
document.body.hidden = true;
return (async () => {
  const found = [];
  for (const text of texts) found.push(await checked(text));
  document.body.hidden = false;
  return found;
})();
"""
# The same for lists, with one record.
CHECK_LISTS = PARTS + """
const [lists] = arguments;
document.body.hidden = true;
return (async () => {
  const found = [];
  for (const list of lists) {
    set("list-text", list);
    await press("check");
    found.push(part("outcome").hidden ? "an error" : part("outcome").dataset.outcome);
  }
  document.body.hidden = false;
  return found;
})();
"""
TITLES = [
    "nanorand public draw 1", "NANORAND PUBLIC DRAW 1", "Nanorand Public Draw 1", "nanorand  public draw 1",
    "nanorand public draw 2", "nanorand public draw", "  nanorand public draw 1", "*nanorand public draw 1*",
    "“nanorand public draw 1”", "nanorand-public-draw 1", "nanorand public draw: 1", "nan\u043erand public draw 1",
    "nanorand\u00a0public\u00a0draw 1", "nano\u200brand public draw 1", "\uff4eanorand public draw 1",
    "> nanorand public draw 1", "\ufeffnanorand public draw 1", "nanorand public draw 1 ", "# nanorand public draw 1",
    "nanorand pub\u04cfic draw 1", "nanorand publ\u0131c draw 1", "nanorand publi\u03f2 dra\u051d 1",
    "\u200b" * 2000 + "nanorand public draw 1", "\u3164\u115fnanorand\u3164public draw 1",
    "n\u0301anorand public draw 1",
    "Yours\u2028nanorand public draw 1", "Yours\vnanorand public draw 1", "Yours\u0085nanorand public draw 1",
]


def plain(text: str) -> str:
    """A text without what a mail program may change: marks of quotations, spaces at the ends of lines, and folds."""
    text = re.sub(r"^>[> ]*", "", text, flags=re.M)
    return re.sub(r"[ \n]+", "", re.sub(r"[ \t\r]+$", "", text, flags=re.M))


def mutated(rng: random.Random, record: str, most: int) -> str:
    """The record with one change or up to `most` ones: of letters, words, lines or values."""
    for _ in range(rng.randint(1, most)):
        lines = record.split("\n")
        place, line = rng.randrange(len(record)), rng.randrange(len(lines))
        other = rng.randrange(len(lines))
        letter = rng.choice([*LETTERS, *UNSEEN])
        kind = rng.randrange(9)
        if kind == 0:
            record = record[:place] + letter + record[place + 1:]
        elif kind == 1:
            record = record[:place] + letter + record[place:]
        elif kind == 2:
            record = record[:place] + record[place + rng.choice([1, 1, 2, 8]):]
        elif kind == 3:
            lines[line], lines[other] = lines[other], lines[line]
            record = "\n".join(lines)
        elif kind == 4:
            record = "\n".join(lines[:line] + lines[line + 1:])
        elif kind == 5:
            record = "\n".join(lines[:line] + [lines[other]] + lines[line:])
        elif kind == 6:
            change = rng.choice(list(LOOKALIKES.values()))
            record = record[:place] + change(record[place]) + record[place + 1:] if place < len(record) else record
        elif kind == 7:
            number = rng.randrange(10)
            record = re.sub(r"[0-9]+", lambda found: str(number), record, count=rng.randrange(1, 9))
        else:
            winner = rng.choice(NAMES)
            record = re.sub(rf"^{rng.randrange(1, 9)}: .*$", lambda found: found[0][:3] + winner, record, flags=re.M)
    return record


def checked(page: Page, texts: List[str]) -> List[Tuple[str, List[str]]]:
    return [(outcome, reading) for part in range(0, len(texts), 200)
            for outcome, reading in page.browser.run(CHECK_ALL, texts[part:part + 200])]


def judge(counts: Counts, name: str, record: str, said: List[str], text: str, found: Tuple[str, List[str]]) -> None:
    """A text may agree if it has the record, but for what a mail may change, and the answer shows just that. A record
    of format 2 may lack the line of its module."""
    outcome, reading = found
    if outcome not in ("agrees", "other module"):
        counts.case(name, "" if outcome in ("differs", "no record") else f"{outcome!r}: {text}")
        return
    if outcome == "agrees" and record.startswith(TITLE) and "module SHA-256: " not in text:
        record = without_module(record)
    without = r"(?m)^(?:version|module SHA-256): .*\n" if outcome == "other module" else r"(?!)"
    has_it = plain(re.sub(without, "", record)) in plain(re.sub(without, "", text))
    titles = len(re.findall(r"nanorand public draw", text))
    counts.case(name, "" if (has_it, titles, reading) == (True, 1, said) else f"{outcome}: {reading} of {text!r}")


def mutations(counts: Counts, page: Page, record: str, said: List[str]) -> None:
    rng = random.Random(78 + page.number)
    texts = [mutated(rng, record, most) for most in (1, 3) for _ in range(NUMBER // page.browsers)]
    for index, (text, found) in enumerate(zip(texts, checked(page, texts))):
        judge(counts, f"mutation {index}", record, said, text, found)


def forged(counts: Counts, page: Page, record: str, said: List[str]) -> None:
    """A second record, true or forged, above or below the first one, is an error, and so is what looks like one."""
    lines = record.split("\n")
    winners = "\n".join(f"{number}: Mallory" for number in range(1, 4))
    texts = {}
    for title in TITLES:
        other = "\n".join([title, *lines[1:8]]) + f"\n{winners}\n"
        for way, text in (("below", f"{record}{other}"), ("further below", f"{record}\n\n-- \n{other}"),
                          ("above", f"{other}\n{record}"), ("a title below", f"{record}{title}\n"),
                          ("a title above", f"{title}\n{record}")):
            texts[f"{title!r}, {way}"] = text
    for (name, text), (outcome, _) in zip(texts.items(), checked(page, list(texts.values()))):
        counts.same(name, outcome, "no record")
    reason = f"Line {len(lines)}: a second record begins here. Check one record at a time."
    counts.same("its reason", page.check(record + record)["findings"], [reason])
    for text, others in ((f"I sent you a draw, see below.\n{record}", 1), (f"{record}\nThe program is it.\n\n", 1),
                         (f"Winners: Mallory\n{record}\nWinners: Mallory\n1. Mallory\n", 3), (record, 0)):
        [(outcome, reading)] = checked(page, [text])
        counts.same(f"the answer shows what it checked: {text[:20]!r}", (outcome, reading), ("agrees", said))
        unchecked = page.browser.run("return document.getElementById('unchecked').innerText;")
        first = text.split("\n").index(record.split("\n")[0]) + 1
        last = first + record.count("\n") - 1
        lines = "1 other line was" if others == 1 else f"{others} other lines were"
        wanted = (f"Only lines {first} to {last} of the text are the record. Its {lines} not checked, and may "
                  "say anything.")
        counts.same(f"what it did not check: {others}", unchecked, wanted if others else "")


def beside_a_record(counts: Counts, page: Page, record: str) -> None:
    """A line outside of a record that looks like one of its lines is an error."""
    lines = record.split("\n")
    looks = [
        "9:\u00a0Mallory", "\u200b9: Mallory", "9\u200b: Mallory", " 9: Mallory", "9:\tMallory", "9 : Mallory",
        "9:Mallory", "\uff19: Mallory", "\u0669: Mallory", "9:", "\u202eyrollaM :9",
        *(f"{before}{colon} Mallory" for colon in COLONS for before in ("9", "seed")),
        "and\u00a01 more",
        "And 1 more", "drawn: 4", "Drawn : 4", "result SHA-256: 00", "se\u200bed: x", "s\u0435ed: x",
        "list sha256: 00", "version: 2", "announcement SHA-256: none", "Announcement SHA256 : x", "end of the record",
        "End of the record.", "-- end of the\u00a0record --", "end \u043ef the record",
        "1. nanorand public draw 1", "The nanorand public draw 1", "<b>nanorand public draw 1</b>",
        "nanorand public\ndraw 1", "nanorand\npublic draw 1", "nan\u0585rand public draw 1",
        "nan\u1d0frand public draw 1", "x\u2028nanorand public draw 1",
    ]
    texts = {}
    for look in looks:
        for way, text in (("below", f"{record}{look}\n"), ("further below", f"{record}\nYours\n{look}\n"),
                          ("above", f"{look}\n\n{record}")):
            texts[f"{look!r}, {way}"] = text
    for (name, _), (outcome, _) in zip(texts.items(), checked(page, list(texts.values()))):
        counts.same(name, outcome, "no record")
    hidden = "\n".join([*lines[:1], *("> " + 400 * " " + line for line in lines[1:])])
    counts.same("lines far to the right", page.check(hidden)["outcome"], "no record")
    quoted = record.replace("\n", "\n> ")
    mail = f"On 12 March at 12:30 she wrote:\n> 12:30 lunch\n>\n> {quoted}\nAt 13:00: see 4.\n"
    counts.same("a mail with times", page.check(mail)["outcome"], "agrees")
    counts.same("its reason", page.check(f"{record}\nseed: x\n")["findings"], [
        f"Line {len(lines) + 1}: this line is not part of the record, but looks as if it were. Remove it, and ask who "
        "wrote it."])


def lookalikes_in_records(counts: Counts, page: Page, layout: Layout, record: str) -> None:
    """No letter of a record can be replaced by one that looks like it. A byte order mark before the first one is
    ignored."""
    others = [layout.line(name) for name in ("version", "module SHA-256") if name in layout.names]
    texts = {}
    for name, change in LOOKALIKES.items():
        for place, letter in enumerate(record):
            if name in INVISIBLE and (place + INVISIBLE.index(name)) % 3 != 0:
                continue
            if letter != "\n" and change(letter) != letter and record[place + 1:place + 2] != "\n":
                texts[name, place] = record[:place] + change(letter) + record[place + 1:]
    texts.pop(("a byte order mark", 0), None)
    wrong = {}
    shared = dict(page.share(texts.items()))
    for (name, place), (outcome, _) in zip(shared, checked(page, list(shared.values()))):
        right = outcome in ("no record", "differs")
        # The version and the module may be others.
        line = record[:place].count("\n") + 1
        if not right and not (outcome == "other module" and line in others):
            wrong.setdefault(name, []).append((place, outcome))
    for name in LOOKALIKES:
        counts.same(f"a record with {name}", wrong.get(name, []), [])
        counts.case(f"records with {name}", "" if sum(kind == name for kind, _ in texts) > 0 else "there are none")


def lookalikes_in_lists(counts: Counts, page: Page, record: str) -> None:
    """A record does not agree with a list in which one letter is another that looks like it. The page warns of a list
    with both lines."""
    page.tab("check")
    page.browser.run("document.getElementById('check-text').value = arguments[0];", record)
    for name, change in LOOKALIKES.items():
        lists = [LIST[:place] + change(letter) + LIST[place + 1:] for place, letter in enumerate(LIST)
                 if letter != "\n" and change(letter) != letter]
        found = page.browser.run(CHECK_LISTS, page.share(lists))
        counts.same(f"lists with {name}", (set(found), len(lists) > 0), ({"differs"} if found else set(), True))
        line = next(line for line in NAMES if any(change(letter) != letter for letter in line))
        place = next(place for place, letter in enumerate(line) if change(letter) != letter)
        page.paste(f"{LIST}{line[:place]}{change(line[place])}{line[place + 1:]}\n")
        warnings = page.facts()["warnings"]
        is_told = any("equals an earlier line" in warning for warning in warnings)
        counts.case(f"a warning of {name}", "" if is_told else str(warnings))
    page.browser.run(CHECK_LISTS, [LIST])
    counts.same("the list itself", page.shown()["outcome"], "agrees")


def lookalike_winners(counts: Counts, page: Page, record: str) -> None:
    """If a winner of a record looks like the one of the draw, the letter that differs is marked in both."""
    page.paste(LIST)
    for before, after, marks in (("Zoë", "Zoe\u0308", ["e\u0308U+0065 U+0308", "ëU+00EB"]),
                                 ("A", "\u0410", ["\u0410U+0410", "AU+0041"]),
                                 ("i", "\u0456", ["\u0456U+0456", "iU+0069"]), ("a", "A", ["AU+0041", "aU+0061"])):
        lines = record.split("\n")
        index = next(index for index, line in enumerate(lines) if index > 7 and before in line)
        lines[index] = lines[index].replace(before, after, 1)
        shown = page.check("\n".join(lines))
        found = page.browser.run("""return Array.from(document.querySelectorAll("#findings mark"),
            (mark) => mark.textContent);""")
        counts.same(f"a winner with {after!r}", (shown["outcome"], found), ("differs", marks))
    page.check(record.replace("1: ", "1: Mallory ", 1))
    counts.same("another winner is not marked",
                page.browser.run("return document.querySelectorAll('#findings mark').length;"), 0)


def reasons(counts: Counts, page: Page, layout: Layout, record: str) -> None:
    """What word processors and mail programs do to a record is said with its line."""
    curly = "The line has a curly quotation mark, {}, as word processors make it. "
    unseen = "The line has an invisible character, {}. "
    escape = "The character U+00A0 no-break space has to be written as \\xc2\\xa0 here. "
    advice = "Ask for the file, or copy it as plain text."
    value, missing = "the value of “seed” cannot be read. ", "“list SHA-256: ” is missing. "
    title = f"a record begins with “{TITLE}” or “{OLD_TITLE}”. "
    within = escape if layout is FORMAT2 else unseen.format("U+00A0 no-break space")
    seed, digest, sum_of_list = layout.line("seed"), layout.line("list SHA-256"), sha256(LIST.encode())
    for before, after, line, reason in (
            ('seed: "', "seed: “", seed, value + curly.format("“")), ('1"\n', "1”\n", seed, value + curly.format("”")),
            ('seed: "', "seed: «", seed, value + curly.format("«")),
            ('seed: "', "seed: „", seed, value + curly.format("„")), ("throw:", "throw\u00a0:", seed, value + within),
            ("list SHA", "list\u00a0SHA", digest, missing + unseen.format("U+00A0 no-break space")),
            (f"SHA-256: {sum_of_list}", f"SHA-256:\u202f{sum_of_list}", digest,
             missing + unseen.format("U+202F narrow no-break space")),
            ("public draw", "public\u00a0draw", 1, title + unseen.format("U+00A0 no-break space")),
            ("nanorand", "\ufeff\ufeffnanorand", 1, title + unseen.format("U+FEFF byte order mark"))):
        shown = page.check(record.replace(before, after, 1))
        counts.same(f"{after!r} for {before!r}", (shown["outcome"], shown["findings"]),
                    ("no record", [f"Line {line}: {reason}{advice}"]))
    shown = page.check(record.replace("1: ", "1: \u200b", 1))
    no_winner = "“1: ” and an entrant are missing. " if layout is FORMAT1 else "the value of “1” cannot be read. "
    counts.same("an invisible character of a winner", shown["findings"],
                [f"Line 9: {no_winner}" + unseen.format("U+200B zero width space") + advice])


def attack(counts: Counts, page: Page, layout: Layout, record: str) -> None:
    page.paste(LIST)
    page.check(record)
    [(outcome, said)] = checked(page, [record])
    counts.same("the record itself", (outcome, said[:4]), ("agrees", [
        "none", '"ZoëU+00EB\'s first throw: 4-1-6 3 1"', sha256(LIST.encode()), "8 of 8"]))
    mutations(counts, page, record, said)
    forged(counts, page, record, said)
    beside_a_record(counts, page, record)
    lookalikes_in_records(counts, page, layout, record)
    lookalikes_in_lists(counts, page, record)
    lookalike_winners(counts, page, record)
    reasons(counts, page, layout, record)


def run(counts: Counts, page: Page, digests: Dict[int, str]) -> None:
    page.load()
    page.paste(LIST)
    page.fill(SEED, "8")
    shown: Dict[str, Any] = page.draw()
    record = shown["record"]
    counts.case("the module", "" if digests[64] in record else record)
    place = counts.place
    for layout, text in ((FORMAT2, record), (FORMAT1, old_record(record))):
        counts.place = f"{place}, {layout.title}"
        attack(counts, page, layout, text)
    counts.place = place
