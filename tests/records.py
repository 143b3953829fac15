"""The record of a public draw, in format 2, and its announcement, in format 1: a second definition, in Python.

`record` makes the record of a draw, and `is_record` says whether a text is the record of a draw from a list.
`announcement` makes the announcement of a draw, and `is_announcement` says whether a text is one. The draw is the
Python code of docs/LOTS.md. Nothing here is taken from the program `lots`, with which tests/compare_records.py compares
these functions.
"""

import hashlib
import re
from pathlib import Path

PAGE = Path(__file__).resolve().parent.parent / "docs/LOTS.md"

# How many entrants a record shows.
SHOWN = 1000

# The characters that do not show: code points and ranges of them.
HIDDEN = """
0-1F 7F-A0 AD 34F 600-605 61C 6DD 70F 890-891 8E2 115F-1160 1680 17B4-17B5 180B-180F 2000-200F 2028-202F 205F-206F 2800
3000 3164 D800-F8FF FDD0-FDEF FE00-FE0F FEFF FFA0 FFF0-FFFF 110BD 110CD 13430-1343F 1BCA0-1BCA3 1D173-1D17A
E0000-10FFFF
"""

BEGIN = re.compile(
    rb"nanorand public draw 2\n"
    rb"announcement SHA-256: (?P<announcement>none|[0-9a-f]{64})\n"
    rb'seed: "(?P<seed>[^\n]*)"\n'
    rb"list SHA-256: [0-9a-f]{64}\n"
    rb"entrants: [0-9]+\n"
    rb"drawn: (?P<drawn>0|[1-9][0-9]{0,19})\n"
    rb"(?:module SHA-256: (?P<module>[0-9a-f]{64})\n)?"
    rb"result SHA-256: "
)

ANNOUNCEMENT = re.compile(
    rb"nanorand announcement 1\n"
    rb'occasion: "(?P<occasion>[^\n]+)"\n'
    rb"list SHA-256: (?P<list>[0-9a-f]{64})\n"
    rb"entrants: (?P<entrants>0|[1-9][0-9]{0,19})\n"
    rb"winners: (?P<winners>[1-9][0-9]{0,19})\n"
    rb"reserves: (?P<reserves>0|[1-9][0-9]{0,19})\n"
    rb'seed source: "(?P<source>[^\n]+)"\n'
    rb'seed form: "(?P<form>[^\n]+)"\n'
    rb'seed example: "(?P<example>[^\n]+)"\n'
    rb'time: "(?P<time>[^\n]+)"\n'
    rb"end of the announcement\n"
)
TEXTS = ("occasion", "source", "form", "example", "time")


def draw_of_the_page():
    """The function `draw` of the first Python code in docs/LOTS.md."""
    source = re.search(r"^```python\n(.*?)^```$", PAGE.read_text(encoding="utf-8"), re.M | re.S)[1]
    names = {"__name__": "lots"}
    exec(compile(source, str(PAGE), "exec"), names)
    return names["draw"]


def hidden_characters():
    """The code points that `HIDDEN` names."""
    for item in HIDDEN.split():
        first, _, last = item.partition("-")
        yield from range(int(first, 16), int(last or first, 16) + 1)


draw = draw_of_the_page()
hidden = frozenset(hidden_characters())


def escapes(text):
    return "".join(f"\\x{byte:02x}" for byte in text)


def shown(text):
    """The bytes as a text in which everything shows."""
    try:
        letters = text.decode("utf-8")
    except UnicodeDecodeError:
        return "".join(escapes([byte]) if byte < 32 or byte > 126 or byte == 92 else chr(byte) for byte in text)
    return "".join(escapes(one.encode()) if one == "\\" or ord(one) in hidden else one for one in letters)


def spelled(text):
    """The bytes that a shown text spells. A backslash that begins no escape spells itself here: no record has one."""
    return re.sub(rb"\\x([0-9a-f]{2})", lambda found: bytes([int(found[1], 16)]), text)


def entrants_of(list_bytes):
    """The entrants of a list, or None if a line is empty."""
    lines = list_bytes.split(b"\n")
    if lines[-1] == b"":
        lines.pop()
    return None if b"" in lines else lines


def sum_of(text):
    return hashlib.sha256(text).hexdigest()


def record_by_sums(seed, list_bytes, count, announcement, module):
    """The record with these SHA-256, in digits or None."""
    entrants = entrants_of(list_bytes)
    if entrants is None or count > len(entrants) or seed == "":
        raise ValueError("there is no such draw")
    drawn = draw(seed, entrants, count)
    lines = [
        "nanorand public draw 2",
        f"announcement SHA-256: {announcement or 'none'}",
        f'seed: "{shown(seed.encode())}"',
        f"list SHA-256: {sum_of(list_bytes)}",
        f"entrants: {len(entrants)}",
        f"drawn: {count}",
        *([f"module SHA-256: {module}"] if module else []),
        f"result SHA-256: {sum_of(b''.join(entrant + bytes([10]) for entrant in drawn))}",
        *(f'{number}: "{shown(entrant)}"' for number, entrant in enumerate(drawn[:SHOWN], 1)),
        *([f"and {count - SHOWN} more"] if count > SHOWN else []),
        "end of the record",
    ]
    return "".join(line + "\n" for line in lines).encode()


def record(seed, list_bytes, count, announcement=None, module=None):
    """The record of the draw of `count` entrants from the list. The announcement and the module are bytes."""
    sums = [None if text is None else sum_of(text) for text in (announcement, module)]
    return record_by_sums(seed, list_bytes, count, *sums)


def announcement(occasion, winners, reserves, source, form, example, time, list_bytes):
    """The announcement of a draw from the list. The texts are not empty."""
    entrants = entrants_of(list_bytes)
    if entrants is None or winners < 1 or reserves < 0 or winners + reserves > len(entrants):
        raise ValueError("there is no such draw")
    if "" in (occasion, source, form, example, time):
        raise ValueError("a text is empty")
    values = [
        ("occasion", f'"{shown(occasion.encode())}"'),
        ("list SHA-256", sum_of(list_bytes)),
        ("entrants", len(entrants)),
        ("winners", winners),
        ("reserves", reserves),
        ("seed source", f'"{shown(source.encode())}"'),
        ("seed form", f'"{shown(form.encode())}"'),
        ("seed example", f'"{shown(example.encode())}"'),
        ("time", f'"{shown(time.encode())}"'),
    ]
    lines = ["nanorand announcement 1", *(f"{name}: {value}" for name, value in values), "end of the announcement"]
    return "".join(line + "\n" for line in lines).encode()


def is_quoted(value):
    """Whether the bytes are the shown text of UTF-8."""
    try:
        return shown(spelled(value).decode("utf-8").encode()).encode() == value
    except UnicodeDecodeError:
        return False


def is_announcement(text, list_bytes, count):
    """Whether the text is the announcement of a draw of `count` entrants, winners and reserves, from the list."""
    found = ANNOUNCEMENT.fullmatch(text)
    entrants = entrants_of(list_bytes)
    if not found or entrants is None or not all(is_quoted(found[name]) for name in TEXTS):
        return False
    winners, reserves = int(found["winners"]), int(found["reserves"])
    of_the_list = (found["list"].decode(), int(found["entrants"])) == (sum_of(list_bytes), len(entrants))
    return of_the_list and winners + reserves == count <= len(entrants)


def is_record(text, list_bytes, announcement=None):
    """Whether the text is the record of a draw from the list. If an announcement is given, the record has to name it,
    and the announcement has to be that of the draw."""
    found = BEGIN.match(text)
    if not found:
        return False
    try:
        seed = spelled(found["seed"]).decode("utf-8")
    except UnicodeDecodeError:
        return False
    named = None if found["announcement"] == b"none" else found["announcement"].decode()
    if announcement is not None:
        if named != sum_of(announcement) or not is_announcement(announcement, list_bytes, int(found["drawn"])):
            return False
    try:
        made = record_by_sums(seed, list_bytes, int(found["drawn"]), named, (found["module"] or b"").decode())
    except ValueError:
        return False
    return made == text
