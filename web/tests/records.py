"""Writes and reads records by other code than the page's, and has committed records of format 1."""

import base64
import json
import re
from pathlib import Path
from typing import Dict, List, NamedTuple, Tuple

from counts import UNSEEN, VERSION, lines_of, sha256

TITLE, END = "nanorand public draw 2", "end of the record"
OLD_TITLE = "nanorand public draw 1"
NAMED = 1000
# The code points of the characters that do not show, in every version of Unicode.
HIDDEN = """
0-1F 7F-A0 AD 34F 600-605 61C 6DD 70F 890-891 8E2 115F-1160 1680 17B4-17B5 180B-180F 2000-200F 2028-202F 205F-206F 2800
3000 3164 D800-F8FF FDD0-FDEF FE00-FE0F FEFF FFA0 FFF0-FFFF 110BD 110CD 13430-1343F 1BCA0-1BCA3 1D173-1D17A
E0000-10FFFF
"""
RANGES = [(int(part.split("-")[0], 16), int(part.split("-")[-1], 16)) for part in HIDDEN.split()]
ESCAPED = re.compile(r"[\\%s]" % "".join(f"{chr(first)}-{chr(last)}" for first, last in RANGES))
FIXTURES = Path(__file__).with_name("format1.json")


class Layout(NamedTuple):
    """A format of records: its title, the names of its values in their order, and its lines below the entrants."""

    title: str
    names: List[str]
    end: List[str]

    def line(self, name: str) -> int:
        """The number of the line of a value."""
        return self.names.index(name) + 2

    @property
    def first(self) -> int:
        """The number of the line of the first entrant."""
        return len(self.names) + 2


FORMAT2 = Layout(TITLE, ["announcement SHA-256", "seed", "list SHA-256", "entrants", "drawn", "module SHA-256",
                         "result SHA-256"], [END])
FORMAT1 = Layout(OLD_TITLE, ["seed", "list SHA-256", "entrants", "drawn", "version", "module SHA-256",
                             "result SHA-256"], [])


def is_hidden(letter: str) -> bool:
    return any(first <= ord(letter) <= last for first, last in RANGES)


def escaped(data: bytes) -> str:
    return "".join(f"\\x{byte:02x}" for byte in data)


def shown(data: bytes) -> str:
    """The text by which a record of format 2 shows some bytes."""
    try:
        text = data.decode()
    except UnicodeDecodeError:
        return "".join(chr(byte) if 32 <= byte < 127 and byte != 92 else escaped(bytes([byte])) for byte in data)
    return ESCAPED.sub(lambda letter: escaped(letter[0].encode()), text)


def quoted(data: bytes) -> str:
    return f'"{shown(data)}"'


def bytes_of(value: str) -> bytes:
    """The bytes of a quoted value."""
    parts = re.findall(r"\\x([0-9a-f]{2})|([^\\]+)", value[1:-1], re.S)
    return b"".join(bytes.fromhex(byte) if byte else text.encode() for byte, text in parts)


def rest_of(drawn: int) -> List[str]:
    return [f"and {drawn - NAMED} more"] if drawn > NAMED else []


def record_of(seed: str, data: bytes, result: bytes, module: str, announcement: str = "none") -> str:
    """The record of a draw from a list. Without a module it is that of the program `lots`."""
    drawn = lines_of(result)
    values = [announcement, quoted(seed.encode()), sha256(data), len(lines_of(data)), len(drawn), module,
              sha256(result)]
    lines = [f"{name}: {value}" for name, value in zip(FORMAT2.names, values) if value != ""]
    named = [f"{number}: {quoted(entrant)}" for number, entrant in enumerate(drawn[:NAMED], 1)]
    return "".join(f"{line}\n" for line in [TITLE, *lines, *named, *rest_of(len(drawn)), END])


def json_seed(seed: str) -> str:
    """A seed as format 1 writes it: no invisible character is bare, except the space."""
    return "".join(json.dumps(letter)[1:-1] if letter in UNSEEN else letter
                   for letter in json.dumps(seed, ensure_ascii=False))


def old_record(record: str) -> str:
    """The record of format 1 of the same draw, if no entrant has an invisible character or a space at an end."""
    lines = record.split("\n")
    seed = bytes_of(lines[FORMAT2.line("seed") - 1][len("seed: "):]).decode()
    named = []
    for line in lines[FORMAT2.first - 1:lines.index(END)]:
        number, value = line.split(": ", 1) if ": " in line else ("", line)
        named.append(f"{number}: " + bytes_of(value).decode().replace("\\", "\\\\") if number else value)
    above = [OLD_TITLE, f"seed: {json_seed(seed)}", *lines[3:6], f"version: {VERSION}", *lines[6:8]]
    return "\n".join([*above, *named, ""])


def without_module(record: str) -> str:
    """A record of format 2 as the program `lots` writes it."""
    return re.sub(r"(?m)^module SHA-256: .*\n", "", record, count=1)


def of_format1(module: str) -> Dict[str, Tuple[bytes, str]]:
    """For each committed record of format 1: its list, and its text with the version and the module of this page."""
    found = {}
    for case in json.loads(FIXTURES.read_text(encoding="utf-8")):
        text = re.sub(r"(?m)^version: .*$", f"version: {VERSION}", case["record"], count=1)
        text = re.sub(r"(?m)^module SHA-256: .*$", f"module SHA-256: {module}", text, count=1)
        found[case["name"]] = (base64.b64decode(case["list"]), text)
    return found
