"""Counts cases, and runs the program `lots`, with which the page is compared."""

import hashlib
import re
import subprocess
import sys
from functools import lru_cache
from pathlib import Path
from typing import Any, List, NamedTuple
from unicodedata import category


# The version of the library, as the number in the header.
NUMBER = int(re.search(r"^#define NANORAND_VERSION (\d+)$",
                       (Path(__file__).resolve().parents[2] / "c/include/nanorand.h").read_text("ascii"), re.M)[1])
VERSION = f"{NUMBER // 10000}.{NUMBER // 100 % 100}.{NUMBER % 100}"
# Some invisible characters: control and format characters, separators, characters that fonts do not draw, and the blank
# Braille pattern.
UNSEEN = ("\0\t\x7f\x85\xa0\xad\u034f\u061c\u115f\u1160\u17b4\u180b\u180e\u2003\u200b\u200d\u200e\u2028\u2029\u202e"
          "\u2060\u2066\u2800\u3000\u3164\ufe00\ufe0f\ufeff\uffa0\ufffc\U0001d173\U000e0041\U000e0100")


@lru_cache(maxsize=None)
def all_unseen() -> List[str]:
    """UNSEEN, and all control and format characters and separators, except the space and the line feed."""
    return sorted({*UNSEEN, *(letter for letter in map(chr, range(sys.maxunicode + 1))
                              if category(letter) in ("Cc", "Cf", "Zs", "Zl", "Zp"))} - {" ", "\n"})


class Counts:
    """Counts cases and prints those that failed."""

    def __init__(self) -> None:
        self.passed = 0
        self.failed = 0
        self.place = ""

    def case(self, name: str, wrong: str = "") -> None:
        if wrong:
            self.failed += 1
            print(f"FAILED ({self.place}) {name}: {wrong[:600]}", flush=True)
        else:
            self.passed += 1

    def same(self, name: str, found: Any, wanted: Any) -> None:
        self.case(name, "" if found == wanted else f"{found!r} and not {wanted!r}")


class Ran(NamedTuple):
    """The outcome of the program."""

    status: int
    output: bytes
    error: str


def lots(program: str, seed: str, count: str, data: bytes) -> Ran:
    done = subprocess.run([program, seed.encode("utf-8", "surrogatepass"), count], input=data,
                          capture_output=True, timeout=120)
    return Ran(done.returncode, done.stdout, done.stderr.decode())


def sha256(data: bytes) -> str:
    return hashlib.sha256(data).hexdigest()


def bytes_of(printed: str) -> bytes:
    """The bytes of an entrant that the page has printed."""
    parts = re.findall(r"\\x([0-9a-f]{2})|\\(\\)|([^\\]+)", printed, re.S)
    return b"".join(bytes.fromhex(byte) if byte else (slash or text).encode() for byte, slash, text in parts)


def lines_of(data: bytes) -> List[bytes]:
    """Lines without their line feeds."""
    lines = data.split(b"\n")
    return lines[:-1] if lines[-1] == b"" else lines
