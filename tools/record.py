#!/usr/bin/env python3
"""Writes values into documents and settings that are computed from other files.

    tools/record.py            writes it
    tools/record.py --check    checks that the files have it: N passed, M failed

- docs/PAGE.md: the record that the web page docs/nanorand.html makes of the example in docs/LOTS.md, and an
  announcement of this draw. The example's list, seed and drawn lines are those in LOTS, which tests/second_opinion.py
  draws again. Also the SHA-256 of both modules of the page.
- docs/RAFFLE.md and CHANGELOG.md: the SHA-256 of the web page. In the changelog it is the first one, that of the newest
  version.
- pyproject.toml: the repository's address, which its owner fills in in Cargo.toml.
"""

import base64
import hashlib
import re
import sys
from pathlib import Path

ROOT = Path(__file__).resolve().parent.parent
PAGE = ROOT / "docs" / "nanorand.html"


def text_of(path: str) -> str:
    return (ROOT / path).read_text(encoding="utf-8")


def sha256(data: bytes) -> str:
    return hashlib.sha256(data).hexdigest()


def module_digest(name: str) -> str:
    """The SHA-256 of a module of the page: `module` for 64-bit memory, or `module32`."""
    code = re.search(rf'<script type="text/plain" id="{name}">([^<]*)</script>', PAGE.read_text(encoding="utf-8"))[1]
    return sha256(base64.b64decode(code))


def example() -> "tuple[str, str, str]":
    """The entrants, the seed and the lines drawn of the first draw in docs/LOTS.md, which need no escapes."""
    text = text_of("docs/LOTS.md")
    entrants = re.search(r"<!-- example: entrants -->\n```\n(.*?)^```$", text, re.M | re.S)[1]
    seed, drawn = re.search(r'^\$ lots "([^"\n]*)" \d+ < entrants\n(.*?)^```$', text, re.M | re.S).groups()
    return entrants, seed, drawn


def announcement() -> str:
    """An announcement of the example's draw, with a reserve."""
    entrants, seed, drawn = example()
    throws = len(seed.split())
    numbers = " ".join(str(number % 6 + 1) for number in range(throws))
    lines = [
        "nanorand announcement 1",
        'occasion: "Summer raffle of the school"',
        f"list SHA-256: {sha256(entrants.encode())}",
        f"entrants: {len(entrants.splitlines())}",
        f"winners: {len(drawn.splitlines())}",
        "reserves: 1",
        f'seed source: "{throws} throws of a die, in the hall"',
        'seed form: "the numbers thrown, in order, with one space between them"',
        f'seed example: "{numbers}"',
        'time: "Friday 4 December 2026, 12:00, Madrid"',
        "end of the announcement",
    ]
    return "".join(f"{line}\n" for line in lines)


def record() -> str:
    """The record of the example's draw."""
    entrants, seed, drawn = example()
    names = drawn.splitlines()
    lines = [
        "nanorand public draw 2",
        "announcement SHA-256: none",
        f'seed: "{seed}"',
        f"list SHA-256: {sha256(entrants.encode())}",
        f"entrants: {len(entrants.splitlines())}",
        f"drawn: {len(names)}",
        f"module SHA-256: {module_digest('module')}",
        f"result SHA-256: {sha256(drawn.encode())}",
        *(f'{number}: "{name}"' for number, name in enumerate(names, 1)),
        "end of the record",
    ]
    return "".join(f"{line}\n" for line in lines)


def address() -> str:
    return re.search(r'^repository = "(.*)"$', text_of("Cargo.toml"), re.M)[1]


def parts() -> "list[tuple[str, str, str]]":
    """For each file: the pattern of the part that is written, and its text."""
    page = sha256(PAGE.read_bytes())
    return [
        ("docs/PAGE.md", r"(?ms)(?<=^```\n)nanorand public draw 2\n.*?(?=^```$)", record()),
        ("docs/PAGE.md", r"(?ms)(?<=^```\n)nanorand announcement 1\n.*?(?=^```$)", announcement()),
        ("docs/PAGE.md", r"(?m)^[0-9a-f]{64}(?=  64-bit memory$)", module_digest("module")),
        ("docs/PAGE.md", r"(?m)^[0-9a-f]{64}(?=  32-bit memory$)", module_digest("module32")),
        ("docs/RAFFLE.md", r"(?m)^[0-9a-f]{64}(?=  nanorand\.html$)", page),
        ("CHANGELOG.md", r"(?<=The SHA-256 of `docs/nanorand\.html`: `)[0-9a-f]{64}", page),
        ("pyproject.toml", r'(?m)(?<=^Repository = ").*(?="$)', address()),
    ]


def main() -> int:
    if sys.argv[1:] not in ([], ["--check"]):
        print(__doc__.strip())
        return 2
    failed = []
    for path, pattern, part in parts():
        text = text_of(path)
        wanted, count = re.subn(pattern, lambda _, part=part: part, text, count=1)
        if not sys.argv[1:]:
            (ROOT / path).write_text(wanted, encoding="utf-8")
        elif count != 1 or wanted != text:
            failed.append(path)
    if not sys.argv[1:]:
        return 0
    for path in failed:
        print(f"FAILED {path} differs from what tools/record.py writes")
    print(f"{len(parts()) - len(failed)} passed, {len(failed)} failed")
    return 1 if failed else 0


if __name__ == "__main__":
    sys.exit(main())
