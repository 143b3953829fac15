#!/usr/bin/env python3
"""Writes tests/answers/answers.tsv, the table of known answers.

    tests/answers/make.py            writes the table
    tests/answers/make.py --check    writes nothing, and compares the table with what it would write

In both cases the definitions are checked first, and nothing is written if they fail. The last line is N passed, M
failed.
"""

import sys
from pathlib import Path

import calls
import rows
import vectors

HERE = Path(__file__).resolve().parent
TABLE = HERE / "answers.tsv"
HEAD = """\
# What each call of nanorand returns, and the state that it leaves. Written by tests/answers/make.py from
# tests/answers/definitions.py; tests/answers/README.md explains the columns.
# generator\tbefore\tcall\targuments\tstatus\tresult\tafter
"""


def table():
    lines = []
    for generator, before, call, arguments in rows.rows():
        try:
            status, result, after = calls.answer(generator, before, call, arguments)
        except calls.rules.Refused:
            sys.exit(f"tests/answers/make.py: 128 words in a row are rejected in the row {generator} {before} {call} "
                     f"{arguments}: take another state in tests/answers/rows.py")
        row = generator, before, call, arguments, str(status), result, after
        lines.append("\t".join(row) + "\n")
    return HEAD + "".join(lines)


def outcome(name, good):
    if not good:
        print(f"FAILED {name}")
    return good


def main(arguments):
    if arguments not in ([], ["--check"]):
        sys.exit("usage: tests/answers/make.py [--check]")
    checks = [outcome(f"{name}: {given}", given == wanted) for name, given, wanted in vectors.checks()]
    if all(checks):
        text = table()
        lines = text.splitlines()
        checks.append(outcome("a row stands twice", len(set(lines)) == len(lines)))
        if not arguments:
            TABLE.write_text(text, encoding="ascii", newline="\n")
        good = TABLE.exists() and TABLE.read_bytes() == text.encode("ascii")
        checks.append(outcome(f"{TABLE.name} is not what tests/answers/make.py writes: run it", good))
    print(f"{sum(checks)} passed, {checks.count(False)} failed")
    return 0 if all(checks) else 1


if __name__ == "__main__":
    sys.exit(main(sys.argv[1:]))
