"""Reads the mutants of a crate: bodies and definitions with one planted bug each.

The mutants of a file in `src/` are in one file in `mutants/`, at the same path: `mutants/rand/wyrand.edits` has those
of `src/rand/wyrand.rt`. Those of `specs/` are in `mutants/specs/`. Each mutant is a paragraph of lines:

    mutant NAME, refused at the clauses that refuse it, or else the goals, as the check prints them
    old: a text that occurs once in the file
    new: the text that replaces it

More pairs of `old:` and `new:` may follow. `file:` names another file for the pairs after it. In `must-fail/`, which
`rt ci` reads as well, each mutant has a file of its own, NAME.edit, and `# refused:` names the clauses.
"""

import re
from pathlib import Path
from typing import NamedTuple

HEAD = re.compile(r"^mutant (\w+), refused at (.*)$")
LINE = re.compile(r"^(file|old|new|# refused):(?: (.*))?$")


class Edit(NamedTuple):
    """A mutant: its name, what refuses it, and its changes. A change has a file of the crate, an old and a new text."""

    crate: Path
    name: str
    refused: str
    changes: list

    def problem(self):
        """What is wrong with it, or an empty text."""
        if not self.refused:
            return "it names no clause or goal that refuses it"
        for file, old, _ in self.changes:
            path = self.crate / file
            count = path.read_text(encoding="utf-8").count(old) if path.is_file() else 0
            if count != 1:
                return f"this text occurs {count} times in {file}, not once: {old}"
        return "" if self.changes else "it changes nothing"


def edit_of(crate, name, refused, lines, file):
    """The mutant in these lines. Its changes are to this file until a line names another."""
    changes, old = [], ""
    for word, said in (match.groups() for match in map(LINE.match, lines) if match):
        if word == "file":
            file = said
        elif word == "old":
            old = said
        elif word == "new":
            changes.append((file, old, said or ""))
        else:
            refused = said
    return Edit(crate, name, refused, changes)


def edits_of(crate):
    """The mutants of a crate, those of `must-fail/` last."""
    for path in sorted(crate.glob("mutants/**/*.edits")):
        module = path.relative_to(crate / "mutants").with_suffix("")
        file = f"{module}.antt" if module.parts[0] == "specs" else f"src/{module}.rt"
        for text in path.read_text(encoding="utf-8").split("\n\n"):
            head, *lines = text.strip("\n").split("\n")
            name, refused = HEAD.match(head).groups()
            yield edit_of(crate, name, refused, lines, file)
    for path in sorted(crate.glob("must-fail/*.edit")):
        yield edit_of(crate, path.stem, "", path.read_text(encoding="utf-8").splitlines(), "")


def all_edits(root):
    """The mutants of all crates."""
    return [edit for crate in sorted((root / "crates").iterdir()) for edit in edits_of(crate)]
