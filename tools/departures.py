"""Reads and writes `rust/departures.toml`, the list of differences between the proved sources and the Rust ones.

A row is a `[[departure]]` for a function or another item that differs, a `[[hand_written]]` for what has no proved
counterpart, or a `[[precondition]]` for a clause of a contract and the statement that checks it. `tools/bodies.py` uses
this module.
"""

import json
import re
import tomllib
from dataclasses import dataclass
from functools import cache, cached_property

# The item of a row for a whole file.
WHOLE_FILE = ""


@dataclass
class Row:
    """A row of the list. `matches` says whether a comparison needed it."""

    kind: str
    line: int
    values: dict
    matches: bool = False

    def get(self, key):
        return self.values.get(key, "")

    @cached_property
    def key(self):
        return self.kind, self.get("file"), self.get("item")

    @property
    def name(self):
        parts = [self.get("clause"), self.get("file"), self.get("item"), *self.get("files")]
        return ": ".join(filter(None, parts))

    def text(self):
        lines = [f"{key} = {toml_of(value)}\n" for key, value in self.values.items() if value or key == "reason"]
        return f"[[{self.kind}]]\n{''.join(lines)}"


def toml_of(value):
    if isinstance(value, list):
        return "".join(["[\n", *(f"    {toml_of(one)},\n" for one in value), "]"])
    if '"' in value and "'" not in value:
        return f"'''\n{value}'''" if "\n" in value else f"'{value}'"
    return json.dumps(value, ensure_ascii=False)


@cache
def row_of(block):
    """The kind and the values of a row."""
    [(kind, [values])] = tomllib.loads(block).items()
    return kind, values


@dataclass
class Listed:
    """The list: the comment at its head, and its rows."""

    head: str
    rows: list

    @classmethod
    def read(cls, text):
        head, *blocks = re.split(r"(?m)^(?=\[\[)", text)
        rows, line = [], 1 + head.count("\n")
        for block in blocks:
            kind, values = row_of(block)
            rows.append(Row(kind, line, dict(values)))
            line += block.count("\n")
        return cls(head, rows)

    def of(self, kind):
        return [row for row in self.rows if row.kind == kind]

    def find(self, *key):
        """The row with this kind, file and item, or None."""
        return next((row for row in self.rows if row.key == key), None)

    def add(self, kind, **values):
        """Adds a row after those with its kind and file. A person has to write its reason."""
        wanted = kind, values.get("file", "")
        alike = [at for at, row in enumerate(self.rows, 1) if (row.kind, row.get("file")) == wanted]
        self.rows.insert(alike[-1] if alike else len(self.rows), Row(kind, 0, {**values, "reason": ""}))

    def text(self):
        return self.head + "\n".join(row.text() for row in self.rows)
