#!/usr/bin/env python3
"""Compares docs/DIFFERENCES.md with the public items of the library and of the Rust crate 0.7.0: tests/differences.py.

The library's items are read from its sources. They are everything that a user of the crate `nanorand` can name,
including re-exports of other crates: modules, functions, types, constants and traits, the variants, public fields and
public functions of a type, the items of a trait, and implementations of traits. An item has one name, its shortest:
`choices::below`, `WyRand::jump`, `RangeError::Exhausted`, `impl Eq for WyRand`. An implementation is an item only if
neither its type nor its trait is added; otherwise the added type or trait stands for it. Ghost members and `Model` are
left out because they are part of contracts, and `Drop` because every Rust type can be dropped.

The names of the Rust crate are in tests/nanorand-0.7.0.txt. The page lists names in backticks, in the tables of three
sections. A row of `Added` or `Left out` has owners and the items in each of them. An owner is a module, a type or a
trait, or `nanorand`, the crate itself. A row also lists its owner if the owner is itself added or left out. A row of
`Under another name` has names there and names here. What is left out or has another name stands for everything in it.

It fails, with the name, for an item that only one of the two has and that no table lists, and for a false row. The last
line is N passed, M failed.
"""

import re
import sys
from pathlib import Path

ROOT = Path(__file__).resolve().parent.parent
sys.path.insert(0, str(ROOT / "tools"))
from rattle import bare, derives_of, items_at, name_and_type  # noqa: E402

CRATE = "nanorand"
PAGE = "docs/DIFFERENCES.md"
ORIGINAL = "tests/nanorand-0.7.0.txt"
KINDS = ("fn", "struct", "enum", "trait", "type", "const", "static")
# The traits that are left out.
UNNAMED = {"Drop", "Model"}
# The root modules of the crates that were read, by name.
READ = {}


class Module:
    """A module of a crate: its items, what its names refer to, and which names are public."""

    def __init__(self, path, folder, parent=None):
        self.parent, self.items = parent, items_at(path)
        self.defined, self.used, self.public = {}, {}, []
        for item in self.items:
            names = self.names_by(item, folder)
            if item.is_public:
                self.public += names

    def names_by(self, item, folder):
        """Stores what an item defines or imports, and returns the names."""
        if item.word == "mod":
            self.defined[item.name] = Module(folder / f"{item.name}.rt", folder / item.name, self)
        elif item.word in KINDS:
            self.defined[item.name] = item
        elif item.word == "use":
            paths = {path.name: path.text for path in item.paths}
            self.used.update(paths)
            return list(paths)
        else:
            return []
        return [item.name]

    def root(self):
        return self.parent.root() if self.parent else self

    def find(self, name):
        """What a name refers to in this module: a module or an item, or None if it is not the library's."""
        if name in self.used and name not in self.defined:
            return self.resolve(self.used[name])
        return self.defined.get(name)

    def resolve(self, path):
        """What a path refers to in this module."""
        first, *others = path.split("::")
        starts = {"crate": self.root(), "self": self, "super": self.parent}
        place = starts.get(first) or self.find(first) or crate(first)
        for name in others:
            place = place.find(name) if isinstance(place, Module) else None
        return place

    def modules(self):
        """This module and all modules below it, including private ones."""
        yield self
        for one in self.defined.values():
            if isinstance(one, Module):
                yield from one.modules()


def crate(name):
    """The root module of a crate in the repository, or None. It is read at the first call."""
    folder = ROOT / "crates" / name / "src"
    if name not in READ and (folder / "lib.rt").exists():
        READ[name] = Module(folder / "lib.rt", folder)
    return READ.get(name)


def paths_below(module, before=""):
    """The public paths below a module, each with the module or item that it refers to."""
    for name in module.public:
        meant = module.find(name)
        yield before + name, meant
        if isinstance(meant, Module):
            yield from paths_below(meant, f"{before}{name}::")


def members_of(item):
    """The names in a trait, the variants of an enum, or the public fields of a struct."""
    if item.word == "enum":
        return [part.tokens[0].text for part in item.parts]
    if item.word == "struct" and item.kind == "record":
        return [name_and_type(part.tokens)[0] for part in item.parts if part.is_public]
    return [one.name for one in item.members() if one.word in KINDS]


class Library:
    """What a user can name: all paths, and the names of modules, items, members and implementations."""

    def __init__(self):
        self.shortest, self.paths, self.names, self.implementations = {}, set(), set(), set()
        for path, meant in paths_below(crate(CRATE)):
            self.add_path(path, meant)
        for meant, name in self.shortest.items():
            self.names.add(name)
            if not isinstance(meant, (Module, str)):
                self.names |= {f"{name}::{member}" for member in members_of(meant)}
                self.implementations |= {(trait[-1].text, name) for trait in derives_of(meant.attributes)}
        # The public paths have led to all crates that are needed, so these are read.
        for module in [one for root in READ.values() for one in root.modules()]:
            for item in module.items:
                if item.word == "impl":
                    self.add_impl(module, item)

    def add_path(self, path, meant):
        """Adds a path. An item's name is its shortest path. What is not the library's has each path as a name."""
        key = meant or path
        self.paths.add(path)
        self.shortest[key] = min(path, self.shortest.get(key, path), key=lambda one: (one.count("::"), one))

    def add_impl(self, module, item):
        """Adds the public functions of an inherent impl, or the implementation of a trait."""
        trait, owner = bare(item.trait), self.name_in(module, bare(item.type))
        if owner and not trait:
            self.names |= {f"{owner}::{one.name}" for one in item.members() if one.is_public and one.word in KINDS}
        elif owner and self.name_in(module, trait):
            self.implementations.add((self.name_in(module, trait), owner))

    def name_in(self, module, path):
        """The name of a type or trait that a module refers to, or None for a private one of the library."""
        meant = module.resolve(path)
        return self.shortest.get(meant) if meant else path.rpartition("::")[2]

    def items(self, original):
        """The names, and the implementations whose type and trait are not added."""
        added = set(self.shortest.values()) - original
        return self.names | {
            f"impl {trait} for {owner}" for trait, owner in self.implementations
            if trait not in added | UNNAMED and owner not in added
        }


def full_name(owner, item):
    """The full name of an item of an owner. The crate itself adds nothing to the name."""
    if item.startswith("impl "):
        return f"{item} for {owner}"
    return item if owner == CRATE else f"{owner}::{item}"


def names_of_original():
    """The names of the Rust crate."""
    names = set()
    for line in (ROOT / ORIGINAL).read_text(encoding="utf-8").splitlines():
        if not line.startswith("#"):
            owners, items = (part.split(", ") for part in line.split(": "))
            names |= {full_name(owner, item) for owner in owners for item in items}
    return names


def lines_under(heading):
    """The lines of the page under a heading and its subheadings, with their numbers."""
    level = 0
    for number, line in enumerate((ROOT / PAGE).read_text(encoding="utf-8").splitlines(), 1):
        signs = len(line) - len(line.lstrip("#"))
        if signs and not 0 < level < signs:
            level = signs if line.lstrip("# ") == heading else 0
        elif level:
            yield number, line


def rows_under(heading):
    """The rows of the tables under a heading: the line number, and the names in backticks in each cell."""
    in_rows = False
    for number, line in lines_under(heading):
        if in_rows and line.startswith("|"):
            yield number, [re.findall(r"`([^`]+)`", cell) for cell in line.split("|")[1:-1]]
        else:
            in_rows = line.startswith("|---")


def listed_under(heading, places):
    """The names that tables of owners and items list, with their lines. An owner in `places` is not listed itself."""
    listed = {}
    for number, (owners, items, *_) in rows_under(heading):
        for owner in owners:
            is_place = owner in places or any(item.startswith("impl ") for item in items)
            names = [full_name(owner, item) for item in items]
            listed.update(dict.fromkeys(names if names and is_place else [owner, *names], number))
    return listed


def renamed():
    """The names of the Rust crate that have another name here, and the names here, both with their lines."""
    there, here = {}, {}
    for number, (olds, news, *_) in rows_under("Under another name"):
        there.update(dict.fromkeys(olds, number))
        here.update(dict.fromkeys(news, number))
    return there, here


def is_covered(name, listed):
    """Whether a name, or a module, type or trait that contains it, is listed."""
    places = name.removeprefix("impl ").split(" for ")
    return name in listed or any(f"{place}::".startswith(f"{one}::") for place in places for one in listed)


def cases(library, original):
    """For each comparison: whether it passed, the line of the page or None, the name, and what is wrong otherwise."""
    items = library.items(original)
    named = items | library.paths
    added = listed_under("Added", original | {CRATE})
    left_out = listed_under("Left out", named | {CRATE})
    there, here = renamed()
    gone = {**left_out, **there}
    for name in sorted(items - original):
        yield name in {**added, **here}, None, name, "only the library has it, and it is not listed as added"
    for name in sorted(original):
        right = name in named or is_covered(name, gone)
        yield right, None, name, "only 0.7.0 has it, and it is not listed as left out or under another name"
    for name, line in added.items():
        yield name in items, line, name, "it is listed as added, and the library has no such item"
        yield name not in original, line, name, "it is listed as added, and 0.7.0 has it"
    for name, line in here.items():
        yield name in named, line, name, "it is listed as a name here, and the library has no such item"
    for name, line in gone.items():
        yield name in original, line, name, "it is listed as of 0.7.0, which has no such item"
        yield name not in named, line, name, "it is listed as left out or under another name, and the library has it"


def main():
    passed = failed = 0
    for right, line, name, wrong in cases(Library(), names_of_original()):
        passed += right
        failed += not right
        if not right:
            print(f"FAILED {PAGE}{f':{line}' if line else ''}: `{name}`: {wrong}")
    print(f"{passed} passed, {failed} failed")
    return 1 if failed else 0


if __name__ == "__main__":
    sys.exit(main())
