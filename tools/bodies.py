#!/usr/bin/env python3
"""Compares the Rust sources with the proved ones.

    tools/bodies.py            compares, as with --check
    tools/bodies.py --write    updates rust/departures.toml and the table in rust/PROVED.md

Each function, constant, type, trait, implementation, module and `use` of the proved crates has a counterpart in the
Rust package: in the same module, with the same name and, after the rules of `tools/translation.py`, the same tokens.
All other differences, and what Rust has besides the proved items, are listed in `rust/departures.toml`, with a reason
and with digests of both sides, so that a change on either side is noticed.

The methods of `trait Rng` in Rust are compared with those of `dyn AnyRng`, which has a call for each of them.

`const fn` in Rust is allowed where Rattle has `fn`. The comparison ignores white space, comments, docs, trailing
commas, braces around the only expression of a match arm, labels of loops that no `break` or `continue` names, the order
of items in a file, and the attributes that `entries.IGNORED` names.

Each difference is one line, and the last line is `N passed, M failed`. `--write` updates the digests in the list, adds
a row for each difference without one (a person then has to write its reason), removes the rows that nothing needs,
prints each of these changes, and writes the table in `rust/PROVED.md`. `./test` runs the comparison.
"""

import functools
import sys
import tomllib
from collections import Counter
from dataclasses import dataclass, field, replace
from pathlib import Path

import proved_table
from departures import WHOLE_FILE, Listed
from entries import digest, entries_of, inherent_functions, joined, normal_body
from rattle import Unreadable, file_of, tokens_of
from translation import Setting, in_rust

ROOT = Path(__file__).resolve().parent.parent
LIST = "rust/departures.toml"
TABLE = "rust/PROVED.md"

# Files of each proved crate that have no counterpart: its root, which is hand-written in Rust, and its laws, whose
# functions do nothing.
WITHOUT_COUNTERPART = ("lib.rt", "laws.rt")

# What to do with an item that only Rust has.
CURE = "run tools/bodies.py --write, and write its reason"

# The calls of a generator: the trait, the type that has the same methods, and which methods it lacks. The generator
# itself implements `rand`, and `as_any` only lends one as an `AnyRng`.
CALLS = "rust/nanorand-proved/src/rand.rs", "trait Rng"
DYN_CALLS = "rust/nanorand-proved/src/layer/dyn_calls.rs", "impl dyn AnyRng + '_"
NO_DYN_CALLS = {"rand", "as_any"}

# How many tokens a message shows before the first one that differs, and in total.
BEFORE, SHOWN = 2, 7


@dataclass(frozen=True)
class Package:
    """A Rust package: the folder of its sources, and its proved crates.

    `with_std` are the modules whose `mod` line requires the feature std, or None if the whole package needs it.
    """

    folder: str
    proved: tuple
    with_std: tuple = ()

    def is_without_std(self, module):
        return self.with_std is not None and module.partition("/")[0] not in self.with_std


# The modules of `lots` that exist only with the feature std.
LOTS_WITH_STD = ("announcement", "arguments", "check", "check_error", "claims", "command", "program", "quoted",
                 "record", "run", "selection", "text")

PACKAGES = (
    Package("rust/nanorand-proved/src", ("nanorand_core", "nanorand_replay", "nanorand")),
    Package("rust/lots/src", ("lots_core", "lots_record"), LOTS_WITH_STD),
    Package("rust/draw/src", ("draw_core",), None),
)


@dataclass
class Report:
    """What a comparison found.

    `modules` are the Rust files that have proved counterparts, with these. `counts` says how many items of a file are
    equal, and how many rows of each kind it needs. `needs` are the rows that the list has to have: kind, file, item and
    digests. `by_hand` are the files without a digest, and `methods` the names of the traits' proved functions.
    """

    listed: Listed
    passed: int = 0
    differences: list = field(default_factory=list)
    modules: dict = field(default_factory=dict)
    counts: Counter = field(default_factory=Counter)
    needs: list = field(default_factory=list)
    by_hand: set = field(default_factory=set)
    methods: set = field(default_factory=set)

    def differs(self, file, line, what):
        self.differences.append(f"{file}:{line}: {what}")


def read_tree(root):
    """The texts of all compared files, by path."""
    folders = [folder for one in PACKAGES for folder in (one.folder, *(f"crates/{crate}/src" for crate in one.proved))]
    paths = [root / LIST, root / TABLE, *(path for folder in folders for path in sorted((root / folder).rglob("*")))]
    return {path.relative_to(root).as_posix(): path.read_text(encoding="utf-8") for path in paths if path.is_file()}


def compared(tree):
    """The report on a tree."""
    report = Report(Listed.read(tree.get(LIST, "")))
    for package in PACKAGES:
        for module, names in modules_of(tree, package).items():
            try:
                compare_module(report, tree, package, module, names)
            except Unreadable as unreadable:
                report.differences.append(str(unreadable))
    for package in PACKAGES:
        modules = {f"{package.folder}/{module}.rs" for module in modules_of(tree, package)}
        for name in tree:
            if name.startswith(f"{package.folder}/") and name not in modules:
                check_file(report, tree, name)
    compare_calls(report, tree)
    check_list(report)
    return report


def compare_calls(report, tree):
    """Compares the names of the methods of `Rng` with those of `dyn AnyRng`."""
    try:
        calls, dyn_calls = methods_of(tree, *CALLS), methods_of(tree, *DYN_CALLS)
    except Unreadable as unreadable:
        report.differences.append(str(unreadable))
        return
    lacks = (CALLS, DYN_CALLS, dyn_calls - calls), (DYN_CALLS, CALLS, calls - dyn_calls - NO_DYN_CALLS)
    for (file, owner), (other_file, other), missing in lacks:
        for name in sorted(missing):
            report.differs(file, 1, f"{owner}: it lacks the method {name} of {other} in {other_file}")
    report.passed += len(calls & dyn_calls)


def methods_of(tree, file, owner):
    """The names of the methods of a trait or an implementation in a Rust file."""
    names = (entry.name.partition(f"{owner}: fn ") for entry in entries_in(tree.get(file, ""), file))
    return {method for before, found, method in names if found and not before}


def modules_of(tree, package):
    """For each module of a package, the names of its proved files."""
    found = {}
    for crate in package.proved:
        folder = f"crates/{crate}/src/"
        for name in tree:
            if name.startswith(folder) and name.endswith(".rt") and name.rpartition("/")[2] not in WITHOUT_COUNTERPART:
                found.setdefault(name.removeprefix(folder).removesuffix(".rt"), []).append(name)
    return dict(sorted(found.items()))


def compare_module(report, tree, package, module, names):
    """Compares the entries of a module with those of its proved files."""
    file = f"{package.folder}/{module}.rs"
    if file not in tree:
        report.differs(names[0], 1, f"{file} should have the counterpart of this module")
        return
    checks = tuple((row.get("clause"), row.get("rust")) for row in report.listed.of("precondition"))
    entries = [entry for name in names for entry in proved_entries(tree[name], name, package, module, checks)]
    required = {clause for entry in entries for clause in entry.requires}
    for row in report.listed.of("precondition"):
        row.matches |= row.get("clause") in required
    proved, rust = by_name(report, entries), by_name(report, entries_in(tree[file], file))
    report.methods |= {name.rpartition(" ")[2] for name in proved if name.startswith("trait ") or " for " in name}
    report.modules[file] = names
    if report.listed.find("departure", file, WHOLE_FILE):
        digests = {"proved": digest(whole(proved)), "rust": digest(whole(rust))}
        check_row(report, ("departure", file, WHOLE_FILE), digests, 1, "", f"; its proved side is {names[0]}")
        return
    for name, entry in proved.items():
        if name in rust:
            compare_entry(report, entry, rust[name])
        else:
            report.differs(entry.file, entry.line, f"{name}: {file} has no counterpart")
    for name, entry in rust.items():
        if name not in proved:
            what = f"it has no proved counterpart in {' or '.join(names)}; if Rust alone has it, {CURE}"
            check_row(report, ("hand_written", file, name), {"rust": digest(entry.text())}, entry.line, what)


def whole(entries):
    return "\n".join(f"{name}\n{entry.text()}" for name, entry in sorted(entries.items()))


@functools.lru_cache(maxsize=None)
def statements(checks):
    """The text of the statement that checks each clause."""
    return {clause: joined(normal_body(tokens_of(rust))) for clause, rust in checks}


@functools.lru_cache(maxsize=None)
def proved_entries(text, name, package, module, checks):
    """The entries that Rust should have for a proved file."""
    path = "::".join(["crate", *module.split("/")])
    crates = {"nanorand": "nanorand_proved", **dict.fromkeys(package.proved, "crate")}
    setting = Setting(path, crates, package.is_without_std(module), statements(checks))
    return in_rust(entries_in(text, name), setting)


@functools.lru_cache(maxsize=None)
def entries_in(text, name):
    """The entries of a file as they stand there."""
    return entries_of(file_of(text, name))


def by_name(report, entries):
    """The entries by name. Uses become one entry, as do traits with one name. Others with one name are equal."""
    found = {}
    for entry in entries:
        first = found.setdefault(entry.name, entry)
        if entry.name == "use" or entry.name.startswith("trait ") and ": " not in entry.name:
            facets = dict(first.facets)
            for facet, parts in entry.facets.items():
                facets[facet] = list(dict.fromkeys([*facets.get(facet, ()), *parts]))
            found[entry.name] = replace(first, facets=facets)
        elif first.text() != entry.text():
            report.differs(entry.file, entry.line, f"{entry.name}: stands in {first.file}:{first.line} too")
    return found


def compare_entry(report, proved, rust):
    """Compares two entries with the same name. If they differ, checks the row of the list."""
    rust = without_const(proved, rust)
    if difference := first_difference(proved, rust):
        digests = {"proved": digest(proved.text()), "rust": digest(rust.text())}
        other = f"; its proved side is {proved.file}:{proved.line}"
        check_row(report, ("departure", rust.file, rust.name), digests, rust.line, difference, other)
    elif row := report.listed.find("departure", rust.file, rust.name):
        row.matches = True
        report.differs(LIST, row.line, f"{rust.file}: {rust.name}: departs no more, so this row should go")
    else:
        report.counts[rust.file, "equal"] += 1
        report.passed += 1


def without_const(proved, rust):
    """The Rust entry without `const`, if the proved function has none."""
    if "body" not in rust.facets or proved.facets["words"] or rust.facets["words"] != ["const"]:
        return rust
    return replace(rust, facets={**rust.facets, "words": []})


def first_difference(proved, rust):
    """The description of the first difference of two entries, or None."""
    for facet in dict.fromkeys((*proved.facets, *rust.facets)):
        if rust.facets.get(facet) == proved.facets.get(facet):
            continue
        here, there = (" , ".join(entry.facets.get(facet, ())).split(" ") for entry in (rust, proved))
        if here != there:
            differing = (place for place, (a, b) in enumerate(zip(here, there)) if a != b)
            start = max(0, next(differing, min(len(here), len(there))) - BEFORE)
            shown = [" ".join(tokens[start : start + SHOWN]).replace(r"\x20", " ") for tokens in (here, there)]
            first, second = (f"'{text}'" if text else "nothing" for text in shown)
            verb = "differ" if facet.endswith("s") else "differs"
            return f"{facet} {verb} from {proved.file}:{proved.line}: {first} here, {second} there"
    return None


def check_row(report, key, digests, line, what, other=""):
    """Checks that the list has a row with the current digests. `what` says why it needs one."""
    report.needs.append((key, digests))
    kind, file, item = key
    row, name = report.listed.find(*key), item or "the file"
    if row is None:
        report.differs(file, line, f"{name}: {what}")
        return
    row.matches = True
    report.counts[file, kind] += 1
    changed = [side for side, value in digests.items() if row.get(side) != value]
    if changed:
        sides = " and ".join({"proved": "the proved side", "rust": "the Rust side"}[side] for side in changed)
        listed = f"{sides} changed since it was listed in {LIST}:{row.line} ('{row.get('reason')}')"
        report.differs(file, line, f"{name}: {listed}{other}")
    else:
        report.passed += 1


def check_file(report, tree, name):
    """Checks that a file without a proved module is listed as written by hand.

    No inherent method in it may have the name of a proved method of a trait: Rust prefers inherent methods, so a call
    in a compared body would call another method.
    """
    if any(name in row.get("files") for row in report.listed.of("hand_written")):
        report.passed += 1
        report.by_hand.add(name)
    elif report.listed.find("hand_written", name, WHOLE_FILE):
        try:
            entries = by_name(report, entries_in(tree[name], name))
        except Unreadable as unreadable:
            report.differences.append(str(unreadable))
            return
        check_row(report, ("hand_written", name, WHOLE_FILE), {"rust": digest(whole(entries))}, 1, "")
    else:
        report.differs(name, 1, f"no row of {LIST} has this file, and no proved module; if Rust alone has it, {CURE}")
        report.needs.append((("hand_written", name, WHOLE_FILE), {}))
    for item, tokens, line in inherent_functions(tree[name]):
        if item.rpartition(" ")[2] in report.methods:
            what = "a method of a type takes the place of the proved one of a trait"
            check_row(report, ("hand_written", name, item), {"rust": digest(joined(normal_body(tokens)))}, line, what)


def check_list(report):
    """Checks that each row of the list has a reason and matches something."""
    for row in report.listed.rows:
        if not row.get("reason"):
            report.differs(LIST, row.line, f"{row.name}: a person should write the reason")
        if not (row.matches or row.get("files") and report.by_hand.issuperset(row.get("files"))):
            report.differs(LIST, row.line, f"{row.name}: this row matches nothing, or not all of it")


def checked(tree):
    """The report on a tree. If nothing differs, it also covers the table, which describes such a tree."""
    report = compared(tree)
    if not report.differences:
        text = tree.get(TABLE, "")
        if proved_table.BEGIN not in text or proved_table.END not in text:
            report.differs(TABLE, 1, f"the lines '{proved_table.BEGIN}' and '{proved_table.END}' should stand here")
        elif text != proved_table.with_table(text, report):
            report.differs(TABLE, 1, "the table is stale: python3 tools/bodies.py --write")
        else:
            report.passed += 1
    return report


def write(report, tree, root):
    """Writes the list with the current digests, and the table. Prints which rows are new, updated or removed."""
    for (kind, file, item), digests in report.needs:
        row, name = report.listed.find(kind, file, item), f"{file}: {item or 'the file'}"
        if row is None:
            report.listed.add(kind, **({"file": file, "item": item, **digests} if digests else {"files": [file]}))
            print(f"{name}: a new row; write its reason, then run this again")
        elif any(row.get(side) != value for side, value in digests.items()):
            row.values.update(digests)
            print(f"{name}: renewed; does its reason still hold? '{row.get('reason')}'")
    needed = {key for key, _ in report.needs}
    for row in [row for row in report.listed.rows if row.get("file") and row.key not in needed]:
        report.listed.rows.remove(row)
        print(f"{row.name}: gone, as nothing needs it")
    (root / LIST).write_text(report.listed.text(), encoding="utf-8")
    text = proved_table.with_table(tree.get(TABLE, ""), compared({**tree, LIST: report.listed.text()}))
    (root / TABLE).write_text(text, encoding="utf-8")


def main(arguments):
    if arguments not in ([], ["--check"], ["--write"]):
        print("usage: python3 tools/bodies.py [--check | --write]", file=sys.stderr)
        return 2
    try:
        if arguments == ["--write"]:
            tree = read_tree(ROOT)
            write(compared(tree), tree, ROOT)
        report = checked(read_tree(ROOT))
    except tomllib.TOMLDecodeError as error:
        print(f"{LIST}: {error}\n0 passed, 1 failed")
        return 1
    for line in report.differences:
        print(line)
    print(f"{report.passed} passed, {len(report.differences)} failed")
    return 1 if report.differences else 0


if __name__ == "__main__":
    sys.exit(main(sys.argv[1:]))
