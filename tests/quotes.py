#!/usr/bin/env python3
"""Compares the code that documents quote with the source: tests/quotes.py [--write].

A quoted block follows a line that names its file, relative to the document's folder, and its items:

    <!-- src/callers.rt: imports, pick, roll -->
    ```rust
    ..
    ```

An item is the name of a function, type or constant, quoted with its comment and without attributes. `imports` stands
for the lines that import. `the whole file` stands for a whole file, with its white space; that of items may differ. The
block is `rust` for a file of Rattle or Rust, `antt` for one of definitions or proofs, and `c`, `cpp`, `python` or
`cmake` for one of C, C++, Python or CMake. In C++ an item is the name of a struct.

In a table whose first column links a file of `specs/`, the second column names definitions. Each has to be declared in
that file. In docs/PROMISES.md, each clause (`function: clause, clause`) and mutant has to exist, and each promise has
to name a mutant, or to say `none` and why. Each mutant of the crates has to be named there, to name what it is refused
at, and to apply. The documents that are read are listed here, and each one with such a line or table has to be listed.

The last line is N passed, M failed. With --write the blocks are first rewritten from the source.
"""

import re
import subprocess
import sys
from pathlib import Path

ROOT = Path(__file__).resolve().parent.parent
sys.path.insert(0, str(ROOT / "tools"))
from edits import all_edits  # noqa: E402
from rattle import bare, items_at  # noqa: E402

DOCUMENTS = [
    "README.md",
    "c/README.md",
    "crates/nanorand/CALLING.md",
    "crates/nanorand/CONTRACTS.md",
    "crates/nanorand/TASKS.md",
    "docs/FAQ.md",
    "rust/nanorand-rand-core/README.md",
]
MARK = re.compile(r"^<!-- (?P<path>\S+\.(?P<kind>rt|rs|antt|cpp|c|py|txt)): (?P<items>.+) -->$")
# The name of a block of a file of this kind; other blocks are called rust.
BLOCKS = {"antt": "antt", "c": "c", "cpp": "cpp", "py": "python", "txt": "cmake"}
WORDS = re.compile(r"^\| \[[^\]]*\]\((?P<path>\S+\.antt)\) \| (?P<words>[^|]*) \|")


class Missing(Exception):
    """The source has no such item."""


def quoted(items, name):
    """The item with this name and its comment, or the lines that import."""
    if name == "imports":
        groups = [[one for one in items if one.word == word and not one.visibility] for word in ("ghost use", "use")]
        return "\n\n".join("\n".join(one.code() for one in group) for group in groups if group)
    for item in items:
        if item.word in ("fn", "struct", "enum", "type", "const") and item.name == name:
            return item.comment() + item.code()
    raise Missing(name)


def struct_of(path, name):
    """The struct of C++ with this name."""
    found = re.search(rf"^struct {re.escape(name)} {{.*?^}};$", path.read_text(encoding="utf-8"), re.M | re.S)
    if not found:
        raise Missing(name)
    return found[0]


def quote(path, selected):
    """The text of a block: the selected items of a file, or the whole file."""
    if selected == "the whole file":
        return path.read_text(encoding="utf-8").rstrip("\n")
    if path.suffix == ".cpp":
        return "\n\n".join(struct_of(path, name) for name in selected.split(", "))
    items = items_at(path)
    return "\n\n".join(quoted(items, name) for name in selected.split(", "))


def first_difference(wanted, found):
    """The first line of the source that the block lacks, or the first line of the block that the source lacks."""
    if "".join(found.split()) == "".join(wanted.split()):
        return "the white space is not that of the source"
    squeezed = "".join(found.split())
    for line in wanted.splitlines():
        if "".join(line.split()) not in squeezed:
            return f"the source has `{line.strip()}`"
    squeezed = "".join(wanted.split())
    for line in found.splitlines():
        if "".join(line.split()) not in squeezed:
            return f"the source has no `{line.strip()}`"
    return "the items stand in another order"


def check(document, write):
    """The number of quotes of a document that are right, and what is wrong with the others."""
    lines = document.read_text(encoding="utf-8").split("\n")
    passed, wrong, out, marked, i = 0, [], [], False, 0
    has_marks = any(MARK.match(line) for line in lines)
    while i < len(lines):
        place = f"{document}:{i + 1}"
        mark, words = MARK.match(lines[i]), WORDS.match(lines[i])
        out.append(lines[i])
        i += 1
        if words:
            declared = document.parent / words["path"]
            text = declared.read_text(encoding="utf-8") if declared.exists() else None
            for word in re.findall(r"`([^`]+)`", words["words"]):
                if text is not None and re.search(rf"^\s*(\w+ )*{re.escape(word)}(?![\w-])", text, re.M):
                    passed += 1
                else:
                    wrong.append(f"{place}: {declared} declares no `{word}`")
        if lines[i - 1] == "```rust" and has_marks and not marked:
            wrong.append(f"{place}: a block that names no source")
        marked = bool(mark)
        if not mark:
            continue
        fence = f"```{BLOCKS.get(mark['kind'], 'rust')}"
        if i >= len(lines) or lines[i] != fence:
            wrong.append(f"{place}: no block {fence} follows")
            continue
        end = lines.index("```", i)
        block = "\n".join(lines[i + 1 : end])
        try:
            wanted = quote(document.parent / mark["path"], mark["items"])
        except (Missing, OSError) as error:
            said = f"{mark['path']} has no `{error}`" if isinstance(error, Missing) else error
            wrong.append(f"{place}: {said}")
            continue
        if write and wanted != block:
            block = wanted
        is_whole = mark["items"] == "the whole file"
        if block == wanted if is_whole else "".join(block.split()) == "".join(wanted.split()):
            passed += 1
        else:
            wrong.append(f"{place}: {mark['path']}: {mark['items']}: {first_difference(wanted, block)}")
        out += [fence, *block.split("\n"), "```"]
        i = end + 1
        marked = False
    if write and out != lines:
        document.write_text("\n".join(out), encoding="utf-8")
    return passed, wrong


def check_documents(root):
    """The documents with quotes, or with a table of definitions, that DOCUMENTS lacks. They would not be compared."""
    names = subprocess.run(["git", "ls-files", "--cached", "--others", "--exclude-standard", "*.md"], cwd=root,
                           check=True, stdout=subprocess.PIPE, encoding="utf-8").stdout.splitlines()
    quoting = {name for name in names if (root / name).exists() and any(
        MARK.match(line) or WORDS.match(line) for line in (root / name).read_text(encoding="utf-8").splitlines())}
    wrong = [f"{name}: DOCUMENTS lacks it, and it has quotes" for name in sorted(quoting - set(DOCUMENTS))]
    wrong += [f"{name}: DOCUMENTS has it, and it has no quotes" for name in sorted(set(DOCUMENTS) - quoting)]
    return len(quoting & set(DOCUMENTS)), wrong


def functions_of(root):
    """For each name its functions: the type or trait, whether that is a trait, and the names of the clauses."""
    functions = {}
    for path in sorted(root.glob("crates/*/src/**/*.rt")):
        for item in items_at(path):
            owner = bare(item.type) if item.word == "impl" else item.name if item.word == "trait" else None
            for one in (item, *item.members()):
                if one.word == "fn":
                    clauses = {clause.name for clause in one.ensures}
                    functions.setdefault(one.name, []).append((owner, item.word == "trait", clauses))
    return functions


def has_clauses(functions, name, wanted):
    """Whether a function, whose name may begin with `Type::`, has the clauses. An impl has those of its trait."""
    owner, _, name = name.rpartition("::")
    of_name = functions.get(name, [])
    if not any(not owner or one[0] == owner for one in of_name):
        return False
    clauses = [one[2] for one in of_name if one[1] or not owner or one[0] == owner]
    return any(wanted <= one for one in clauses)


def check_promises(root):
    """What docs/PROMISES.md names and the source lacks, and mutants that the page does not name."""
    page = root / "docs/PROMISES.md"
    if not page.exists():
        return 0, []
    functions = functions_of(root)
    words = set()
    for path in root.glob("crates/*/src/**/*.rt"):
        words |= set(re.findall(r"\w+", path.read_text(encoding="utf-8")))
    edits = {edit.name for edit in all_edits(root)}
    text = page.read_text(encoding="utf-8")
    passed, wrong, named = 0, [], set(re.findall(r"`([^`]+)`", re.sub(r"\s+", " ", text)))
    for entry in re.finditer(r"^- (Clauses|Mutants refused): (.*(?:\n  .*)*)", text, re.M):
        line = text.count("\n", 0, entry.start()) + 1
        for span in re.findall(r"`([^`]+)`", re.sub(r"\s+", " ", entry[2])):
            if entry[1] == "Mutants refused":
                right = span in edits
            elif ": " in span:
                name, _, clauses = span.partition(": ")
                right = has_clauses(functions, name, set(clauses.split(", ")))
            else:
                right = set(span.split("::")) <= words or span.endswith("_")
            passed += right
            if not right:
                wrong.append(f"{page}:{line}: the source has no `{span}`")
    for edit in sorted(edits - named):
        wrong.append(f"{page}: the mutant `{edit}` is missing")
    for promise in re.split(r"^### ", text, flags=re.M)[1:]:
        if "\n- Clauses:" in promise:
            refused = re.search(r"^- Mutants refused: (?=.*`\w+`|none: )", promise, re.M) is not None
            passed += refused
            if not refused:
                wrong.append(f"{page}: no mutant of the promise: {promise.splitlines()[0]}")
    return passed + len(edits & named), wrong


def check_mutants(root):
    """The mutants whose text is not exactly once in the file that they name, or that name no clause."""
    edits = all_edits(root)
    names = [edit.name for edit in edits]
    wrong = [f"{edit.crate}: {edit.name}: {edit.problem()}" for edit in edits if edit.problem()]
    wrong += [f"two mutants are called {name}" for name in sorted(set(names)) if names.count(name) > 1]
    return len(edits) - len(wrong), wrong


def main():
    root = ROOT
    if sys.argv[1:] not in ([], ["--write"]):
        sys.exit(__doc__)
    passed, wrong = 0, []
    for name in DOCUMENTS:
        if (root / name).exists():
            right, others = check(root / name, sys.argv[1:] == ["--write"])
            passed += right
            wrong += [line.replace(f"{root}/", "") for line in others]
    for right, others in (check_documents(root), check_promises(root), check_mutants(root)):
        passed += right
        wrong += [line.replace(f"{root}/", "") for line in others]
    for line in wrong:
        print(f"FAILED {line}")
    print(f"{passed} passed, {len(wrong)} failed")
    return 1 if wrong else 0


if __name__ == "__main__":
    sys.exit(main())
