#!/usr/bin/env python3
"""Checks the documents' links within the repository, and compares the map with the tree: tests/links.py.

A link names a file or a folder and, after `#`, a heading of that document. A script that a document names in backticks
has to exist. The map in docs/ARCHITECTURE.md has to name each file at the top and each folder in a folder at the top,
and whatever else it names has to exist. The last line is N passed, M failed.
"""

import re
import subprocess
import sys
from functools import cache
from pathlib import Path

ROOT = Path(__file__).resolve().parent.parent
# Folders of files that are built.
LEFT_OUT = {".git", "out", "target"}
FENCED = re.compile(r"^```.*?^```$", re.M | re.S)
LINK = re.compile(r"\]\((?!\w+:)(?P<file>[^()#\s]*)(?:#(?P<heading>[^()\s]+))?\)")


@cache
def prose_of(document):
    """The text of a document without its code blocks."""
    return FENCED.sub("", document.read_text(encoding="utf-8"))


@cache
def anchors_of(document):
    """The anchor of each heading, which a link has after `#`: its words in lower case, joined by hyphens."""
    headings = re.findall(r"^#+ (.*)$", prose_of(document), re.M)
    return {re.sub(r"[^\w\- ]", "", heading).lower().replace(" ", "-") for heading in headings}


def wrong_with(document, link):
    """What is wrong with a link, or an empty text."""
    target = (document.parent / link["file"]).resolve() if link["file"] else document
    if not target.is_relative_to(ROOT) or not target.exists():
        return "no such file in the repository"
    if link["heading"] and link["heading"] not in anchors_of(target):
        return "no such heading"
    return ""


def tree():
    """The paths that the map has to name, and the folders at the top. A folder's path ends in a slash."""
    names = subprocess.run(["git", "ls-files", "--cached", "--others", "--exclude-standard"], cwd=ROOT, check=True,
                           stdout=subprocess.PIPE, encoding="utf-8").stdout.splitlines()
    names = [name.split("/") for name in names if (ROOT / name).exists()]
    files = {name[0] for name in names if len(name) == 1}
    return files | {f"{name[0]}/{name[1]}/" for name in names if len(name) > 2}, {f"{name[0]}/" for name in names}


def map_problems():
    """What the map lacks, and what it names that does not exist. A folder at the top need not be named."""
    text = (ROOT / "docs/ARCHITECTURE.md").read_text(encoding="utf-8").partition("## The map\n")[2]
    columns = re.findall(r"^\| ([^|]*) \|", text, re.M)
    mapped = {path for column in columns if " of a crate" not in column for path in re.findall(r"`([^`]+)`", column)}
    wanted, folders = tree()
    for path in sorted(wanted - mapped):
        yield f"docs/ARCHITECTURE.md: its map lacks {path}"
    for path in sorted(mapped - wanted - folders):
        if not (ROOT / path).exists():
            yield f"docs/ARCHITECTURE.md: its map has {path}, which is not there"


def absent_scripts(document):
    """The scripts that a document names and that do not exist, relative to the top or to the document's folder."""
    for path in re.findall(r"`\.?/?((?:[\w-]+/)+[\w-]+\.(?:sh|py))\b", document.read_text(encoding="utf-8")):
        if not (ROOT / path).exists() and not (document.parent / path).exists():
            yield f"{document.relative_to(ROOT)}: {path}: no such script"


def main():
    if sys.argv[1:]:
        sys.exit(__doc__)
    passed = failed = 0
    documents = [one for one in sorted(ROOT.rglob("*.md")) if not LEFT_OUT & set(one.relative_to(ROOT).parts)]
    for document in documents:
        for link in LINK.finditer(prose_of(document)):
            wrong = wrong_with(document, link)
            passed += not wrong
            failed += bool(wrong)
            if wrong:
                print(f"FAILED {document.relative_to(ROOT)}: {link[0][1:]}: {wrong}")
    problems = [*map_problems(), *(one for document in documents for one in absent_scripts(document))]
    for problem in problems:
        print(f"FAILED {problem}")
    passed, failed = passed + (not problems), failed + len(problems)
    print(f"{passed} passed, {failed} failed")
    return 1 if failed else 0


if __name__ == "__main__":
    sys.exit(main())
