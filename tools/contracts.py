#!/usr/bin/env python3
"""Writes the book of contracts, a web page that works offline.

    tools/contracts.py            writes docs/out/contracts.html
    tools/contracts.py FILE       writes FILE
    tools/contracts.py --check    compares, and prints N passed, M failed
    tools/contracts.py --sums     writes tools/contracts.sums

The page is made from the sources. It has each public item of the library, of the programs and of the C exports, with
its comment, signature and clauses; each definition in `specs/`; and each promise in docs/PROMISES.md. A name in a
clause or a definition links to its definition. --check compares the page with the sources, and the signatures, clauses
and definitions of each file, also of users' programs and of tests, with the file's sum in tools/contracts.sums, so that
no change goes unnoticed.
"""

import hashlib
import re
import sys
from functools import cache
from html import escape, unescape
from pathlib import Path

from rattle import items_at

HERE = Path(__file__).resolve().parent
ROOT = HERE.parent
DOCS = ROOT / "docs"

SUMS = HERE / "contracts.sums"
SUMS_HEAD = "# Sums of the signatures, clauses and definitions of each file. Written by tools/contracts.py --sums.\n"
CRATES = {
    "nanorand_core": "For every generator: traits, values, ranges, choices, samples, shuffles",
    "nanorand_replay": "For every generator: buffers and replays",
    "nanorand_fairness": "Laws of whole draws",
    "nanorand": "The generators, their blocks, seeds from readers, and their laws",
    "nanorand_rand": "The generators for the kit's rand, and those of the kit for the library",
    "draw_core": "The program draw",
    "lots_core": "The draw of the program lots",
    "lots_record": "The records and the commands of the program lots",
    "nanorand_calls": "The calls as C makes them: a status, and what is written",
    "nanorand_c": "The exports for C, Python and the page",
}
# The crates that have sums: also those of users' programs and of tests, which the page does not show.
SUMMED = (*CRATES, "nanorand_users", "nanorand_rand_users", "dice", "rand_dice", "test_support", "nanorand_tests",
          "program_tests")
# A crate whose mutants are wrong implementations of the library's traits by a user.
EXAMPLES = {"nanorand_users"}
TYPES = ("struct", "enum", "trait", "type", "const")
WORD = re.compile(r"[A-Za-z_][\w'-]*")
IMPORT = re.compile(r"^[ ]*(?:ghost )?use Rattle\.(\w+)\.specs\.([\w.+]+)\.\{([^}]*)\}", re.M)
DECLARED = re.compile(r"(?P<indent> *)(?:abbrev |unfoldable )*pub (?:record |data )?(?P<name>[\w'-]+)")
PART = re.compile(r"^- (?P<word>Clauses|Mutants refused): ")


class Entry:
    """An entry of the book: an item, a definition or a promise."""

    def __init__(self, anchor, title, comment, text, file):
        self.anchor, self.title, self.comment, self.text, self.file = anchor, title, comment, text, file


class Book:
    """The entries by anchor and by file, those of code by name, the words of each file, and the words that nothing
    defines."""

    def __init__(self):
        self.chapters, self.entries, self.code, self.words, self.names, self.missing = {}, {}, {}, {}, {}, []

    def add(self, entry):
        while entry.anchor in self.entries:
            entry.anchor += "_"
        self.entries[entry.anchor] = entry
        self.chapters.setdefault(entry.file, []).append(entry)
        if entry.file.suffix == ".rt":
            self.code.setdefault(WORD.findall(entry.title)[-1], []).append(entry)


def anchor_of(*parts):
    return re.sub(r"[^\w.'-]+", "_", ".".join(part for part in parts if part)).strip("_")


def module_of(path, folder):
    """The module of a file below a folder, such as values.range."""
    parts = list(path.relative_to(folder).with_suffix("").parts)
    return ".".join(part for part in parts if part not in ("lib", "Lib"))


@cache
def items_of(path):
    """The items of a file of code. The page and the sums both read most files."""
    return items_at(path)


def add_source(book, crate, path):
    """The public items of a file of code, each followed by its members."""
    module = module_of(path, ROOT / "crates" / crate / "src")
    for item in items_of(path):
        if item.word == "impl" or item.is_public and item.word in (*TYPES, "fn"):
            owner = anchor_of(crate, module, item.name)
            book.add(Entry(owner, title_of(item), item.comment(), signature_of(item), path))
            for member in members_of(item):
                name = anchor_of(owner, member.name)
                book.add(Entry(name, title_of(member, item), member.comment(), signature_of(member), path))


def members_of(item):
    """The functions and ghost members of a trait or an impl; of an inherent impl, only the public ones."""
    of_trait = item.word == "trait" or " for " in item.name
    return [one for one in item.members() if one.word in ("fn", "ghost") and (of_trait or one.is_public)]


def title_of(item, owner=None):
    if item.word == "impl":
        return item.name
    before = re.sub(r"^impl ", "", owner.name) + ": " if owner else ""
    return f"{before}{item.word} {item.name}"


def signature_of(item):
    """An item without its body. An enum, and a struct with public fields, is complete."""
    whole = item.word == "enum" or item.word == "struct" and any(part.is_public for part in item.parts)
    lines = item.code(None if whole else item.brace).split("\n")
    return "\n".join(line.removeprefix(item.indentation()) for line in lines)


def add_definitions(book, crate, path):
    """The public declarations of a file of definitions, each with the comment before it."""
    module = module_of(path, ROOT / "crates" / crate / "specs")
    lines = path.read_text(encoding="utf-8").split("\n")
    comment, given, i = [], "", 0
    while i < len(lines):
        line = lines[i]
        found = DECLARED.match(line)
        if line.lstrip().startswith("--"):
            comment.append(line)
        elif line.startswith("module _"):
            end = next(j for j in range(i, len(lines)) if lines[j].endswith("where"))
            given, i, comment = "\n".join(lines[i : end + 1]) + "\n", end, []
        elif found and " mod " not in line:
            end = end_of(lines, i, found)
            text = (given if found["indent"] else "") + "\n".join(lines[i:end])
            anchor = anchor_of(crate, "specs", module, found["name"])
            book.add(Entry(anchor, found["name"], "\n".join(comment), text, path))
            comment, i = [], end - 1
        else:
            comment = []
            given = "" if line and line[0] not in " " else given
        i += 1


def end_of(lines, start, found):
    """The line after a declaration, which has the lines indented further, the line that closes it, and the equations
    that begin with its name."""
    indent, name = found["indent"], found["name"]
    end = last = start + 1
    while end < len(lines):
        line = lines[end]
        prefixes = indent + " ", indent + "}", f"{indent}{name} ", f"{indent}unfolding "
        goes_on = line.startswith(prefixes) and not (
            not indent and DECLARED.match(line) and lines[start].startswith("module"))
        if goes_on:
            last = end + 1
        elif line.strip():
            break
        end += 1
    return last


def add_promises(book):
    path = DOCS / "PROMISES.md"
    for part in re.split(r"^### ", path.read_text(encoding="utf-8"), flags=re.M)[1:]:
        title, _, text = part.partition("\n")
        text = re.split(r"^## ", text, flags=re.M)[0].strip()
        book.add(Entry(anchor_of("promise", title), re.sub(r"`", "", title), "", text, path))


def imported(book, path):
    """Where the words of a file are defined: those of its imports, its own declarations, and the book's types."""
    text = path.read_text(encoding="utf-8")
    words = dict(book.names)
    for crate, module, names in IMPORT.findall(text):
        for name in re.split(r",\s*", names.strip()):
            word, _, shown = name.partition(" as ")
            target = anchor_of(crate, "specs", module, word)
            if module.startswith("declared."):
                owner = module.split(".")[-2 if module.endswith("TheVariants") else -1]
                target = book.names.get(owner, "")
            elif target not in book.entries:
                # A constructor is defined by its type.
                target = anchor_of(crate, "specs", module)
            if target in book.entries:
                words[shown or word] = target
            elif crate in CRATES and "support" not in module.split("."):
                book.missing.append(f"{path.relative_to(ROOT)}: a definition of {word}")
    for entry in book.chapters.get(path, []):
        words.setdefault(entry.anchor.split(".")[-1], entry.anchor)
    return words


def linked(text, words):
    """Code as HTML. Each word that the book defines is a link."""
    def link(found):
        anchor = words.get(found[0])
        return f'<a href="#{anchor}">{escape(found[0])}</a>' if anchor else escape(found[0])

    shown, at = [], 0
    for found in WORD.finditer(text):
        shown += [escape(text[at : found.start()]), link(found)]
        at = found.end()
    return "".join(shown) + escape(text[at:])


def prose(comment):
    """A comment as HTML: paragraphs, with text in backticks as code."""
    text = re.sub(r"^[ ]*(///?!?|--) ?", "", comment, flags=re.M).strip()
    html = [re.sub(r"`([^`]+)`", r"<code>\1</code>", escape(one)) for one in re.split(r"\n\s*\n", text) if one]
    return "".join(f"<p>{one}</p>" for one in html)


def promise(book, text):
    """A promise as HTML: its sentences, a line for its clauses, and a line for its mutants."""
    sentences, parts = [], []
    for line in text.split("\n"):
        if PART.match(line):
            parts.append(line)
        elif parts and line.startswith("  "):
            parts[-1] += " " + line.strip()
        elif not parts:
            sentences.append(line)
    shown = prose("\n".join(sentences))
    for part in parts:
        word = PART.match(part)["word"]
        shown_as = (lambda found: cited(book, found[1])) if word == "Clauses" else r"<code>\1</code>"
        html = re.sub(r"`([^`]+)`", shown_as, escape(part[len(word) + 4 :], quote=False))
        shown += f"<p><b>{word}:</b> {html}</p>"
    return re.sub(r"\[([^\]]+)\]\([^)]*\)", r"\1", shown)


def cited(book, name):
    """A clause of a promise, as a link to its function if only one function can be meant."""
    path, _, clauses = unescape(name).partition(": ")
    *owner, word = path.split("::")
    wanted = [f"ensures {one} " for one in clauses.split(", ") if one]
    named = [one for one in book.code.get(word, []) if set(owner) <= set(re.split(r"[._]", one.anchor))]
    named = [one for one in named if all(part in one.text for part in wanted)] or named
    return f'<a href="#{named[0].anchor}"><code>{name}</code></a>' if len(named) == 1 else f"<code>{name}</code>"


def made(crates=CRATES):
    """The book of the sources of these crates."""
    book = Book()
    for crate in crates:
        for path in sorted((ROOT / "crates" / crate / "src").rglob("*.rt")):
            add_source(book, crate, path)
        for path in sorted((ROOT / "crates" / crate / "specs").rglob("*.antt")):
            if "support" not in path.parts:
                add_definitions(book, crate, path)
    types = [one for one in book.entries.values() if one.title.split(" ")[0] in TYPES]
    book.names = {one.title.split(" ")[1]: one.anchor for one in reversed(types)}
    add_promises(book)
    return book


def article(book, entry):
    if entry.file.suffix == ".md":
        inside = promise(book, entry.text)
    else:
        if entry.file not in book.words:
            book.words[entry.file] = imported(book, entry.file)
        inside = prose(entry.comment) + f"<pre>{linked(entry.text, book.words[entry.file])}</pre>"
    return f'<article id="{entry.anchor}"><h4>{escape(entry.title)}</h4>{inside}</article>'


@cache
def chapter(book, path):
    title = path.relative_to(ROOT / "crates").as_posix() if path.suffix != ".md" else "Promises"
    articles = "\n".join(article(book, entry) for entry in book.chapters[path])
    return f'<section id="{anchor_of("file", title)}"><h3>{escape(title)}</h3>\n{articles}\n</section>'


def page(book):
    """The page as HTML."""
    promises = DOCS / "PROMISES.md"
    body, contents = [], []
    for crate, about in {"promises": "What is promised, and by which clauses", **CRATES}.items():
        folder = ROOT / "crates" / crate
        files = [promises] if crate == "promises" else [one for one in book.chapters if folder in one.parents]
        body.append(f'<section id="{crate}"><h2>{crate}</h2><p>{about}.</p>')
        body += [chapter(book, one) for one in files] + ["</section>"]
        names = [one.relative_to(folder).as_posix() for one in files if crate != "promises"]
        links = "".join(f'<li><a href="#{anchor_of("file", f"{crate}/{name}")}">{name}</a></li>' for name in names)
        contents.append(f'<details><summary><a href="#{crate}">{crate}</a></summary><ul>{links}</ul></details>')
    shell = (HERE / "templates/contracts.html").read_text(encoding="utf-8")
    return shell.replace("<!-- contents -->", "\n".join(contents)).replace("<!-- body -->", "\n".join(body))


def check(book, html):
    """How much of the sources is in the page, and what is missing. Patterns find it, not the parser of items."""
    shown = {path: unescape(re.sub(r"<[^>]+>", "", chapter(book, path))) for path in book.chapters}
    ids = set(re.findall(r' id="([^"]+)"', html))
    wanted = [(f"the link #{one}", one in ids) for one in sorted(set(re.findall(r'href="#([^"]+)"', html)))]
    wanted += [(one, False) for one in book.missing]
    titles = re.findall(r"^### (.*)", (DOCS / "PROMISES.md").read_text(encoding="utf-8"), re.M)
    wanted += [(f"the promise: {one}", escape(one.replace("`", "")) in html) for one in titles]
    wanted += [("no address outside", "http" not in re.sub(r"<(article|section).*?</\1>", "", html, flags=re.S))]
    folders = (ROOT / "crates").glob("*/m*/")
    with_mutants = [path.parent.name for path in folders if path.name in ("mutants", "must-fail")]
    promised = set(with_mutants) - EXAMPLES
    wanted += [(f"the crate {one}", one in CRATES) for one in sorted(promised)]
    for crate in CRATES:
        for path in sorted((ROOT / "crates" / crate).glob("s*/**/*.*t*")):
            text = path.read_text(encoding="utf-8")
            name = path.relative_to(ROOT)
            if path.suffix == ".rt":
                public = r'^ *pub (?:(?:const|unsafe|extern "C") )*(?:fn|struct|enum|trait|type) (\w+)'
                found = re.findall(public, text, re.M)
                public = re.sub(r"^(?:pub\(crate\) )?trait .*?^\}", "", text, flags=re.M | re.S)
                public = re.sub(r"^( *)(?:pub\(crate\) )?fn .*?^\1\{", "", public, flags=re.M | re.S)
                found += re.findall(r"^ +(?:ensures|requires)\b[^{\n]*\{[^\n]*", public, re.M)
            elif "support" not in path.parts and path.name != "Lib.antt":
                found = [line for line in text.split("\n") if not re.match(r" *(--|(pub )?use |(pub )?mod )|$", line)]
            else:
                continue
            wanted += [(f"{name}: {one.strip()}", one.strip() in shown.get(path, "")) for one in found]
    return sum(right for _, right in wanted), [one for one, right in wanted if not right]


def sums(book):
    """A sum of each file's signatures, clauses and definitions, which their layout and comments do not change."""
    files = {path.relative_to(ROOT): entries for path, entries in book.chapters.items() if path.suffix != ".md"}
    return {**{name.as_posix(): sum_of(entries) for name, entries in files.items()}, **sums_of_mutants()}


def sums_of_mutants():
    """A sum of the names of each file's mutants, and of what refuses them."""
    texts = {path: path.read_text(encoding="utf-8") for path in sorted((ROOT / "crates").glob("*/mutants/**/*.edits"))}
    mutants = {path: "\n".join(re.findall(r"^mutant .*$", text, re.M)) for path, text in texts.items()}
    return {path.relative_to(ROOT).as_posix(): hashlib.sha256(text.encode()).hexdigest()[:16]
            for path, text in mutants.items()}


def sum_of(entries):
    words = [re.sub(r"^ *(--|//).*$", "", entry.text, flags=re.M).split() for entry in entries]
    return hashlib.sha256("\n".join(map(" ".join, words)).encode()).hexdigest()[:16]


def check_sums():
    """The number of files with the recorded sums, and the other files."""
    lines = SUMS.read_text(encoding="utf-8").splitlines()
    written = {name: one for one, name in (line.split() for line in lines if not line.startswith("#"))}
    found = sums(made(SUMMED))
    names = found.keys() | written.keys()
    wrong = sorted(name for name in names if found.get(name) != written.get(name))
    return len(names) - len(wrong), wrong


def check_all(book, html):
    passed, missing = check(book, html)
    same, changed = check_sums()
    for one in missing:
        print(f"FAILED the book lacks {one}")
    for one in changed:
        print(f"FAILED {one}: a signature, a clause, a definition or a mutant changed: "
              "if none is weaker and no mutant is gone, run tools/contracts.py --sums")
    print(f"{passed + same} passed, {len(missing) + len(changed)} failed")
    return bool(missing or changed)


def main():
    if len(sys.argv) > 2 or sys.argv[1:2] and sys.argv[1].startswith("-") and sys.argv[1] not in ("--check", "--sums"):
        sys.exit(__doc__)
    if sys.argv[1:] == ["--sums"]:
        lines = [f"{one}  {name}\n" for name, one in sums(made(SUMMED)).items()]
        SUMS.write_text(SUMS_HEAD + "".join(lines), encoding="utf-8")
        return 0
    book = made()
    html = page(book)
    if sys.argv[1:] == ["--check"]:
        return check_all(book, html)
    target = Path(sys.argv[1]) if len(sys.argv) == 2 else DOCS / "out/contracts.html"
    target.parent.mkdir(parents=True, exist_ok=True)
    target.write_text(html, encoding="utf-8")
    return 0


if __name__ == "__main__":
    sys.exit(main())
