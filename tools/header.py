#!/usr/bin/env python3
"""Writes c/include/nanorand.h from the exports of crates/nanorand_c and the template c/include/nanorand.h.in.

    tools/header.py                       writes the header
    tools/header.py --check ARCHIVE..     compares the committed header with what would be written, and its functions
                                          with the symbols of each static library; prints N passed, M failed
    tools/header.py --symbols             prints the symbols of the exports

cbindgen does this for Rust, but cannot read Rattle, the language in which the exports are proved.
"""

from __future__ import annotations

import re
import subprocess
import sys
import textwrap
from pathlib import Path
from typing import NamedTuple

ROOT = Path(__file__).resolve().parent.parent
sys.path.insert(0, str(ROOT / "tools"))
from rattle import exports_of, is_laid_out_as_in_c, items_at, name_and_type, text_of  # noqa: E402

SOURCES = sorted((ROOT / "crates/nanorand_c/src").rglob("*.rt"))
# Sources of the libraries below, whose structs the C interface passes unchanged.
BORROWED = [path for crate in ("nanorand_calls/src", "nanorand/src/rand")
            for path in sorted((ROOT / "crates" / crate).rglob("*.rt"))]
HEADER = ROOT / "c/include/nanorand.h"
FRAME = ROOT / "c/include/nanorand.h.in"

PREFIX = "nanorand_v1_"
NUMBERS = {"u8": "uint8_t", "u32": "uint32_t", "u64": "uint64_t", "i64": "int64_t", "usize": "size_t", "f64": "double"}
STATUSES = {"Status": "nanorand_status", "LotsStatus": "nanorand_lots_status"}
STRUCTS = {"WyRand": "wyrand", "Wide": "pcg64", "ChaChaState": "chacha", "Stream": "stream",
           "GroupStream": "keystream"}

# The length of a slice is a parameter of its own. Some lengths have a name that says what they count.
LENGTHS = {("sample", "places"): "wanted", ("extend_sample", "places"): "wanted", ("draw", "places"): "population"}

# The description of each generator above its functions. The states are described at their structs.
SECTIONS = {
    "wyrand": "WyRand: 64 bits of state, the fastest generator. Not cryptographically secure.",
    "pcg64": "Pcg64: a 128-bit seed. Not cryptographically secure.",
    "chacha": "The state of ChaCha with 8, 12 and 20 rounds.",
    "chacha8": "ChaCha with 8 rounds. Even a single number takes a new block: fill many bytes at once.",
    "chacha12": "ChaCha with 12 rounds. Even a single number takes a new block: fill many bytes at once.",
    "chacha20": "ChaCha with 20 rounds. Even a single number takes a new block: for many, use keystream.",
    "stream": "The keystream of ChaCha with 20 rounds, without gaps between calls.",
    "keystream": "The same keystream, computed eight blocks at once: use it if speed matters.",
    "lots": "The public draw by lot.",
    "version": "The version.",
}

# The words of the sources' comments and the words for a C programmer. What has none is an error: see `in_c_words`.
WORDS = [
    (r"`first\.\.=last`", "`first` to `last`, both included"),
    (r"\b[Tt]he slice\b", "`buffer`"),
    (r"`(u8|u32|u64|i64|usize)`", lambda found: f"`{NUMBERS[found[1]]}`"),
]
RUST_WORDS = re.compile(r"::|\.\.=|\bslices?\b|\b[ui](size|8|16|32|64|128)\b|&mut|\bOk\b|\bErr\b")


class Function(NamedTuple):
    symbol: str
    comment: str
    parameters: str
    attributes: str
    result: str

    @property
    def name(self) -> str:
        return self.symbol.replace(PREFIX, "nanorand_", 1)

    @property
    def section(self) -> str:
        return self.symbol.removeprefix(PREFIX).split("_")[0]

    @property
    def call(self) -> str:
        """The name without that of the generator."""
        return self.symbol.removeprefix(f"{PREFIX}{self.section}").lstrip("_")


class Struct(NamedTuple):
    name: str
    comment: str
    fields: list[tuple[str, str, str]]


def paragraphs_of(docs: list[str]) -> str:
    """The paragraphs of an item's docs, one on each line."""
    text = "\n".join(line.strip() for line in docs)
    return "\n".join(" ".join(paragraph.split()) for paragraph in text.split("\n\n"))


def in_c_words(name: str, comment: str) -> str:
    """The comment of the source, as a C programmer reads it."""
    text = comment
    for pattern, word in WORDS:
        text = re.sub(pattern, word, text)
    if not text or (found := RUST_WORDS.search(text)):
        reason = f"it has {found[0]}" if text else "it is empty"
        sys.exit(f"tools/header.py: the comment of {name} is not for C programmers: {reason}")
    return text[0].upper() + text[1:]


def parameter(name: str, kind: str, length: str) -> str:
    """A parameter in C. A slice becomes a pointer and then a length; bytes named `items` may be items of any type."""
    constant = "" if kind.startswith("&mut ") or not kind.startswith("&") else "const "
    inner = re.sub(r"^&(mut )?", "", kind)
    if match := re.fullmatch(r"\[(\w+); (\d+)\]", inner):
        return f"{constant}{c_type(match[1])} {name}[{match[2]}]"
    if match := re.fullmatch(r"\[(\w+)\]", inner):
        item = "void" if (name, match[1]) == ("items", "u8") else c_type(match[1])
        return f"{constant}{item} *{name}, size_t {length}"
    return f"{constant}{c_type(inner)} {'*' if kind.startswith('&') else ''}{name}"


def is_slice(kind: str) -> bool:
    return re.fullmatch(r"&(mut )?\[\w+\]", kind) is not None


def parameters(call: str, pairs: list[tuple[str, str]]) -> str:
    """The parameters in C. The length of the only slice is `length`. Of several, each length has its slice's name."""
    slices = [name for name, kind in pairs if is_slice(kind)]
    lengths = {name: "length" if len(slices) == 1 else f"{name}_length" for name in slices}
    lengths.update({name: LENGTHS[call, name] for name in slices if (call, name) in LENGTHS})
    written = [parameter(name, kind, lengths.get(name, "")) for name, kind in pairs]
    return ", ".join(written) or "void"


def attributes(pairs: list[tuple[str, str]], result: str) -> str:
    """The attributes for compilers. A reference is never null. An empty slice (a pointer and a length) may be null."""
    places, place = [], 1
    for _, kind in pairs:
        if kind.startswith("&") and not is_slice(kind):
            places.append(str(place))
        place += 2 if is_slice(kind) else 1
    words = [f"NANORAND_NOT_NULL(({', '.join(places)}))"] if places else []
    words += ["NANORAND_USE_STATUS"] if result in STATUSES else []
    return " ".join(words)


def c_type(kind: str) -> str:
    if kind in STRUCTS:
        return f"nanorand_{STRUCTS[kind]}"
    if kind in STATUSES:
        return STATUSES[kind]
    if kind not in NUMBERS:
        sys.exit(f"tools/header.py: the C interface cannot pass the type {kind}: if it is a struct, name it in STRUCTS "
                 "of tools/header.py and in C_STRUCTS of tests/declarations.py")
    return NUMBERS[kind]


def functions() -> list[Function]:
    """The exports, in the order of SECTIONS and then of the source."""
    found = []
    for export in (export for path in SOURCES for export in exports_of(items_at(path))):
        words, result = in_c_words(export.name, paragraphs_of(export.docs)), text_of(export.result)
        returned, pairs = c_type(result) if result else "void", list(map(name_and_type, export.parameters))
        call = export.name.removeprefix(PREFIX).partition("_")[2]
        found.append(Function(export.name, words, parameters(call, pairs), attributes(pairs, result), returned))
    if len(found) != sum(path.read_text(encoding="utf-8").count("no_mangle") for path in SOURCES):
        sys.exit("tools/header.py: not every export is a function of a file")
    if odd := [function.symbol for function in found if function.section not in SECTIONS]:
        sys.exit(f"tools/header.py: no section for {', '.join(odd)}: describe the generator in its SECTIONS")
    return sorted(found, key=lambda function: list(SECTIONS).index(function.section))


def structs() -> list[Struct]:
    """The structs of the C interface, in the order of STRUCTS, with the first paragraph of their comments."""
    found = {}
    for item in (item for path in SOURCES + BORROWED for item in items_at(path)):
        if is_laid_out_as_in_c(item) and item.name in STRUCTS:
            comment = in_c_words(item.name, paragraphs_of(item.docs).split("\n")[0])
            fields = [(*name_and_type(part.tokens), paragraphs_of(part.docs)) for part in item.parts]
            found[item.name] = Struct(STRUCTS[item.name], comment, fields)
    return [found[name] for name in STRUCTS if name in found]


def comment_of(text: str) -> str:
    """A C comment, filled to 100 columns, with an empty line between paragraphs."""
    if len(text) <= 93 and "\n" not in text:
        return f"/* {text} */"
    paragraphs = ["\n".join(f" * {line}" for line in textwrap.wrap(paragraph, 97, break_on_hyphens=False))
                  for paragraph in text.splitlines()]
    return "/*\n" + "\n *\n".join(paragraphs) + "\n */"


def declaration(function: Function) -> str:
    """The declaration: on one line, or with the parameters and the attributes on lines of their own."""
    start = f"{function.result} {function.name}("
    end = f" NANORAND_SYMBOL({function.symbol.removeprefix(PREFIX)}) {function.attributes}".rstrip() + ";"
    if len(line := f"{start}{function.parameters}){end}") <= 100:
        return line
    if len(line := f"    {function.parameters}){end}") <= 100:
        return f"{start}\n{line}"
    # No line ends within a parameter.
    taken = function.parameters.replace(" ", "\0").replace(",\0", ", ") + ")"
    lines = textwrap.fill(taken, 100, initial_indent="    ", subsequent_indent="    ", break_on_hyphens=False)
    lines = lines.replace("\0", " ")
    return f"{start}\n{lines}\n   {end}"


def of_items(function: Function) -> str:
    """The call that shuffles items of any type, given their number: an inline function over that for bytes."""
    name, state = function.name.replace("_bytes", "_items"), function.parameters.split(",")[0]
    comment = comment_of("Shuffles `length` items of any type, which are `size` bytes each, with the draws and the "
                         f"order of `shuffle`. For an array: {name}(&rng, items, sizeof items / sizeof *items, "
                         "sizeof *items). Returns NANORAND_OK, or NANORAND_EXHAUSTED if 128 words in a row were "
                         "rejected for one index; every item is still there then, in another order.")
    return f"""{comment}
NANORAND_NOT_NULL((1)) NANORAND_USE_STATUS
static inline nanorand_status {name}(
    {state}, void *items, size_t length, size_t size)
{{
    return {function.name}(rng, items, length * size, size);
}}
"""


def struct_text(struct: Struct) -> str:
    lines = []
    for name, kind, comment in struct.fields:
        text = parameter(name, kind, "") + ";"
        lines.append(f"    {text}" + (f" /* {comment} */" if comment else ""))
    body = "\n".join(lines)
    tag = f"{PREFIX}{struct.name}"
    definition = f"typedef struct {tag} {{\n{body}\n}} nanorand_{struct.name};"
    return f"{comment_of(struct.comment)}\n{definition}\n"


def version() -> str:
    """The number that nanorand_v1_version returns: the last one in its body."""
    for export in (export for path in SOURCES for export in exports_of(items_at(path))):
        if export.name == f"{PREFIX}version":
            return export.body[-1].text.replace("_", "")
    return sys.exit("tools/header.py: no version is exported")


def section(name: str, members: list[Function]) -> str:
    """The declarations of a section, each after its comment."""
    lines = [f"/* ---- {SECTIONS[name]} ---- */", ""]
    for one in members:
        lines += [comment_of(one.comment), declaration(one), ""]
        lines += [of_items(one)] if one.call == "shuffle_bytes" else []
    return "\n".join(lines) + "\n"


def header() -> str:
    found = functions()
    sections = [section(name, members) for name in SECTIONS
                if (members := [function for function in found if function.section == name])]
    names = "\n".join(f"#define {function.name} {function.symbol}" for function in found)
    text = FRAME.read_text(encoding="utf-8")
    for mark, part in [("VERSION", version()), ("NAMES", names), ("FUNCTIONS", "".join(sections)),
                       ("STRUCTS", "\n".join(map(struct_text, structs())))]:
        text = text.replace(f"@{mark}@", part)
    return text


def archived(archive: str) -> set[str]:
    """The external symbols that the archive defines. None may collide with another library's."""
    listed = subprocess.run(["nm", "--defined-only", "--extern-only", "--format=posix", archive],
                            check=True, capture_output=True, encoding="utf-8").stdout
    return {line.split()[0] for line in listed.splitlines() if len(line.split()) > 1}


def is_explained(function: Function, words: str) -> bool:
    """Whether the header has the function's comment above the declaration."""
    comment = " ".join(function.comment.split())
    return f"{comment} {function.result} {function.name}(" in words


def check(archives: list[str]) -> int:
    """Compares the header and the archives with the source: one case for the text, and one per comment and symbol."""
    found = functions()
    symbols = {function.symbol for function in found}
    text = HEADER.read_text(encoding="utf-8") if HEADER.exists() else ""
    words = " ".join(re.sub(r"^ \*/?|/\*|\*/", "", text, flags=re.M).split())
    wrong = [f"{one.symbol} is not explained" for one in found if not is_explained(one, words)]
    wrong += [f"{symbol} has no version" for symbol in sorted(symbols) if not symbol.startswith(PREFIX)]
    if text != header():
        wrong.append("c/include/nanorand.h is not what tools/header.py writes: run it")
    cases = 1 + len(found)
    for archive in archives:
        exported = archived(archive)
        wrong += [f"{symbol} is not in {archive}" for symbol in sorted(symbols - exported)]
        wrong += [f"{symbol} is in {archive} alone" for symbol in sorted(exported - symbols)]
        cases += len(symbols | exported)
    for line in wrong:
        print(f"FAILED {line}")
    print(f"{cases - len(wrong)} passed, {len(wrong)} failed")
    return 1 if wrong else 0


def main() -> int:
    if sys.argv[1:2] == ["--check"]:
        return check(sys.argv[2:])
    if sys.argv[1:] == ["--symbols"]:
        print("\n".join(sorted(function.symbol for function in functions())))
        return 0
    if sys.argv[1:]:
        print("usage: tools/header.py [--check ARCHIVE.. | --symbols]", file=sys.stderr)
        return 2
    HEADER.parent.mkdir(exist_ok=True)
    HEADER.write_text(header(), encoding="utf-8")
    return 0


if __name__ == "__main__":
    sys.exit(main())
