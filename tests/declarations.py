#!/usr/bin/env python3
"""Compares the declarations of the exports, in Rust and in C, with the proved functions: tests/declarations.py.

No compiler sees a declaration together with the function, and the linker compares only names. The script also compares
the exports of the library that cargo builds, the attributes for null pointers and statuses in the header and what it
says of null pointers, the crates of the kit that the README names as trusted and those of crates.txt, the results
in the header of C++ that have to be read, the standard headers that it includes, the structs that the exports take or
return, the version and the repository's address that each part names, the copies of the license, the headings of the
changelogs, and the C functions and statuses that documents name. It finds a generator of the Rust crate that lacks what
the files of layer/ have for all of them, and keywords and categories of the Rust packages that crates.io would not
take. The last line is N passed, M failed.
"""

import re
import sys
from pathlib import Path

ROOT = Path(__file__).resolve().parent.parent
sys.path.insert(0, str(ROOT / "tools"))
from crates import below, crates  # noqa: E402
from rattle import exports_of, is_laid_out_as_in_c, items_at, name_and_type, text_of  # noqa: E402

CALLED = "tests/against_c/tests/common/mod.rs"
BY_CARGO = "rust/nanorand-c/src"
C_NUMBERS = {
    "uint8_t": "u8",
    "uint32_t": "u32",
    "uint64_t": "u64",
    "int64_t": "i64",
    "size_t": "usize",
    "double": "f64",
    "void": "u8",
    "nanorand_status": "Status",
    "nanorand_lots_status": "LotsStatus",
}
# The enums of C, which are numbers in Rust.
STATUSES = {"Status": "u32", "LotsStatus": "u32"}
C_STRUCTS = {
    "nanorand_wyrand": "WyRand",
    "nanorand_pcg64": "Wide",
    "nanorand_chacha": "ChaChaState",
    "nanorand_stream": "Stream",
    "nanorand_keystream": "GroupStream",
}
STRUCTS = sorted(C_STRUCTS.values())
# The functions of C++ whose result need not be read: the call that all generators of <random> have.
MAY_BE_UNREAD = {"operator()"}
# The headers of the standard library, and the names of each that the header of C++ uses. A compiler does not miss a
# header that another one includes.
STANDARD = {
    "algorithm": "iter_swap min",
    "array": "array",
    "cstddef": "byte size_t",
    "cstdint": "int64_t uint32_t uint64_t uint8_t",
    "cstring": "memcmp",
    "iterator": "begin data end iterator_traits next size",
    "limits": "numeric_limits",
    "optional": "nullopt optional",
    "stdexcept": "invalid_argument logic_error out_of_range runtime_error",
    "string": "string to_string",
    "string_view": "string_view",
    "type_traits": "is_arithmetic_v is_const_v is_floating_point_v is_integral_v is_same_v is_signed_v remove_cv_t "
                   "remove_pointer_t remove_reference_t void_t",
    "utility": "declval make_pair",
    "vector": "vector",
}
# Where the library's version is written, as text or as the number that is exported.
VERSIONS = {
    "c/include/nanorand.h": r"^#define NANORAND_VERSION (\d+)$",
    "Cargo.toml": r'^version = "(.*)"$',
    "Cargo.lock": r'^name = "(?:draw|lots|nanorand-program)"\nversion = "(.*)"$',
    "rust/nanorand-c/Cargo.toml": r'^version = "(.*)"$',
    "rust/nanorand-c/src/lib.rs": r"^    (\d{5,})$",
    "CHANGELOG.md": r"(?s)\A.*?\n## \[([\d.]+)\] - ",
}
# Where the repository's address is written.
ADDRESSES = {
    "Cargo.toml": r'^repository = "(.*)"$',
    "rust/nanorand-rand-core/Cargo.toml": r'^repository = "(.*)"$',
    "pyproject.toml": r'^Repository = "(.*)"$',
}
# What a file of layer/ has for each generator of the Rust crate. The seeds of `ChaChaGroups` are those of its stream.
CRATE = "rust/nanorand-proved/src"
LAYERS = {
    "any": r"^    \[.*\] {0},$",
    "defaults": r"^impl.* Default for {0} \{{$",
    "hash": r"^impl.* Hash for {0} \{{$",
    "seeds": r"^impl(?:<.*>)? {0} \{{$",
}
# What other files have for each generator of the Rust crate, except `ChaChaGroups`: {0} is its name, {1} the same in
# lower case.
NAMED = {
    "crates/nanorand/src/laws.rt": r"ensures \w+_blocks \{{ ⟦<{0}\b.* as Blocks<\d+>>⟧",
    "crates/nanorand/CONTRACTS.md": r"\(specs/generators/{0}\.antt\)",
    "rust/nanorand-rand-core/src/lib.rs": r"^impl.* SeedableRng for Core<{0}\b",
    "c/include/nanorand.hpp": r"^class {0}(?:20)? ",
    "python/nanorand/_native.pyi": r"^class {0}(?:20)?\(",
    "docs/PROMISES.md": r"`{0}::rand: bytes, state`",
    "docs/REFERENCE.md": r"^## {0}$",
    "README.md": r"^\| `{0}(?:20Stream)?` .*\|.*\|.*\|.*\|$",
    "python/native/module.c": r"&{1}(?:20)?_spec\b",
    "python/tests/makers.py": r"^    \"{1}(?:20)?\": {0}",
    "tests/answers/vectors.py": r"^    \(\"{1}(?:20)?\", .*, \"\w+\"\),$",
    "tests/answers/definitions.py": r"^    \"{1}(?:20)?\": ",
    "tests/answers/draw_sums.py": r"\b{0}\(",
    "c/tests/edges.c": r"^TESTS\({1}(?:20)?, ",
    "c/tests/items.c": r"^TESTS\({1}(?:20)?, ",
    "c/tests/numbers.c": r"^TESTS\({1}(?:20)?, ",
    "c/tests/guards.c": r"^TESTS\({1}(?:20)?, ",
}
# The headings of a changelog, after Keep a Changelog 1.1.0.
CHANGELOGS = "CHANGELOG.md", "rust/nanorand-proved/CHANGELOG.md"
CHANGELOG_TITLE, CHANGELOG_FIRST = "# Changelog", "## [Unreleased]"
CHANGELOG_LATER = re.compile(r"## \[\d+\.\d+\.\d+\] - (\d{4}-\d\d-\d\d|not released)"
                             r"|### (Added|Changed|Deprecated|Removed|Fixed|Security)")
# What crates.io takes in lists of at most five: keywords of this form, and of its categories those that packages use.
MOST = 5
FORMS = {
    "keywords": r"[A-Za-z][A-Za-z0-9_-]{0,19}",
    "categories": r"algorithms|command-line-interface|command-line-utilities|no-std",
}
# What the header says of null pointers: the attributes of the functions say the same to compilers.
NULLS = ["No pointer may be null, except that of an array of length 0.",
         "For compilers: the numbers of the parameters that must not be null; a status that must not be ignored."]
# The crates whose dependencies are those of the library and the programs, and the crate of the adapters.
PROVED, ADAPTERS = ("nanorand", "nanorand_c", "draw", "lots"), "nanorand_rand"
# Documents that name C functions and their statuses: the patterns of a name and of a table row for a status.
NAMES = {
    "c/README.md": r"\bnanorand_(?!v1_|c\b)(\w+)",
    "docs/LANGUAGES.md": r"`(?:nanorand_(?!c`)|(?=(?:wyrand|pcg64|chacha\d+|keystream|lots)_)|\.\._(?=range_))(\w+)",
}
STATUS = r"^\| (?:status )?(\d+) \| `NANORAND_(\w+)`"


def read(path):
    return (ROOT / path).read_text(encoding="utf-8")


def without_comments(text):
    return re.sub(r"//[^\n]*|/\*.*?\*/", "", text, flags=re.S)


def parameters(text):
    """The parameters' names and types, as written between the parentheses."""
    pairs = [part.split(":", 1) for part in text.split(",") if ":" in part]
    return [(name.strip(), " ".join(kind.split())) for name, kind in pairs]


def rust_type(text):
    """A type of Rust or Rattle as the C interface passes it: a number or a pointer. Type arguments are dropped."""
    if match := re.fullmatch(r"&mut (\w+)(?:<\w+>)?|(?:&mut |\*mut |NonNull<|ArrayMut<)(.+?)>?", text):
        return f"mut {next(filter(None, match.groups()))}"
    if match := re.fullmatch(r"(?:&|\*const |Array<)(.+?)>?", text):
        return f"const {match[1]}"
    return text


def rust_parameter(name, text):
    """What a parameter passes: one value, or the pointer and then the length of a slice."""
    if match := re.fullmatch(r"&(mut )?\[(\w+)\]", text):
        return [(name, f"{'mut' if match[1] else 'const'} {match[2]}"), ("length", "usize")]
    return [("length" if name.endswith("length") else name, rust_type(text))]


def rust_signature(pairs, result):
    passed = [item for name, kind in pairs for item in rust_parameter(name, kind)]
    return passed, result or "()"


def rust_functions(text, pattern):
    found = re.findall(pattern + r"\s*\(([^)]*)\)(?:\s*->\s*(\w+))?", text)
    return [(name, rust_signature(parameters(arguments), result)) for name, arguments, result in found]


def exports(crate):
    """The functions that the crate exports."""
    paths = sorted((ROOT / "crates" / crate / "src").rglob("*.rt"))
    functions = [function for path in paths for function in exports_of(items_at(path))]
    return [(one.name, rust_signature(map(name_and_type, one.parameters), text_of(one.result))) for one in functions]


def rust_declarations(path):
    text = without_comments(read(path))
    found = []
    macros = r"macro_rules! (\w+) \{\n.*?=> \{ unsafe extern \"C\" \{ \$\((.*?)\)\+ \} \};"
    for macro, body in re.findall(macros, text):
        [(_, signature)] = rust_functions(body, r"fn (\$name)")
        for names in re.findall(rf"^{macro}!\((.*?)\);", text, re.S | re.M):
            found += [(name.strip(), signature) for name in names.split(",") if name.strip()]
    for block in re.findall(r"^(?:unsafe )?extern \"C\" \{\n(.*?)^\}", text, re.S | re.M):
        found += rust_functions(block, r"fn (\w+)")
    return found


def generator_declarations(text, macro):
    """The functions that a macro declares or exports, for each generator and state that it is called with."""
    [body] = re.findall(rf"^macro_rules! {macro} \{{\n(.*?)^\}}", text, re.S | re.M)
    functions = rust_functions(body, r'"_(\w+)"\)\]\s*(?:extern "C" )?fn \w+')
    for generator, state in re.findall(macro + r'!\((?:\$prefix, )?"(\w+)", (\w+)', text):
        for name, (passed, result) in functions:
            passed = [(one, kind.replace("$state", state)) for one, kind in passed]
            yield f"nanorand_v1_{generator}_{name}", (passed, result)


def called_declarations():
    """The functions that the tests in tests/against_c call: those of every generator, and those of only one."""
    text = without_comments(read(CALLED))
    alone = rust_functions(text, r'\$prefix, "(\w+)"\)\]\s*fn \w+')
    named = [(f"nanorand_v1_{name}", signature) for name, signature in alone]
    return [*generator_declarations(text, "calls"), *generator_declarations(text, "part"), *named]


def exports_by_cargo():
    """The functions that rust/nanorand-c exports: those of every generator, and those of only one."""
    files = sorted((ROOT / BY_CARGO).glob("*.rs"))
    text = without_comments("".join(path.read_text(encoding="utf-8") for path in files))
    alone = rust_functions(text, r'#\[no_mangle\]\s*(?:pub )?extern "C" fn (\w+)')
    shared = [*generator_declarations(text, "export_calls"), *generator_declarations(text, "export_part")]
    return [*shared, *alone]


def rust_structs(paths):
    """The structs with the memory layout of C, and their fields in order."""
    structs = [item for path in paths for item in items_at(path) if is_laid_out_as_in_c(item)]
    return {one.name: [name_and_type(part.tokens) for part in one.parts] for one in structs}


def c_base(text):
    return C_NUMBERS.get(text) or C_STRUCTS.get(text) or text


def c_parameter(text):
    """The name of a C parameter, and its type as the interface passes it."""
    text = " ".join(text.replace("*", " * ").split())
    match = re.fullmatch(r"(const )?(\w+) (\* )?(\w+)(?:\[(\d+)\])?", text)
    if match is None:
        return text, text
    constant, base, pointer, name, length = match.groups()
    name, base = "length" if name.endswith("length") else name, c_base(base)
    if length:
        base = f"[{base}; {length}]"
    if pointer or length:
        base = ("const " if constant else "mut ") + base
    return name, base


def c_macros(text):
    """The macros that name an export."""
    return re.findall(r"^#define (nanorand_\w+) (nanorand_\w+)$", text, re.M)


def c_prototypes(path):
    """The prototypes of a header, under the names that its macros give them: result, parameters and attributes."""
    text = without_comments(read(path))
    macros = dict(c_macros(text))
    found = re.findall(r"^(\w+)\s+(nanorand_\w+)\(([^)]*)\)([^;]*);", text, re.M)
    return [(macros.get(name, name), result, arguments, attributes) for result, name, arguments, attributes in found]


def c_declarations(path):
    found = []
    for name, result, arguments, _ in c_prototypes(path):
        kind = "()" if result == "void" else c_base(result)
        listed = [] if arguments.strip() == "void" else arguments.split(",")
        found.append((name, (with_lengths([c_parameter(part) for part in listed]), kind)))
    return found


def with_lengths(pairs):
    """The parameters, in which a number after an array of numbers is called a length."""
    arrays = [kind.split()[-1] not in STRUCTS and kind.startswith(("mut ", "const ")) and "[" not in kind
              for _, kind in pairs]
    return [("length" if array and kind == "usize" else name, kind)
            for (name, kind), array in zip(pairs, [False, *arrays])]


def wanted_attributes(signature):
    """The attributes that a function needs: a pointer without a length is not null, and a status is used."""
    passed, result = signature
    after = [name for name, _ in passed[1:]] + [""]
    places = [str(place) for place, ((_, kind), name) in enumerate(zip(passed, after), 1)
              if kind.startswith(("mut ", "const ")) and name != "length"]
    words = [f"NANORAND_NOT_NULL(({', '.join(places)}))"] if places else []
    return words + ["NANORAND_USE_STATUS"] * (result in STATUSES)


def attribute_problems(path, exported):
    """The prototypes without their symbol or without an attribute."""
    known = dict(exported)
    for name, _, _, attributes in c_prototypes(path):
        symbol = f"NANORAND_SYMBOL({name.removeprefix('nanorand_v1_')})"
        found, wanted = " ".join(attributes.split()), " ".join([symbol, *wanted_attributes(known[name])])
        yield [] if found == wanted else [f"{path}: {name} has {found or 'no attributes'}, not {wanted}"]


def macro_problems(path):
    """The macros whose name is not that of their export without the version."""
    return [
        f"{path}: {name} stands for {symbol}"
        for name, symbol in c_macros(without_comments(read(path)))
        if symbol != name.replace("nanorand_", "nanorand_v1_", 1)
    ]


def cpp_functions(path):
    """The name of each function in a header of C++, and the words before it. Deleted functions are left out."""
    text = re.sub(r"(?m)^#(?:.*\\\n)*.*", "", without_comments(read(path)))
    text = re.sub(r"\b(?:public|private):|= \{\}|template <.*>\n", "", text).replace("decltype(auto)", "auto")
    found, head, depth = [], "", 0
    for part in re.split(r"([{};])", text):
        begins = part == "{" and (depth > 0 or "(" in head)
        if depth == 0 and (begins or part == ";" and "(" in head and "=" not in head):
            before, name = re.match(r"(?s)(.*?)(operator\(\)|operator[^\w\s]+|\w+)\(", head).groups()
            found.append((name, before.split()))
        depth = max(0, depth + begins - (part == "}"))
        head = part
    return found


def unread_problems(path):
    """Each function of C++ that returns a value says that it has to be read. Constructors have no type before them."""
    functions, said = cpp_functions(path), read(path).count("[[nodiscard]]")
    found = sum("[[nodiscard]]" in words for _, words in functions)
    yield [] if found == said else [f"{path}: {found} functions with [[nodiscard]] are found, not {said}"]
    for name, words in functions:
        returns = set(words) - {"explicit", "inline", "static", "friend", "constexpr", "void"}
        is_read = not returns or "[[nodiscard]]" in words or name in MAY_BE_UNREAD
        yield [] if is_read else [f"{path}: {name} returns a value without [[nodiscard]]"]


def include_problems(path):
    """The header of C++ includes the header of each standard name that it uses, and no others."""
    text = without_comments(read(path))
    included = set(re.findall(r"^#include <(\w+)>$", text, re.M))
    headers = {name: header for header, names in STANDARD.items() for name in names.split()}
    used = {name: headers.get(name) for name in re.findall(r"\bstd::(\w+)", text)}
    for name, header in sorted(used.items()):
        yield [] if header in included else [f"{path}: std::{name} is used, and its header <{header}> is not included"]
    yield [f"{path}: <{header}> is included and not used" for header in sorted(included - set(used.values()))]


def c_structs(path):
    text = without_comments(read(path))
    found = re.findall(r"^typedef struct \w* ?\{(.*?)\} (\w+);", text, re.S | re.M)
    return {c_base(name): c_fields(body) for body, name in found}


def c_fields(body):
    return [c_field(part) for part in body.split(";") if part.strip()]


def c_field(text):
    match = re.fullmatch(r"\s*(\w+) (\w+)(?:\[(\d+)\])?\s*", text)
    if match is None:
        return text, text
    base, name, length = match.groups()
    return name, f"[{c_base(base)}; {length}]" if length else c_base(base)


def types(signature):
    passed, result = signature
    return [kind for _, kind in passed], result


def comparable(signature):
    """A signature without the name of the state, which callers may choose."""
    passed, result = signature
    named = [(kind if kind.split()[-1] in STRUCTS else name, kind) for name, kind in passed]
    return named, result


def problems(path, declared, exported, seen):
    """What is wrong with the declarations of a file: a list of texts for each declaration."""
    names = [name for name, _ in declared]
    known = dict(exported)
    for name, signature in declared:
        wrong = []
        if name not in known:
            wrong.append(f"{path}: {name} is not exported")
        elif seen(signature) != seen(known[name]):
            wrong.append(f"{path}: {name} is declared as {signature} and exported as {known[name]}")
        if names.count(name) > 1:
            wrong.append(f"{path}: {name} is declared {names.count(name)} times")
        yield wrong
    for name in sorted(set(known) - set(names)):
        yield [f"{path}: {name} is exported and not declared"]


def exported_twice(exported):
    names = [name for name, _ in exported]
    twice = sorted({name for name in names if names.count(name) > 1})
    return [f"{name} is exported {names.count(name)} times" for name in twice]


def struct_problems(path, declared, proved):
    for name in STRUCTS:
        here, there = declared.get(name), proved.get(name)
        same = here is not None and here == there
        yield [] if same else [f"{path}: {name} is declared as {here} and proved as {there}"]


def version_problems():
    """Version 1.2.3 is exported as 10203."""
    source = read("crates/nanorand_c/src/version.rt")
    [number] = re.findall(r"result ≡ (\d+)", source)
    [body] = re.findall(r"^    ([\d_]+)$", source, re.M)
    yield [] if int(body) == int(number) else [f"crates/nanorand_c/src/version.rt: {body}, and its clause has {number}"]
    parts = int(number) // 10000, int(number) // 100 % 100, int(number) % 100
    wanted = {number, ".".join(map(str, parts))}
    for path, pattern in VERSIONS.items():
        found = re.findall(pattern, read(path), re.M)
        yield [] if found and set(found) <= wanted else [f"{path}: version {found}, and {number} is exported"]


def address_problems():
    found = {path: re.findall(pattern, read(path), re.M) for path, pattern in ADDRESSES.items()}
    same = len({*map(tuple, found.values())}) == 1 and all(len(addresses) == 1 for addresses in found.values())
    return [[] if same else [f"the repository's address is {found}"]]


def license_problems():
    """Each package of Rust is packed with its own copy of the license."""
    copies = sorted((ROOT / "rust").glob("*/LICENSE"))
    yield [] if len(copies) > 5 else [f"rust/: only {len(copies)} packages have a LICENSE"]
    for path in copies:
        same = path.read_bytes() == (ROOT / "LICENSE").read_bytes()
        yield [] if same else [f"{path.relative_to(ROOT)}: it is not the LICENSE of the repository"]


def registry_problems():
    """crates.io refuses a package with other keywords, and leaves out other categories."""
    for path in sorted((ROOT / "rust").glob("*/Cargo.toml")):
        text, where = path.read_text(encoding="utf-8"), path.relative_to(ROOT)
        for name, form in FORMS.items():
            found = re.findall(rf"^{name} = \[(.*)\]$", text, re.M)
            if found or "\npublish = false\n" not in text:
                words = ", ".join(found).split(", ")
                good = len(words) <= MOST and all(re.fullmatch(f'"({form})"', word) for word in words)
                yield [] if good and len(set(words)) == len(words) else [f"{where}: the {name} are {found}"]


def changelog_problems():
    for path in CHANGELOGS:
        title, first, *later = re.findall(r"^#+ .*", read(path), re.M)
        begins = (title, first) == (CHANGELOG_TITLE, CHANGELOG_FIRST)
        yield [] if begins else [f"{path}: it begins with {title}, {first}"]
        yield [f"{path}: {text} is no heading of a changelog" for text in later if not CHANGELOG_LATER.fullmatch(text)]


def name_problems(header):
    """The C names and the status numbers in documents are in the header."""
    text = without_comments(read(header))
    words = set(re.findall(r"\bnanorand_(\w+)", text))
    words |= {name.split("_", 1)[1] for name in words if "_range_" in name}
    words |= {word[: word.rindex("_") + 1] for word in words if "_" in word}
    numbers = set(re.findall(r"^ *NANORAND_(\w+) = (\d+)", text, re.M))
    for path, pattern in NAMES.items():
        names = set(re.findall(pattern, read(path)))
        statuses = {(status, number) for number, status in re.findall(STATUS, read(path), re.M)}
        yield [] if len(names) > 8 and len(statuses) > 2 else [f"{path}: it names {sorted(names)}, {sorted(statuses)}"]
        yield [f"{path}: {name} is not in {header}" for name in sorted(names - words)]
        yield [f"{path}: {status} is no status {number}" for status, number in sorted(statuses - numbers)]


def size_problems(header):
    """c/README.md compares the sizes of the two streams. Their structs have no padding."""
    structs = c_structs(header)

    def size(kind):
        if match := re.fullmatch(r"\[(\w+); (\d+)\]", kind):
            return size(match[1]) * int(match[2])
        return sum(size(field) for _, field in structs[kind]) if kind in structs else {"u8": 1, "u64": 8}[kind]

    wanted = f"{size('Stream')} bytes in place of {size('GroupStream')}"
    return [[] if wanted in read("c/README.md") else [f"c/README.md: it does not say {wanted}"]]


def null_problems(header):
    """The header says of null pointers only what its attributes say."""
    comments = " ".join(re.findall(r"/\*(.*?)\*/", read(header), re.S)).replace("*", " ")
    found = re.findall(r"(?<=[.;] )[^.;]*\bnull\b[^.;]*|For compilers: [^;]*\bnull\b", " ".join(comments.split()), re.I)
    wrong = [text for text in found if not any(text in wanted for wanted in NULLS)]
    return [[f"{header}: of null pointers it says: {text}" for text in wrong] if len(found) == len(NULLS) else
            [f"{header}: of null pointers it says: {found}"]]


def trusted_problems():
    """The README names the crates of the kit whose contracts are trusted. crates.txt has no others."""
    all_crates = crates()
    of_proved = {name for one in PROVED for name in below(one, all_crates)} - all_crates.keys()
    of_adapters = set(all_crates[ADAPTERS].libraries) - all_crates.keys() - of_proved
    of_others = {name for one in all_crates.values() for name in one.libraries} - all_crates.keys() - of_proved
    text = " ".join(read("README.md").partition("that `crates.txt` names.")[2].partition("\n\n")[0].split())
    named = [set(re.findall(r"`(\w+)`", sentence)) for sentence in text.split(". ")]
    return [[] if named == [of_proved, of_adapters | {ADAPTERS}, of_others] else
            [f"README.md: it names {named} as trusted, crates.txt has {of_proved}, {of_adapters}, {of_others}"]]


def generator_problems():
    """Each generator of the Rust crate has its lines in the files of layer/, and in those of the other languages and in
    documents."""
    sources = "".join(path.read_text(encoding="utf-8") for path in sorted((ROOT / CRATE / "rand").glob("*.rs")))
    found = re.findall(r"^impl.* Rng<\d+> for (\w+(?:<ROUNDS>)?) \{", sources, re.M)
    generators = [name for name in found if re.search(rf"^pub struct {name.partition('<')[0]}\b", sources, re.M)]
    yield [] if len(generators) > 3 else [f"{CRATE}/rand: it has the generators {generators}"]
    for layer, pattern in LAYERS.items():
        for name in generators:
            named = name.replace("Groups", "Stream") if layer == "seeds" else name
            has = re.search(pattern.format(named), read(f"{CRATE}/layer/{layer}.rs"), re.M)
            yield [] if has else [f"{CRATE}/layer/{layer}.rs: it has nothing for {named}"]
    for path, pattern in NAMED.items():
        for name in (name.partition("<")[0] for name in generators if name != "ChaChaGroups<ROUNDS>"):
            has = re.search(pattern.format(name, name.lower()), read(path), re.M)
            yield [] if has else [f"{path}: it has nothing for {name}"]


def main():
    if sys.argv[1:]:
        sys.exit(__doc__)
    library, bench, header = exports("nanorand_c"), exports("nanorand_bench"), "c/include/nanorand.h"
    cases = [exported_twice(library + bench), macro_problems(header)]
    in_rust = [(name, (passed, STATUSES.get(result, result))) for name, (passed, result) in library]
    cases += problems(CALLED, called_declarations(), in_rust, comparable)
    cases += problems(header, c_declarations(header), library, comparable)
    cases += attribute_problems(header, library)
    cases += null_problems(header)
    cases += trusted_problems()
    cases += unread_problems("c/include/nanorand.hpp")
    cases += include_problems("c/include/nanorand.hpp")
    cases += problems(BY_CARGO, exports_by_cargo(), in_rust, comparable)
    cases += problems("bench/kit/src/calls.rs", rust_declarations("bench/kit/src/calls.rs"), bench, types)
    # The structs of `nanorand_calls`, and `WyRand` of `nanorand`.
    calls = sorted((ROOT / "crates/nanorand_calls/src").rglob("*.rt"))
    proved = rust_structs([ROOT / "crates/nanorand/src/rand/wyrand.rt", *calls])
    cases += struct_problems(CALLED, rust_structs([ROOT / CALLED]), proved)
    cases += struct_problems(header, c_structs(header), proved)
    cases += version_problems()
    cases += address_problems()
    cases += license_problems()
    cases += registry_problems()
    cases += changelog_problems()
    cases += name_problems(header)
    cases += size_problems(header)
    cases += generator_problems()
    for text in (text for case in cases for text in case):
        print(text)
    failed = sum(map(bool, cases))
    print(f"{len(cases) - failed} passed, {failed} failed")
    return failed != 0


if __name__ == "__main__":
    sys.exit(main())
