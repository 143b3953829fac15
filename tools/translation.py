"""Translates proved items to Rust: the rules for the differences between the languages, each stated in a sentence.

`in_rust` takes the entries of a Rattle file and returns them as Rust should have them. The rules change only the texts
of the proved side. `tools/bodies.py`, which imports this module, then compares the result exactly with the Rust source.
`SENTENCES` states the rules, and `rust/PROVED.md` shows them.
"""

import re
from dataclasses import dataclass, replace

from entries import entries_of, joined, laid_out
from rattle import Unreadable, file_of, tokens_of

SENTENCES = (
    ("`ghost`, `requires`, `ensures`, `impl Model`, modules of laws", "nothing",
     "They are contracts and proofs. No program runs them."),
    ("the precondition of a public function", "a check, or nothing",
     "The table of preconditions pairs each clause with its check. Private functions are called only by code whose"
     " proved counterpart satisfies the clause."),
    ("`A: Allocator`, `alloc: A`, `Vec<u8, A>`, `f(alloc, ..)`", "nothing, `Vec<u8>`, `f(..)`",
     "Rust's collections use the program's global allocator."),
    ("`AllocError`", "`std::collections::TryReserveError`", "Each is the error of a failed allocation."),
    ("`v.push(x)?;`, `v.extend_from_slice(x)?;`, `v.push_str(x)?;`", "`v.try_reserve(n)?; v.push(x);` ..",
     "In Rattle, a collection that grows returns an error if memory runs out. Rust reserves the memory first, and then"
     " grows. `x` is a name or a literal, so it does not matter when it is computed."),
    ("`fn clone(&self) -> Result<Self, AllocError> { Ok(x) }`", "`fn clone(&self) -> Self { x }`",
     "A clone in Rust returns no error. In the body, only the clones of its parts could return one."),
    ("`impl From<AllocFailed<T>>`", "`impl From<std::collections::TryReserveError>`",
     "It gives the same error as the one for `AllocError`. `try_reserve` has no item to give back."),
    ("`#[error(\"text\")]` of `thiserror`", "`impl Display`, `impl Error`",
     "Rust writes the texts without that crate."),
    ("`T: Drop`, `where T: Drop`", "`T`", "In Rust every value can be dropped."),
    ("`derive(Drop, Error)`", "nothing", "Rust drops every value, and the trait `Error` is implemented by hand."),
    ("`fn fmt<W: fmt::Write>(.., f: &mut fmt::Formatter<W>)`", "`fn fmt(.., f: &mut fmt::Formatter<'_>)`",
     "The type of a formatter in Rust does not name what it writes to."),
    ("a lifetime that only the allocator has", "nothing", "It is removed together with the allocator."),
    ("the trait `Blocks` and its implementations", "`Rng`",
     "Rust has one trait for both, so that a generator needs only `rand`."),
    ("`G: Blocks<OUTPUT> + Clone`", "`G: Rng<OUTPUT>`",
     "In Rattle, `Rng` requires both. In Rust it has the methods of `Blocks` and does not require `Clone`."),
    ("`let P(x) = y else { .. };`", "`let x = if let P(x) = y { x } else { .. };`",
     "Both mean the same; Rust 1.63 supports only the second."),
    ("`uN::random(rng).cast_signed()`", "`uN::random(rng) as iN`",
     "Both keep the bits; Rust 1.63 has no `cast_signed`."),
    ("`str::from_utf8(bytes)`", "`std::str::from_utf8(bytes)`",
     "Both are the same function; Rust 1.63 has only the second."),
    ("`Sha256::digest(bytes)`", "`sha256::digest(bytes)`",
     "In Rattle, SHA-256 is a crate; in Rust, it is a module of the package."),
    ("`u32x4`, `u32x8`", "`U32x4`, `U32x8`", "Stable Rust has no such vector types, so `simd.rs` defines them."),
    ("`final fn`, `fn`", "`fn`, or `const fn`", "A `const fn` is an ordinary function at run time."),
    ("a function with a `Read`, a `Vec` or a `String`, and an error's traits", "with `#[cfg(feature = \"std\")]`",
     "They need std. If a whole module needs it, its `mod` line has the attribute."),
)

# Rattle's names and paths, and those that Rust has instead.
NAMES = {"u32x4": "U32x4", "u32x8": "U32x8", "Blocks": "Rng"}

# Paths in Rattle's `use` declarations, and the paths in Rust. None means that Rust needs nothing.
USES = {
    "hex::FromHex": "crate::hex",
    "sha2::Digest": None,
    "sha2::Sha256": "crate::sha256",
    "std::alloc::AllocError": None,
    "std::alloc::AllocFailed": None,
    "std::alloc::Allocator": None,
    "std::fmt": "core::fmt",
    "std::marker::Model": None,
    "std::ops::Bound": "core::ops::Bound",
    "std::simd::u32x4": "crate::simd::U32x4",
    "std::simd::u32x8": "crate::simd::U32x8",
    "thiserror::Error": None,
}

# Used only by functions that take a reader, and so imported only with the feature std.
USED_WITH_STD = ("crate::entropy::EntropyError", "crate::entropy::system")

STD = 'cfg ( feature = "std" )'

# For each facet, whole parts that Rust does not have.
WITHOUT = {"attributes": ("derive ( Drop )", "derive ( Error )"), "bounds": ("Drop",)}

# The parameter for an allocator, or for what a formatter writes to.
HIDDEN = re.compile(r"\w+ : (?:Allocator|fmt :: Write)")

# The text of an error, as an attribute of the type or of one of its variants.
ERROR = re.compile(r'error \( ("(?:[^"\\]|\\.)*") \) ?')


def whole(pattern):
    """A pattern that matches only whole tokens."""
    return re.compile(rf"(?<!\S)(?:{pattern})(?!\S)")


# Types that exist only with std.
STD_TYPES = whole("Read|Vec|String|std")

# Patterns in an entry of Rattle, and their replacements in Rust.
REPLACED = (
    (whole(r"AllocFailed < T >|AllocError"), "std :: collections :: TryReserveError"),
    (whole(r", (?:& '\w+ )?A >"), ">"),
    (whole(r"< (?:& '\w+ )?A >"), ""),
    (whole(r"Formatter < W >"), "Formatter < '_ >"),
    (whole(r"(?<!:: )str :: from_utf8"), "std :: str :: from_utf8"),
    (whole(r"Sha256 :: digest"), "sha256 :: digest"),
    (whole(r"u(\d+) :: random \( rng \) \. cast_signed \( \)"), r"u\1 :: random ( rng ) as i\1"),
)

# The argument that passes an allocator on, `let P(x) = y else {`, `v.push(x)?;`, and a clone's `Ok(..)`.
ALLOCATOR = re.compile(r"(?<=\( )(?:& )?alloc (?:, |(?=\)))|, (?:& )?alloc (?=[,)])")
BINDING = re.compile(r"(?<!if )(?<!while )(?<!&& )(?<!\S)let ([^=;]+) = ([^;{}]+) else \{(?!\S)")
GROWTH = re.compile(r"""(?<=[;{}] )(\w+) \. (push|push_str|extend_from_slice) \( ([a-zA-Z_]\w*|b?["']\S*) \) \? ;""")
CLONE = re.compile(r"\{ Ok \( ([^()]*(?:\([^()]*\)[^()]*)*) \) \}")


@dataclass(frozen=True)
class Setting:
    """What a translation has to know.

    `module` is the path of the module in Rust, such as `crate::rand::chacha`. `crates` are the names of the proved
    crates in Rust. `without_std` says whether the module exists without the feature std. `checks` has, for each clause
    of a precondition, the text of the statement that checks it.
    """

    module: str
    crates: dict
    without_std: bool
    checks: dict


def unknown(entry, what):
    return Unreadable(f"{entry.file}:{entry.line}: {what}")


def in_rust(entries, setting):
    """The entries of a Rattle file as Rust should have them."""
    found = []
    for entry in entries:
        if entry.name == "use":
            found += uses_in_rust(entry, setting)
        elif entry.name != "mod laws" and not entry.name.startswith("impl Model for "):
            found += [with_std(one, setting) for one in (entry_in_rust(entry, setting), *error_entries(entry))]
    return found


def text_in_rust(text, setting):
    """A text of a facet, with Rust's types and crates."""
    for pattern, rust in REPLACED:
        text = pattern.sub(rust, text)
    names = {**setting.crates, **NAMES}
    return " ".join(names.get(word, word) for word in text.split(" ") if word)


def entry_in_rust(entry, setting):
    """Translates an entry of anything but uses."""
    if "tokens" in entry.facets:
        raise unknown(entry, f"no rule translates '{entry.name}'")
    facets = {}
    for facet, parts in entry.facets.items():
        facets[facet] = [kept for part in parts if (kept := part_in_rust(facet, part))]
    if any(text.split(" ")[0] == "error" for text in (*facets["attributes"], *facets.get("parts", ()))):
        raise unknown(entry, "an error whose text is no literal")
    if entry.name == "trait Rng":
        facets["bounds"] = [bound for bound in facets["bounds"] if not bound.startswith("Blocks ")]
    if entry.name.startswith("impl From<AllocFailed<T>> for ") and "generics" in facets:
        facets["generics"] = [part for part in facets["generics"] if part != "T"]
    if "body" in facets:
        facets = function_in_rust(entry, facets, setting)
    name = laid_out(text_in_rust(joined(tokens_of(entry.name)), setting))
    translated = {facet: [text_in_rust(part, setting) for part in parts] for facet, parts in facets.items()}
    return replace(entry, name=name, facets=translated)


def part_in_rust(facet, part):
    """A part of a facet without what Rust does not need. Empty if nothing is left."""
    if part in WITHOUT.get(facet, ()) or facet == "generics" and HIDDEN.fullmatch(part):
        return ""
    if facet in ("generics", "conditions", "bounds"):
        part = re.sub(r" [:+] Drop(?!\S)", "", part.replace(": Drop + ", ": "))
        part = re.sub(r"( : Blocks < \w+ >) \+ Clone$", r"\1", part)
        return "" if facet == "conditions" and " : " not in part else part
    return ERROR.sub("", part) if facet in ("attributes", "parts") else part


def error_entries(entry):
    """The implementations of `Display` and `Error` for an error, from its texts."""
    lone = [found[1] for one in entry.facets["attributes"] if (found := ERROR.fullmatch(one))]
    found = [(ERROR.match(part), part) for part in entry.facets.get("parts", ())]
    variants = [(match[1], part[match.end() :]) for match, part in found if match]
    if not lone and not variants:
        return []
    name = entry.name.partition(" ")[2]
    if lone:
        body = f"f.write_str({lone[0]})"
    elif any("{" in text for text, _ in variants):
        body = f"match self {{ {' '.join(written_arm(name, *row) for row in variants)} }}"
    else:
        body = f"f.write_str(match self {{ {' '.join(f'{name}::{part} => {text},' for text, part in variants)} }})"
    source = (
        f"impl core::fmt::Display for {name} {{"
        f" fn fmt(&self, f: &mut core::fmt::Formatter<'_>) -> core::fmt::Result {{ {body} }} }}"
        f" impl std::error::Error for {name} {{}}"
    )
    return entries_of(file_of(source, entry.file, entry.line))


def written_arm(name, text, variant):
    """The match arm that writes the text of a variant of an error."""
    word, _, fields = variant.partition(" ")
    if fields.startswith("("):
        return f"{name}::{word}(field) => write!(f, {text.replace('{0}', '{field}')}),"
    if fields:
        return f"{name}::{word} {{ {', '.join(re.findall('([a-z_0-9]+) : ', fields))} }} => write!(f, {text}),"
    return f"{name}::{word} => f.write_str({text}),"


def function_in_rust(entry, facets, setting):
    """The facets of a function without allocators, and with the checks of its preconditions."""
    parameters = [part for part in facets["parameters"] if not part.startswith("alloc : ")]
    words = [" ".join(word for word in text.split(" ") if word != "final") for text in facets["words"]]
    body, result, generics = facets["body"], facets["result"], facets["generics"]
    if parameters != facets["parameters"]:
        body = [ALLOCATOR.sub("", text) for text in body]
        bounds = [part.partition(" ")[2] for part in generics]
        texts = (text_in_rust(text, setting) for text in (*bounds, *parameters, *result, *facets["conditions"]))
        used = " ".join(texts).split(" ")
        generics = [part for part in generics if part[0] != "'" or part.split(" ")[0] in used]
    if entry.name.startswith("impl Clone for "):
        inside = CLONE.fullmatch(*body)
        if result != ["Result < Self , AllocError >"] or not inside:
            raise unknown(entry, "not 'fn clone(&self) -> Result<Self, AllocError> { Ok(..) }'")
        body, result = [f"{{ {inside[1].replace('. clone ( ) ?', '. clone ( )')} }}"], ["Self"]
    body = [GROWTH.sub(growth_in_rust, BINDING.sub(binding_in_rust, text)) for text in body]
    for clause in reversed(entry.requires):
        if clause not in setting.checks or setting.checks[clause] and not body:
            raise unknown(entry, f"no check is listed for the precondition '{clause}', or no body can make it")
        body = [f"{{ {setting.checks[clause]} {text[2:]}" for text in body]
    return {**facets, "words": list(filter(None, words)), "generics": generics, "parameters": parameters,
            "result": result, "body": body}


def binding_in_rust(found):
    """The `if let` for a `let .. else`."""
    names = whole("[a-z_][a-z0-9_]*").findall(found[1])
    bound = names[0] if len(names) == 1 else f"( {' , '.join(names)} )"
    return f"let {bound} = if let {found[1]} = {found[2]} {{ {bound} }} else {{"


def growth_in_rust(found):
    """A statement that reserves memory, and one that grows the vector.

    An item that is pushed needs room for one: it is a literal of one byte, or the body made the vector.
    """
    name, word, argument = found.groups()
    made = f"let mut {name} = Vec :: new (" in found.string
    if not argument.isascii() or word == "push" and argument.isidentifier() and not made:
        return found[0]
    room = "1" if word == "push" else f"{argument} . len ( )"
    return f"{name} . try_reserve ( {room} ) ? ; {name} . {word} ( {argument} ) ;"


def with_std(entry, setting):
    """The entry, with the attribute for items that need std if its head names a type that needs it."""
    owner, _, own = entry.name.rpartition(": ")
    head = ""
    if own.startswith("fn ") and " for " not in owner:
        head = " ".join(text for facet in ("generics", "parameters", "result") for text in entry.facets[facet])
    elif own.startswith("impl ") and " for " in own:
        head = joined(tokens_of(own.partition(" for ")[0]))
    if not setting.without_std or not STD_TYPES.search(head):
        return entry
    return replace(entry, facets={**entry.facets, "attributes": sorted([*entry.facets["attributes"], STD])})


def uses_in_rust(entry, setting):
    """The uses, with Rust's paths in place of Rattle's."""
    found = {}
    for facet, words in entry.facets.items():
        path, renamed, name = facet.partition(" as ")
        path = path_in_rust(path, setting)
        if path and path.rpartition("::")[0] != setting.module:
            needs_std = setting.without_std and (path.startswith("std::") or path in USED_WITH_STD)
            found[path + renamed + name] = [f"{STD} {text}" for text in words] if needs_std else words
    return [replace(entry, facets=found)] if found else []


def path_in_rust(path, setting):
    """The path in Rust, or None if Rust needs none."""
    names = path.split("::")
    if "laws" in names:
        return None
    if path in USES:
        return USES[path]
    return "::".join([setting.crates.get(names[0], names[0]), *(NAMES.get(name, name) for name in names[1:])])
