"""The parts of a file that are compared: an entry for each function, constant, type, trait, implementation and module.

An entry has a name that says where it is (`trait Rng: fn shuffle`) and facets, such as its result and its body. A facet
is a list of texts with one space between any two tokens, and no other spaces. `normal` removes tokens that have no
meaning, such as the attributes in `IGNORED`. `tools/bodies.py` makes the entries of both sides with this module.
"""

import functools
import hashlib
import re
from dataclasses import dataclass

from rattle import (Alias, Constant, Data, Function, Ghost, Implementation, Module, Other, Part, Token, Trait, Use,
                    closing, derives_of, split, tokens_of)

# Attributes that do not affect what a program does: lints, hints to the optimizer, the place that a panic names, docs
# and layout of the source.
# `forbid` is not among them, since a crate promises something with it.
IGNORED = ("allow", "cold", "deny", "doc", "expect", "inline", "must_use", "rustfmt", "tactic", "track_caller",
           "warn")

# Words after which a parenthesis opens a tuple. After any other name it opens arguments.
BEFORE_TUPLES = (
    "as", "break", "dyn", "else", "for", "if", "impl", "in", "let", "match", "move", "mut", "ref", "return", "where",
    "while",
)

# What may follow the label of a loop or of a block.
LABELLED = ("for", "loop", "while", "{")

# What is compared of an item, besides its attributes and its visibility.
FACETS = {
    Function: ("words", "generics", "parameters", "result", "conditions", "body"),
    Constant: ("type", "value"),
    Alias: ("generics", "bounds", "value"),
    Data: ("kind", "generics", "conditions", "parts"),
    Trait: ("words", "generics", "bounds", "conditions"),
    Implementation: ("words", "generics", "conditions"),
    Module: ("items",),
    Other: ("tokens",),
}


@dataclass(frozen=True)
class Entry:
    """What is compared together. `requires` are a public function's preconditions, which its callers have to keep."""

    name: str
    file: str
    line: int
    facets: dict
    requires: tuple = ()

    @functools.cached_property
    def whole(self):
        """All facets as one text."""
        return "\n".join(f"{name}: {' , '.join(parts)}" for name, parts in sorted(self.facets.items()))

    def text(self):
        """The same, for the digest."""
        return self.whole


def digest(text):
    return hashlib.sha256(text.encode()).hexdigest()[:12]


def joined(tokens):
    """The tokens as a text of a facet. A space in a literal is written as its escape."""
    return " ".join(token.text.replace(" ", r"\x20") for token in tokens)


def laid_out(text):
    """A type, or a name of an entry, in its usual layout."""
    return re.sub(r"(?<=::) |(?<=[<\[(&!]) | (?=[:<>\]),;])", "", text)


def is_ignored(attribute):
    """Whether an attribute does not affect what a program does."""
    if attribute[0].text == "cfg_attr":
        applied = split(attribute[2:-1])[1:]
        return all(part[0].text == "diagnostic" or is_ignored(part) for part in applied)
    return attribute[0].text in IGNORED


def normal(tokens):
    """The tokens of a type or a list without those that have no meaning: ignored attributes and trailing commas."""
    return without_commas(without_ignored(list(tokens)))


def normal_body(tokens):
    """The tokens of a body without those that have no meaning, which includes unused labels and optional braces."""
    return without_commas(without_arm_braces(without_labels(without_ignored(list(tokens)))))


def without_ignored(tokens):
    """The tokens without ignored attributes."""
    found, place = [], 0
    while place < len(tokens):
        if tokens[place].text == "#":
            opening = place + 1 + (tokens[place + 1].text == "!")
            end = closing(tokens, opening)
            if tokens[opening].text == "[" and is_ignored(tokens[opening + 1 : end]):
                place = end + 1
                continue
        found.append(tokens[place])
        place += 1
    return found


def without_labels(tokens):
    """The tokens without the labels of loops that no `break` and no `continue` names."""
    labels = {
        token.text
        for token, colon, loop in zip(tokens, tokens[1:], tokens[2:])
        if token.kind == "lifetime" and colon.text == ":" and loop.text in LABELLED
    }
    unused = {label for label in labels if sum(token.text == label for token in tokens) == 1}
    places = {place for place, token in enumerate(tokens) if token.text in unused}
    return [token for place, token in enumerate(tokens) if place not in places and place - 1 not in places]


def without_arm_braces(tokens):
    """The tokens with one form for each arm of a match: `=> { x }` becomes `=> x,`, and no comma follows a block."""
    found, place = [], 0
    while place < len(tokens):
        found.append(tokens[place])
        place += 1
        if found[-1].text != "=>" or place == len(tokens) or tokens[place].text != "{":
            continue
        end = closing(tokens, place)
        inside = tokens[place + 1 : end]
        if inside and not any(token.text in ("{", "}", ";", "#", "let") for token in inside):
            found += [*inside, Token("symbol", ",", tokens[end].line)]
        else:
            found += [tokens[place], *without_arm_braces(inside), tokens[end]]
        place = end + 1
        if place < len(tokens) and tokens[place].text == ",":
            place += 1
    return found


def without_commas(tokens):
    """The tokens without trailing commas. The comma of a one-element tuple, `(x,)`, stays."""
    found, open_brackets = [], []
    for place, token in enumerate(tokens):
        trailing = found and found[-1].text == ","
        if token.text in ("(", "[", "{"):
            open_brackets.append((token.text == "(" and opens_tuple(tokens, place), len(found) + 1))
        elif token.text in (")", "]", "}") and open_brackets:
            is_tuple, start = open_brackets.pop()
            if trailing and not (is_tuple and len(split(found[start:])) == 1):
                found.pop()
        elif token.text == ">" and trailing:
            found.pop()
        found.append(token)
    return found[:-1] if found and found[-1].text == "," else found


def opens_tuple(tokens, place):
    """Whether the parenthesis at a place opens a tuple or an expression, not arguments."""
    before = tokens[place - 1]
    called = before.kind == "name" and before.text not in BEFORE_TUPLES or before.text in (")", "]", ">", "!", "?")
    return place == 0 or not called


@functools.lru_cache(maxsize=None)
def inherent_functions(text):
    """The functions in a file's inherent implementations: name, tokens and line of each.

    Macros may write implementations, so the tokens of the whole file are searched.
    """
    found, tokens = [], tokens_of(text)
    for place in (place for place, token in enumerate(tokens) if token.text == "impl"):
        opening = next((at for at in range(place, len(tokens)) if tokens[at].text in ("{", ";")), place)
        head = joined(normal(without_parameters(tokens[place + 1 : opening])))
        if tokens[opening].text != "{" or re.search(r"(?<!\S)for (?!<)", head):
            continue
        inside = tokens[opening + 1 : closing(tokens, opening)]
        for at, (word, name) in enumerate(zip(inside, inside[1:])):
            if word.text == "fn" and name.kind == "name":
                end = next(i for i in range(at, len(inside)) if inside[i].text in ("{", ";"))
                end = closing(inside, end) if inside[end].text == "{" else end
                found.append((f"impl {laid_out(head)}: fn {name.text}", inside[at : end + 1], name.line))
    return found


def without_parameters(tokens):
    """The head of an implementation without its leading generic parameters."""
    depth = 0
    for place, token in enumerate(tokens):
        depth += (token.text == "<") - (token.text == ">")
        if depth == 0:
            return tokens[place + 1 :] if token.text == ">" else tokens
    return tokens


def attributes_of(attributes):
    """The attributes that are compared, sorted. Each derived trait counts as one."""
    kept = [joined(normal(one)) for one in attributes if one[0].text != "derive" and not is_ignored(one)]
    return sorted([*kept, *(f"derive ( {joined(name)} )" for name in derives_of(attributes))])


def entries_of(file):
    """The entries of a file: one for its inner attributes, one for all its uses, and those of each item."""
    found, uses = [], {}
    if attributes := attributes_of(file.attributes):
        found.append(Entry("attributes", file.name, 1, {"attributes": attributes}))
    for item in file.items:
        if not isinstance(item, Use):
            found += entries_of_item(item, file.name)
            continue
        for path in item.paths:
            renamed = path.name != path.text.rpartition("::")[2]
            key = f"{path.text} as {path.name}" if renamed else path.text
            words = [*attributes_of(item.attributes), *texts_of(item.visibility), "use"]
            uses.setdefault(key, []).append(" ".join(words))
    return [*found, Entry("use", file.name, 1, uses)] if uses else found


def entries_of_item(item, file, owner=None, before=""):
    """The entry of an item, and the entries of the items in it."""
    if isinstance(item, Ghost):
        return []
    name = f"{item.word} {item.name}".strip()
    if isinstance(item, Implementation):
        trait = f"{joined(normal(item.trait))} for " if item.trait else ""
        name = laid_out(f"impl {trait}{joined(normal(item.type))}")
    facets = {"attributes": attributes_of(item.attributes), "visibility": texts_of(item.visibility)}
    for facet in FACETS[type(item)]:
        value = getattr(item, facet)
        if facet in ("items", "tokens"):
            facets[facet] = [joined(without_ignored(list(item.tokens)))] if value is not None else []
        elif facet == "body":
            facets[facet] = [] if value is None else [" ".join(["{", *texts_of(value, normal_body), "}"])]
        else:
            facets[facet] = texts_of(value, normal_body if facet == "value" else normal)
    is_public = item.is_public or isinstance(owner, Trait) and owner.is_public
    requires = tuple(clause.text for clause in getattr(item, "requires", ())) if is_public else ()
    found = [Entry(before + name, file, item.line, facets, requires)]
    for inner in item.members():
        found += entries_of_item(inner, file, item, f"{before}{name}: ")
    return found


def texts_of(value, form=normal):
    """The texts of a facet, from tokens, from a list of them, or from the parts of a type."""
    if isinstance(value, list):
        return [text for part in value for text in texts_of(part, form)]
    if isinstance(value, Part):
        return [" ".join([*attributes_of(value.attributes), *texts_of(value.tokens)])]
    if isinstance(value, str):
        return [value]
    return [joined(form(value))] if value else []
