"""Reads Rattle and Rust: the tokens of a text, and the items of a file.

Rattle is Rust with contracts, and both languages share the grammar of items that this repository uses. `tokens_of`
splits a text into tokens; `file_of` returns the items of a file. The parts of an item (a type, a body, an attribute)
stay tuples of tokens. Each item and each token knows its line, for messages, and its position in the text. From that an
item returns its comment and its code with their layout. White space, comments and docs are not tokens, but docs are
kept with their items. Text that cannot be read raises `Unreadable`, with the file and the line.

All tools and tests that read the sources import this module.
"""

import re
from dataclasses import dataclass, field
from typing import NamedTuple

# Symbols of several characters are one token, so that `a & &b` is not read as `a && b`. But `<<` and `>>` are two
# tokens each, because `<` and `>` are brackets as well.
TOKENS = re.compile(
    r"""
      (?P<space>\s+)
    | (?P<inner>//![^\n]*)
    | (?P<doc>///(?!/)[^\n]*)
    | (?P<comment>//[^\n]*|/\*.*?\*/)
    | (?P<string>[bc]?r(?P<hashes>\#*)".*?"(?P=hashes)|[bc]?"(?:[^"\\]|\\.)*")
    | (?P<character>b?'(?:[^'\\\n]|\\[^\n]+?)')
    | (?P<lifetime>'[A-Za-z_]\w*)
    | (?P<number>0x[0-9a-fA-F_]+\w*|\d[\d_]*\w*)
    | (?P<name>(?:r\#)?[^\W\d]\w*)
    | (?P<symbol>\.\.=|\.\.\.|\.\.|::|->|=>|==|!=|<=|>=|&&|\|\||[-+*/%^&|]=|.)
    """,
    re.VERBOSE | re.DOTALL,
)

CLOSING = {"(": ")", "[": "]", "{": "}"}

# Words that may stand before `fn`.
FUNCTION_WORDS = ("const", "async", "unsafe", "extern", "default", "final")


class Unreadable(Exception):
    """The error for text that cannot be read, with its file and line."""


class Token(NamedTuple):
    """A token. `spaced` says whether white space or a comment precedes it. It begins at `start` in the text."""

    kind: str
    text: str
    line: int
    spaced: bool = False
    start: int = 0

    @property
    def end(self):
        return self.start + len(self.text)


@dataclass(eq=False)
class Item:
    """What every item has. `tokens` are all tokens of the item, with its attributes and without docs.

    `source` is the text of its file. In it, the comments and attributes of the item begin at `lead`, and the item
    itself at `start`. `word` is its keyword, such as `fn`. An item equals only itself.
    """

    line: int
    docs: list
    attributes: list
    visibility: tuple
    tokens: tuple = field(repr=False)
    source: str = field(default="", repr=False, kw_only=True)
    lead: int = field(default=0, kw_only=True)
    start: int = field(default=0, kw_only=True)

    @property
    def end(self):
        return self.tokens[-1].end

    @property
    def brace(self):
        """The position of the brace that opens its body, its fields or its members, or None."""
        depth = 0
        for token in reversed(self.tokens):
            if token.kind == "symbol":
                depth += (token.text in CLOSING.values()) - (token.text in CLOSING)
            if depth == 0:
                return token.start if token.text == "{" else None

    @property
    def is_public(self):
        """Whether it is `pub` without a restriction."""
        return text_of(self.visibility) == "pub"

    def members(self):
        """The items in the braces of a trait or an implementation."""
        return self.items if isinstance(self, (Trait, Implementation)) else []

    def indentation(self):
        return " " * (self.start - self.source.rfind("\n", 0, self.start) - 1)

    def comment(self):
        """The lines of comments and docs before the item, with its indentation."""
        lines = [line.strip() for line in self.source[self.lead : self.start].splitlines()]
        return "".join(f"{self.indentation()}{line}\n" for line in lines if line.startswith("//"))

    def code(self, end=None):
        """The item with its indentation in the file, up to its end or another position."""
        return self.indentation() + self.source[self.start : end or self.end].rstrip()


@dataclass(frozen=True)
class Path:
    """A path that a `use` names, and its name in the file. For a glob the name is `*`."""

    text: str
    name: str


@dataclass(eq=False)
class Use(Item):
    word = "use"
    paths: list

    @property
    def name(self):
        """The crate or module with which its first path begins."""
        return self.paths[0].text.partition("::")[0]


@dataclass(eq=False)
class Module(Item):
    """A module. `items` is None if it has a file of its own."""

    word = "mod"
    name: str
    items: list


@dataclass(eq=False)
class Constant(Item):
    """A constant or a static, as `word` says. `value` is None if a trait only declares it."""

    word: str
    name: str
    type: tuple
    value: tuple


@dataclass(eq=False)
class Alias(Item):
    """The alias of a type, or the associated type of a trait or an implementation."""

    word = "type"
    name: str
    generics: list
    bounds: list
    value: tuple


@dataclass
class Part:
    """A field of a struct or a variant of an enum."""

    line: int
    docs: list
    attributes: list
    tokens: tuple

    @property
    def is_public(self):
        """Whether it is `pub` without a restriction."""
        return self.tokens[0].text == "pub" and self.tokens[1].text != "("


@dataclass(eq=False)
class Data(Item):
    """A struct (`kind` is record, tuple or unit), an enum or a union."""

    kind: str
    name: str
    generics: list
    conditions: list
    parts: list

    @property
    def word(self):
        return self.kind if self.kind in ("enum", "union") else "struct"


@dataclass
class Clause:
    """A precondition or a postcondition. In its text, any white space is one space."""

    line: int
    name: str
    text: str


@dataclass(eq=False)
class Function(Item):
    """A function. `body` is without its braces, or None if the function is only declared."""

    word = "fn"
    words: tuple
    name: str
    generics: list
    parameters: list
    result: tuple
    conditions: list
    requires: list
    ensures: list
    body: tuple


@dataclass(eq=False)
class Trait(Item):
    word = "trait"
    words: tuple
    name: str
    generics: list
    bounds: list
    conditions: list
    items: list


@dataclass(eq=False)
class Implementation(Item):
    """An implementation. `trait` is empty for an inherent one."""

    word = "impl"
    words: tuple
    generics: list
    trait: tuple
    type: tuple
    conditions: list
    items: list

    @property
    def name(self):
        """Its head without parameters and conditions: `impl Blocks for WyRand`."""
        trait = f"{bare(self.trait)} for " if self.trait else ""
        return f"impl {trait}{bare(self.type)}"


@dataclass(eq=False)
class Ghost(Item):
    """An item of Rattle that only contracts and proofs use. A ghost import has the name `use`."""

    name: str

    @property
    def word(self):
        return "ghost use" if self.name == "use" else "ghost"


@dataclass(eq=False)
class Other(Item):
    """A macro, the call of one, or something external: `name` says which."""

    word = ""
    name: str


@dataclass
class File:
    """A file: its docs, its inner attributes and its items."""

    name: str
    docs: list
    attributes: list
    items: list


def tokens_of(text, first_line=1):
    """The tokens of a text. Docs and comments are left out."""
    return [token for token in all_tokens(text, first_line) if token.kind not in ("doc", "inner")]


def all_tokens(text, first_line=1):
    """The tokens of a text with its docs."""
    found, line, spaced = [], first_line, False
    for match in TOKENS.finditer(text):
        kind, part = match.lastgroup, match.group()
        if kind in ("space", "comment"):
            spaced = True
        else:
            found.append(Token(kind, part, line, spaced, match.start()))
            spaced = False
        if kind in ("space", "comment", "string"):
            line += part.count("\n")
    return found


def text_of(tokens):
    """The tokens as a text. Any white space between them becomes one space."""
    return "".join(" " * (token.spaced and place > 0) + token.text for place, token in enumerate(tokens))


def bare(tokens):
    """A type as a text, without the parameters between `<` and `>`."""
    kept, depth = [], 0
    for token in tokens:
        depth += token.text == "<"
        kept += [token] if depth == 0 else []
        depth -= token.text == ">"
    return text_of(kept)


def name_and_type(tokens):
    """The name of a parameter or a field, and its type as a text."""
    colon = [token.text for token in tokens].index(":")
    return tokens[colon - 1].text, text_of(tokens[colon + 1 :])


def derives_of(attributes):
    """The tokens of each trait that the attributes derive."""
    return [name for attribute in attributes if attribute[0].text == "derive" for name in split(attribute[2:-1])]


def closing(tokens, opening):
    """The index of the bracket that closes the one at `opening`."""
    depth = 0
    for place in range(opening, len(tokens)):
        if tokens[place].kind == "symbol":
            depth += (tokens[place].text in CLOSING) - (tokens[place].text in CLOSING.values())
        if depth == 0:
            return place
    raise Unreadable(f"line {tokens[opening].line}: nothing closes '{tokens[opening].text}'")


def split(tokens, separator=","):
    """The parts of a type, of parameters or of bounds between the separators that are outside brackets."""
    parts, depth, start = [], 0, 0
    for place, token in enumerate(tokens):
        if token.kind == "symbol":
            if token.text == separator and depth == 0:
                parts.append(tuple(tokens[start:place]))
                start = place + 1
            depth += (token.text in "([{<") - (token.text in ")]}>")
    parts.append(tuple(tokens[start:]))
    return [part for part in parts if part]


def exports_of(items):
    """The functions that are exported under their own names, for C."""
    marks = ("unsafe(no_mangle)", "no_mangle")
    return [item for item in items if item.word == "fn" and any(text_of(one) in marks for one in item.attributes)]


def is_laid_out_as_in_c(item):
    """Whether it is a struct with the memory layout of C."""
    return item.word == "struct" and any(text_of(one) == "repr(C)" for one in item.attributes)


def items_at(path):
    """The items of the file at a path."""
    return file_of(path.read_text(encoding="utf-8"), str(path)).items


def file_of(text, name, first_line=1):
    """The file of this text. `name` and the number of its first line are for messages."""
    return Reader(text, name, first_line).file()


class Reader:
    """A text, read from its first token to its last."""

    def __init__(self, text, name, first_line=1):
        self.name, self.text = name, text
        self.tokens = all_tokens(text, first_line)
        self.next = 0

    def unreadable(self, what, token=None):
        token = token or self.peek() or (self.tokens[-1] if self.tokens else None)
        return Unreadable(f"{self.name}:{token.line if token else 1}: {what}")

    def peek(self, ahead=0):
        place = self.next + ahead
        return self.tokens[place] if place < len(self.tokens) else None

    def at(self, *texts):
        """Whether the next tokens are these."""
        found = [self.peek(place) for place in range(len(texts))]
        return all(token is not None and token.text == text for token, text in zip(found, texts))

    def take(self):
        token = self.peek()
        if token is None:
            raise self.unreadable("the file ends within an item")
        self.next += 1
        return token

    def accept(self, text):
        """Takes the next token if it is this one."""
        if self.at(text):
            self.next += 1
            return True
        return False

    def expect(self, text):
        if not self.accept(text):
            found = self.peek().text if self.peek() else "the end"
            raise self.unreadable(f"'{text}' should stand where '{found}' stands")

    def name_here(self):
        token = self.take()
        if token.kind != "name":
            raise self.unreadable(f"a name should stand where '{token.text}' stands", token)
        return token.text

    def docs_here(self, kind):
        docs = []
        while self.peek() and self.peek().kind == kind:
            docs.append(self.take().text[3:])
        return docs

    def since(self, start):
        """The tokens from this place on, without docs."""
        return tuple(token for token in self.tokens[start : self.next] if token.kind not in ("doc", "inner"))

    def group(self):
        """Takes a bracket and everything up to the one that closes it. Returns the tokens between the two."""
        opening = self.take()
        if opening.text not in CLOSING:
            raise self.unreadable(f"a bracket should stand where '{opening.text}' stands", opening)
        start, expected = self.next, [CLOSING[opening.text]]
        while expected:
            token = self.take()
            if token.kind == "symbol" and token.text in CLOSING:
                expected.append(CLOSING[token.text])
            elif token.kind == "symbol" and token.text in CLOSING.values():
                if expected.pop() != token.text:
                    raise self.unreadable(f"'{token.text}' closes no bracket", token)
        return self.since(start)[:-1]

    def until(self, *stops, angles=True):
        """Takes all tokens before the first of these that is outside brackets.

        `angles` says whether `<` and `>` are brackets, as they are in types and not in values.
        """
        start, depth = self.next, 0
        while True:
            token = self.peek()
            if token is None:
                raise self.unreadable(f"one of {stops} should follow")
            if depth == 0 and token.text in stops and token.kind != "string":
                return self.since(start)
            if token.kind == "symbol" and token.text in CLOSING:
                self.group()
            else:
                if angles and token.kind == "symbol":
                    depth += (token.text == "<") - (token.text == ">")
                self.take()

    def attributes_here(self):
        attributes = []
        while self.at("#", "["):
            self.take()
            attributes.append(self.attribute())
        return attributes

    def attribute(self):
        place, attribute = self.peek(), self.group()
        if not attribute:
            raise self.unreadable("an attribute should stand in these brackets", place)
        return attribute

    def file(self):
        docs, attributes = self.docs_here("inner"), []
        while self.at("#", "!"):
            self.take()
            self.take()
            attributes.append(self.attribute())
            docs += self.docs_here("inner")
        return File(self.name, docs, attributes, self.items_until(None))

    def items_until(self, end):
        """The items up to this bracket, or to the end of the file."""
        items = []
        while self.peek() if end is None else not self.accept(end):
            items.append(self.item())
        return items

    def items_within(self):
        self.expect("{")
        self.docs_here("inner")
        while self.at("#", "!"):
            self.take()
            self.take()
            self.group()
        return self.items_until("}")

    def item(self):
        """The next item, of a file, a trait or an implementation."""
        first, lead = self.next, self.tokens[self.next - 1].end if self.next else 0
        docs, attributes = self.docs_here("doc"), self.attributes_here()
        while self.peek() and self.peek().kind == "doc":
            docs += self.docs_here("doc")
            attributes += self.attributes_here()
        if self.peek() is None:
            raise self.unreadable("an item should follow")
        line, start, visibility = self.peek().line, self.peek().start, self.visibility_here()
        item = self.reader_of_item()(line, docs, attributes, visibility, ())
        item.tokens, item.source, item.lead, item.start = self.since(first), self.text, lead, start
        return item

    def visibility_here(self):
        start = self.next
        if self.accept("pub") and self.at("("):
            self.group()
        return self.since(start)

    def reader_of_item(self):
        """The method that reads what follows, by its first words."""
        ahead = 0
        while self.peek(ahead) and (self.peek(ahead).text in FUNCTION_WORDS or self.peek(ahead).kind == "string"):
            ahead += 1
        word = self.peek(ahead).text if self.peek(ahead) else ""
        if word == "fn":
            return self.function
        if word in ("impl", "trait"):
            return {"impl": self.implementation, "trait": self.trait}[word]
        known = {
            "ghost": self.ghost, "use": self.use, "mod": self.module, "const": self.constant, "static": self.constant,
            "type": self.alias, "struct": self.struct, "enum": self.enum, "extern": self.external,
        }
        word = self.peek().text
        if word in known:
            return known[word]
        if word == "union" and self.peek(1).kind == "name":
            return self.enum
        if self.peek().kind == "name" and self.peek(1) and self.peek(1).text in ("!", "::"):
            return self.macro
        raise self.unreadable(f"no item begins with '{word}'")

    def ghost(self, *common):
        self.expect("ghost")
        name = self.take().text
        self.until(";", angles=False)
        self.expect(";")
        return Ghost(*common, name)

    def use(self, *common):
        self.expect("use")
        place, tokens = self.peek(), self.until(";", angles=False)
        if not tokens or sum(token.text == "{" for token in tokens) != sum(token.text == "}" for token in tokens):
            raise self.unreadable("a path should stand here", place)
        paths = paths_of(tokens)
        self.expect(";")
        return Use(*common, paths)

    def module(self, *common):
        self.expect("mod")
        name = self.name_here()
        items = None if self.accept(";") else self.items_within()
        return Module(*common, name, items)

    def constant(self, *common):
        word = self.take().text
        word += " mut" if self.accept("mut") else ""
        name = self.name_here()
        self.expect(":")
        kind, value = self.until("=", ";"), None
        if self.accept("="):
            value = self.until(";", angles=False)
        self.expect(";")
        return Constant(*common, word, name, kind, value)

    def alias(self, *common):
        self.expect("type")
        name, generics, bounds, value = self.name_here(), self.generics_here(), [], None
        if self.accept(":"):
            bounds = split(self.until("=", ";"), "+")
        if self.accept("="):
            value = self.until(";")
        self.expect(";")
        return Alias(*common, name, generics, bounds, value)

    def generics_here(self):
        """The parameters between `<` and `>`, if they follow."""
        if not self.accept("<"):
            return []
        tokens = self.until(">")
        self.expect(">")
        return split(tokens)

    def conditions_here(self):
        """The predicates of a `where`, if it follows."""
        return split(self.until("{", ";", "requires", "ensures")) if self.accept("where") else []

    def struct(self, *common):
        self.expect("struct")
        name, generics = self.name_here(), self.generics_here()
        if self.at("("):
            parts = [self.part_of_tuple(part) for part in split(self.group())]
            conditions = self.conditions_here()
            self.expect(";")
            return Data(*common, "tuple", name, generics, conditions, parts)
        conditions = self.conditions_here()
        if self.accept(";"):
            return Data(*common, "unit", name, generics, conditions, [])
        return Data(*common, "record", name, generics, conditions, self.parts_here(angles=True))

    def enum(self, *common):
        kind = self.take().text
        name, generics, conditions = self.name_here(), self.generics_here(), self.conditions_here()
        return Data(*common, kind, name, generics, conditions, self.parts_here(angles=kind == "union"))

    def part_of_tuple(self, tokens):
        return Part(tokens[0].line, [], [], tokens)

    def parts_here(self, angles):
        """Fields or variants in braces."""
        self.expect("{")
        parts = []
        while not self.accept("}"):
            docs, attributes = self.docs_here("doc"), self.attributes_here()
            place, tokens = self.peek(), self.until(",", "}", angles=angles)
            self.accept(",")
            if not tokens:
                raise self.unreadable("a field or a variant should stand here", place)
            parts.append(Part(tokens[0].line, docs, attributes, tokens))
        return parts

    def words_before(self, last):
        start = self.next
        while not self.at(last):
            self.take()
        words = self.since(start)
        self.expect(last)
        return words

    def trait(self, *common):
        words, name, generics = self.words_before("trait"), self.name_here(), self.generics_here()
        bounds = split(self.until("{", "where"), "+") if self.accept(":") else []
        return Trait(*common, words, name, generics, bounds, self.conditions_here(), self.items_within())

    def implementation(self, *common):
        words, generics = self.words_before("impl"), self.generics_here()
        trait, subject = (), self.until("for", "{", "where")
        if self.accept("for"):
            trait, subject = subject, self.until("{", "where")
        return Implementation(*common, words, generics, trait, subject, self.conditions_here(), self.items_within())

    def function(self, *common):
        words, name, generics = self.words_before("fn"), self.name_here(), self.generics_here()
        parameters, result = split(self.group()), ()
        if self.accept("->"):
            result = self.until("{", ";", "where", "requires", "ensures")
        conditions = self.conditions_here()
        requires, ensures = self.clauses_here()
        body = None if self.accept(";") else self.group()
        return Function(*common, words, name, generics, parameters, result, conditions, requires, ensures, body)

    def clauses_here(self):
        """The preconditions and the postconditions that follow."""
        clauses = {"requires": [], "ensures": []}
        while self.peek() and self.peek().text in clauses:
            word = self.take()
            self.accept("*")
            name = self.take().text if self.peek().kind == "name" else ""
            clauses[word.text].append(Clause(word.line, name, text_of(self.group())))
        return clauses["requires"], clauses["ensures"]

    def macro(self, *common):
        name = text_of(self.until("(", "[", "{"))
        braces = self.at("{")
        self.group()
        if not braces:
            self.expect(";")
        return Other(*common, name)

    def external(self, *common):
        name = text_of(self.until(";", "{"))
        if not self.accept(";"):
            self.group()
        return Other(*common, name)


def paths_of(tokens, prefix=""):
    """The complete paths that a use names."""
    texts = [token.text for token in tokens]
    if texts[-1:] == ["}"]:
        opening = texts.index("{")
        head = prefix + "".join(texts[:opening])
        return [path for part in split(tokens[opening + 1 : -1]) for path in paths_of(part, head)]
    name = texts[-1]
    if "as" in texts:
        texts = texts[: texts.index("as")]
    path = (prefix + "".join(texts)).removesuffix("::self")
    return [Path(path, path.rpartition("::")[2] if name == "self" else name)]
