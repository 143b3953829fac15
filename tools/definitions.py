"""What a crate's functions depend on: the definitions and lemmas that their texts name, and everything that those name.

A name counts wherever it occurs, whatever it means there, and what breaks one lemma of a file counts as breaking all of
them. So the result may be too large, but nothing is missing."""

import re

from rattle import items_at

DECLARED = re.compile(
    r"^( *)(?:(?:abbrev|unfoldable|pub) )*(?:(?:record|data|module) (\S+)|([^\s(){}:;,.]+) :(?= |$))", re.M
)
# The parameters of a module, on which everything declared in it can depend.
GIVEN = re.compile(r"^ *module _ .*?where$", re.M | re.S)
NAME = re.compile(r"[^\s(){}\[\]:;,.`\"]+")


def names_in(text):
    return set(NAME.findall(re.sub(r"^ *(ghost )?use .*$|(--|//).*$", "", text, flags=re.M)))


def declarations_of(text):
    """The declarations in a file of definitions or lemmas: the name of each, and where it begins and ends."""
    found = list(DECLARED.finditer(text))
    for i, one in enumerate(found):
        ends = [other.start() for other in found[i + 1 :] if len(other[1]) <= len(one[1])]
        if one[2] != "_":
            yield one[2] or one[3], one.start(), ends[0] if ends else len(text)


class Definitions:
    """For each name that a crate declares, the names in all of its declarations."""

    def __init__(self, crate):
        self.named = {}
        for path in [*crate.glob("specs/**/*.antt"), *crate.glob("proofs/**/*.antt")]:
            text = path.read_text(encoding="utf-8")
            of_lemmas = "proofs" in path.parts or "support" in path.parts
            given = "\n".join(GIVEN.findall(text))
            for name, start, end in declarations_of(text):
                self.add(name, text if of_lemmas else f"{given}\n{text[start:end]}")
        for path in crate.glob("src/**/*.rt"):
            for item in items_at(path):
                for one in (item, *item.members()):
                    self.add(one.name, one.code())

    def add(self, name, text):
        self.named.setdefault(name, set()).update(names_in(text))

    def behind(self, text):
        """All names of the crate that a text depends on."""
        found, new = set(), names_in(text)
        while new:
            found |= new & self.named.keys()
            new = set().union(*(self.named[name] for name in new if name in self.named)) - found
        return found
