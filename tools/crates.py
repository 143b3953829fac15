#!/usr/bin/env python3
"""Reads crates.txt, which names each crate, its kind if it has one, and the libraries that it uses.

    tools/crates.py below CRATE             prints the libraries, of this repository and the kit, that it depends on
    tools/crates.py above CRATE             prints the crate, and the crates of this repository that depend on it
    tools/crates.py words CRATE CHECKOUT    prints the kit compiler's arguments for the crate's dependencies: the
                                            libraries that `rt ci` left in the checkout, and the kit's
"""

import subprocess
import sys
from pathlib import Path
from typing import NamedTuple

ROOT = Path(__file__).resolve().parent.parent


class Crate(NamedTuple):
    """A line of crates.txt."""

    name: str
    kind: list[str]
    libraries: list[str]

    def line(self):
        """The line itself."""
        return f"{' '.join([self.name, *self.kind])}: {' '.join(self.libraries)}".rstrip()


def crates(root=ROOT):
    """The crates of a repository, by name."""
    lines = (root / "crates.txt").read_text(encoding="utf-8").splitlines()
    heads = [line.partition("#")[0].partition(":") for line in lines]
    found = {}
    for head, colon, libraries in heads:
        if colon:
            name, *kind = head.split()
            found[name] = Crate(name, kind, libraries.split())
    return found


def below(name, all_crates):
    """The libraries that a crate depends on, each once. Those that it names come first."""
    found = list(all_crates[name].libraries) if name in all_crates else []
    for one in found:
        found += [other for other in below(one, all_crates) if other not in found]
    return found


def above(name, all_crates):
    """The crate, and those that depend on it."""
    return [one for one in all_crates if one == name or name in below(one, all_crates)]


def kit():
    """The folder of the kit."""
    page = subprocess.run(["rt", "doc"], stdout=subprocess.PIPE, text=True, check=True).stdout
    return Path(page.strip()).parent


def logic():
    """The checksum of the logic with which the kit checks proofs. Kits with other names may have the same logic."""
    return (kit() / "KIT-ID").read_text(encoding="utf-8").split()[-1]


def words(name, all_crates, checkout):
    """The kit compiler's arguments for the dependencies of a crate: the libraries that `rt ci` left in a checkout, and
    the kit's."""
    home = kit()
    left = {one: checkout / "crates" / one / "out/rlib" for one in below(name, all_crates) if one in all_crates}
    found = ["--antt-project", home / "rattle/logic/antt-project.json", "--logic-built", home / "logic_built"]
    for library in ["std", *all_crates[name].libraries]:
        found += ["--extern", f"{library}={left.get(library, home / 'rlibs') / library}.rlib"]
    for folder in [home / "rlibs", *left.values()]:
        found += ["-L", f"dependency={folder}"]
    return found


def main():
    everything = crates()
    what, name, *rest = [*sys.argv[1:], "", ""][: max(2, len(sys.argv) - 1)]
    if what == "below" and not rest:
        print(*below(name, everything), sep="\n")
    elif what == "above" and not rest:
        print(*above(name, everything), sep="\n")
    elif what == "words" and len(rest) == 1:
        print(*words(name, everything, Path(rest[0]).resolve()), sep="\n")
    else:
        sys.exit(__doc__)


if __name__ == "__main__":
    main()
