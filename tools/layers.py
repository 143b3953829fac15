"""The diagram of the layers in docs/ARCHITECTURE.md, from crates.txt and the imports of the sources.

GROUPS says which crates and modules each box of the diagram holds, and names it. The arrows are the imports of the
sources (`use`, not the imports of contracts): between boxes of one group, and between groups. A crate or a module that
no box holds raises an error, and so does a box that holds what is not there. tools/pictures.py writes the diagram.
"""

from typing import NamedTuple

from crates import ROOT, crates
from rattle import Use, items_at


class Box(NamedTuple):
    """Crates, or modules of a crate."""

    name: str
    holds: list[str]
    title: str


class Group(NamedTuple):
    """Boxes of crates, or boxes of the modules of one crate, which its title begins with."""

    name: str
    title: str
    boxes: list[Box]


GROUPS = [
    Group("callers", "Callers, by public contracts alone", [
        Box("users", ["nanorand_users"], "programs of users"),
        Box("kit", ["nanorand_rand", "nanorand_rand_users"], "for the kit's rand"),
        Box("draw", ["draw", "draw_core"], "arguments to a text"),
        Box("lots", ["lots", "lots_record", "lots_core"], "a public draw by lot, its record"),
        Box("exports", ["nanorand_calls", "nanorand_c"], "exports: C, Python, a web page"),
    ]),
    Group("nanorand", "nanorand: the generators and their laws", [
        Box("laws", ["laws"], "of the generators: nothing to run"),
        Box("streams", ["rand::keystream", "rand::chacha_groups"], "streams of ChaCha"),
        Box("chacha", ["rand::chacha"], "ChaCha, by its blocks"),
        Box("seeded", ["rand::wyrand", "rand::pcg64", "rand::halves", "rand::hexadecimal"],
            "WyRand and Pcg64, by their blocks"),
        Box("split_mix", ["rand::split_mix"], "a seed from one number"),
        Box("crypto", ["crypto"], "ChaCha's initial state, blocks, rounds, counter"),
        Box("parts", ["parts"], "parts of a stream"),
        Box("entropy", ["entropy"], "a reader's bytes as a seed"),
    ]),
    Group("streaming", "nanorand_replay: over any generator", [
        Box("replay_laws", ["laws"], "of buffers and replays: nothing to run"),
        Box("buffer", ["buffer"], "BufferedRng, a generator over another"),
        Box("replay", ["replay"], "a list of calls, one answer each"),
    ]),
    Group("fairness", "nanorand_fairness", [
        Box("fairness_laws", ["laws"], "of whole draws: nothing to run"),
    ]),
    Group("core", "nanorand_core: for every generator", [
        Box("core_laws", ["laws"], "of the definitions: nothing to run"),
        Box("lists", ["choices", "samples", "shuffles"], "numbers, events, items; orders"),
        Box("values", ["values"], "13 types of values, 10 of ranges<br>draw_below, draw_number, pick_word"),
        Box("rand", ["rand"], "the traits Blocks, Rng, SeedableRng; fill_by_blocks"),
        Box("swap", ["swap"], "of two items"),
    ]),
]

# Tests, what they use, benchmarks, and first programs: crates that the diagram leaves out.
OUTSIDE = ["test_support", "nanorand_tests", "program_tests", "known_answers", "nanorand_bench", "dice", "rand_dice"]


class LayersError(Exception):
    """A crate or a module without a box, or a box without its module."""


class Sources:
    """The modules of the crates, each by its path from the crate: its imports, and what it passes on."""

    def __init__(self, names):
        self.imports = {}
        for crate in names:
            source = ROOT / "crates" / crate / "src"
            for file in sorted(source.rglob("*.rt")):
                parts = file.relative_to(source).with_suffix("").parts
                module = "::".join([crate, *(part for part in parts if part not in ("lib", "main"))])
                self.imports[module] = [item for item in items_at(file) if isinstance(item, Use)]

    def module_of(self, path):
        """The module of a path: its longest beginning that is one. Empty if the crate is not ours."""
        module = path
        while module and module not in self.imports:
            module = module.rpartition("::")[0]
        return module

    def origin(self, path):
        """The path where an item of a crate is declared, if `path` names it where another module passes it on."""
        module = self.module_of(path)
        name, _, rest = path.removeprefix(f"{module}::").partition("::")
        for one in (one for use in self.imports.get(module, []) if use.is_public for one in use.paths):
            target = self.whole(one.text, module)
            if one.name == name and target != path:
                return self.origin("::".join([target, rest] if rest else [target]))
        return path

    def whole(self, path, module):
        """A path as it stands in a module, from its crate."""
        first, _, rest = path.partition("::")
        if first == "crate":
            return f"{module.partition('::')[0]}::{rest}"
        if first == "super":
            return f"{module.rpartition('::')[0]}::{rest}"
        return f"{module}::{path}" if f"{module}::{first}" in self.imports else path

    def uses(self):
        """Each module and each one that it imports: in its own crate where the item is declared, else as named."""
        for module, uses in self.imports.items():
            crate = module.partition("::")[0]
            for path in (self.whole(path.text, module) for use in uses for path in use.paths):
                own = path.partition("::")[0] == crate
                yield module, self.module_of(self.origin(path) if own else path)


def places():
    """Of each crate or module that a box holds, its group and its box."""
    found = {}
    for group in GROUPS:
        crate = crate_of(group)
        for box in group.boxes:
            for name in box.holds:
                found["::".join([crate, name]) if crate else name] = (group.name, box.name)
        if crate:
            found[crate] = (group.name, None)
    return found


def crate_of(group):
    """The crate whose modules the group's boxes hold; empty if they hold crates."""
    name = group.title.partition(":")[0]
    return name if name in crates() else ""


def place_of(module, found):
    """The group and the box where a module stands; (None, None) of a crate that is not ours."""
    while module and module not in found:
        module = module.rpartition("::")[0]
    return found.get(module, (None, None))


def check(sources, found):
    """Raises LayersError unless each crate and module has a box, and each box its crates and modules."""
    without = [name for name in crates() if name not in OUTSIDE and place_of(name, found)[0] is None]
    # A module whose items stand in boxes of their own, as `rand` of `nanorand`, needs none.
    without += [module for module in sources.imports if "::" in module and place_of(module, found)[1] is None
                and not any(name.startswith(f"{module}::") for name in found)]
    absent = [name for name in found if name not in sources.imports]
    if without or absent:
        raise LayersError(f"GROUPS in tools/layers.py: no box holds {without}; a box holds what is not there: {absent}")


def arrows_of(sources, found):
    """The pairs of boxes in a group, and the pairs of groups, of which the first imports from the second."""
    arrows = set()
    for module, target in sources.uses():
        (group, box), (other_group, other_box) = place_of(module, found), place_of(target, found)
        if group and other_group and group != other_group:
            arrows.add((group, other_group))
        elif box and other_box and box != other_box:
            arrows.add((box, other_box))
    return arrows


def lines_of(names, arrows):
    """The arrows that begin at these boxes or groups, in their order."""
    for place, name in enumerate(names):
        both = [other for other in names if (name, other) in arrows and (other, name) in arrows]
        yield from (f"{name} <-->|call each other| {other}" for other in both if names.index(other) > place)
        targets = [other for other in names if (name, other) in arrows and other not in both]
        if targets:
            yield f"{name} --> {' & '.join(targets)}"


def diagram():
    """The diagram, in the language of Mermaid."""
    found = places()
    sources = Sources(name for name in crates() if name not in OUTSIDE)
    check(sources, found)
    arrows = arrows_of(sources, found)
    lines = ["flowchart TD"]
    for group in GROUPS:
        boxes = [f'{box.name}["{", ".join(box.holds)}<br>{box.title}"]' for box in group.boxes]
        boxes += lines_of([box.name for box in group.boxes], arrows)
        lines += [f'subgraph {group.name}["{group.title}"]', *(f"    {line}" for line in boxes), "end"]
    lines += ['rust["rust/<br>the same bodies, without contracts"]', "rust -.-> nanorand"]
    lines += lines_of([group.name for group in GROUPS], arrows)
    return "\n    ".join(lines) + "\n"
