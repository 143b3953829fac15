#!/usr/bin/env python3
"""Tries mutants: tools/mutants.py [--all | --anew | --record] [CRATE | CRATE/NAME]..; without names, all of them.

For example, tools/mutants.py nanorand_core. edits.py describes how a mutant is written, and what has to refuse it.
A stored answer that no longer fits refuses a mutant, even if the clause has another proof. --anew leaves out the stored
answers to the clauses of the functions that are changed, so that the prover searches for each: a clause that it proves
then is not one that the mutant breaks.

The mutants of a crate that change different functions are planted together in a copy of the crate. A check of these
functions and what they call has to refuse each one by itself, at every clause that its file names. A mutant that is
refused there only because of a function that it calls goes into a further group. A mutant of a definition names the
function that refuses it, usually a law: `refused at laws::draws_are_fair: shares`. No mutant that is planted with it
changes a definition on which that law depends. A mutant is tried alone if it changes a body and names its function,
such as a loop with its invariant, or if it changes anything other than a body or a definition.

A line for each group has its processor-seconds, and a line for each mutant has the clauses and goals that refused it.
The last line is N passed, M failed; mutants that are not tried again do not count. If PROVED names a checkout in which
rt ci has passed, its libraries are used; otherwise each unchanged crate is proved first. LANES is the number of crates
that are tried side by side. LOGS names a folder for the output of the checks.

What passed is not tried again while everything that its check reads stays the same: the kit's logic, these scripts, the
crate, and the libraries below it. A mutant that is itself named (CRATE/NAME) is tried nevertheless, and --all tries
all. --record writes, for each crate whose mutants all passed, the record mutants/passed.txt, which is committed, so
that other machines do not try them again either. Single mutants are kept on this machine: KEPT names the folder, by
default nanorand/mutants in the user's cache; if it is empty, none is kept.
"""

import os
import re
import shutil
import subprocess
import sys
import tempfile
from concurrent.futures import ThreadPoolExecutor
from functools import cache, cached_property
from pathlib import Path

import crates
from definitions import Definitions, declarations_of
from edits import all_edits
from kept import RECORD, Kept
from rattle import bare, items_at, text_of

ROOT = Path(__file__).resolve().parent.parent
PROVED = Path(os.environ.get("PROVED", ROOT))
KIT = crates.kit()
LANES = int(os.environ.get("LANES", "1"))

OPTIONS = {word for word in sys.argv[1:] if word.startswith("--")}
NAMES = [word for word in sys.argv[1:] if not word.startswith("--")]
ANEW = "--anew" in OPTIONS

VERDICT = re.compile(r"^fn (\S+): (.*)$", re.M)
PASSED, FAILED, AGAIN = "", "FAILED ", "again: "
# A goal that an answer does not prove: the file of answers, and the error message.
ANSWER = re.compile(r"^\./proofs/(\S+)/\w+\.antt:\d+:\d+: error: (.*)$", re.M)


class Function:
    """A function of a crate: its file and position, its name as the check prints it, and its clauses."""

    def __init__(self, file, item, name):
        self.file, self.item, self.name = file, item, name
        self.clauses = [clause.name for clause in item.ensures]

    def has(self, file, start, end):
        return self.file == file and self.item.body is not None and self.item.brace < start and end <= self.item.end


def owner_of(item):
    """The name of a trait or an impl as the check prints it: an impl of `Rng<8>` for `WyRand` is WyRandRng8.
    Parameters, whose names are in capitals, are left out."""
    if item.word == "trait":
        return item.name
    # A trait counts with the last part of its path, and the type of an inherent impl without its parameters.
    types = f"{text_of(item.type)} {text_of(item.trait).rpartition('::')[2]}" if item.trait else bare(item.type)
    words = [word for word in re.findall(r"\w+", types) if not word.isupper()]
    is_array = item.trait and item.type[0].text == "["
    return ("Array" if is_array else "") + "".join(word[0].upper() + word[1:] for word in words)


@cache
def functions_of(crate):
    """The functions of a crate."""
    functions = []
    for path in sorted((crate / "src").glob("**/*.rt")):
        file = str(path.relative_to(crate))
        modules = [one for one in re.sub(r"^src/|\.rt$", "", file).split("/") if one != "lib"]
        for item in items_at(path):
            owner = [owner_of(item)] if item.members() else []
            functions += [Function(file, one, "::".join([crate.name, *modules, *owner, one.name]))
                          for one in (item, *item.members()) if one.word == "fn"]
    return functions


definitions_of = cache(Definitions)


class Mutant:
    """A mutant: the texts that it replaces, the functions or definitions that contain them, and what has to refuse
    it."""

    def __init__(self, edit):
        self.edit, self.crate = edit, edit.crate
        self.name = f"{self.crate.name}/{edit.name}"
        if edit.refused and edit.problem():
            sys.exit(f"tools/mutants.py: {self.name}: {edit.problem()}")
        self.places, self.functions, self.definitions, self.is_elsewhere = [], [], set(), False
        for change in edit.changes:
            self.change(*change)
        function, _, clauses = edit.refused.rpartition(": ")
        self.function, self.clauses = function, set(filter(None, clauses.split(", ")))

    def change(self, file, old, new):
        text = (self.crate / file).read_text(encoding="utf-8")
        start, end = text.index(old), text.index(old) + len(old)
        self.places.append((file, start, end, new))
        if file.endswith(".antt"):
            found = {name for name, first, last in declarations_of(text) if first <= start and end <= last}
            self.definitions |= found
        else:
            found = [one for one in functions_of(self.crate) if one.has(file, start, end)]
            self.functions += found
        self.is_elsewhere |= not found

    def asked(self):
        """The names with which a check is asked for the functions that have to be refused."""
        return {self.function} if self.function else {one.name.partition("::")[2] for one in self.functions}

    def is_alone(self):
        """Whether it has to be tried alone: it changes more than only definitions, or only bodies without naming their
        function."""
        return self.is_elsewhere or bool(self.functions and (self.definitions or self.function))

    @cached_property
    def behind(self):
        """The names on which the functions that have to be refused depend, by their texts and their answers."""
        texts = []
        for one in functions_of(self.crate):
            if self.is_refused_at(one.name):
                answers = self.crate.joinpath("proofs", *one.name.split("::")[1:]).glob("*.antt")
                texts += [one.item.code(), *(file.read_text(encoding="utf-8") for file in answers)]
        return definitions_of(self.crate).behind("\n".join(texts))

    def is_apart(self, other):
        """Whether the two change different functions, and neither changes what the other's refusal depends on."""
        different = self.asked().isdisjoint(other.asked()) and set(self.functions).isdisjoint(other.functions)
        return different and not self.spoils(other) and not other.spoils(self)

    def spoils(self, other):
        """Whether it changes a definition on which the other's refusal depends or, if the other changes definitions, a
        function on which it depends."""
        functions = {one.item.name for one in self.functions} if other.definitions else set()
        return not other.behind.isdisjoint(self.definitions | functions)

    def is_refused_at(self, function):
        """Whether this function, named as the check prints it, has to be refused."""
        if self.function:
            return function.endswith(f"::{self.function}")
        return any(one.name == function for one in self.functions)


CRATES = crates.crates()


@cache
def libraries_of(name):
    """The arguments that name the libraries below a crate."""
    return crates.words(name, CRATES, PROVED)


def command(name, asked):
    """The command that checks these functions of a crate, and what they call, with the libraries that were built."""
    kind = CRATES[name].kind
    words = [KIT / "bin/rattle", "check", "--crate-name", name, "src/lib.rt", *libraries_of(name)]
    words += ["--crate-type", *kind] if kind else []
    words += ["--incremental", "out/incremental", "--jobs", "1"]
    return [*words, *(word for path in sorted(asked) for word in ("--only", path))]


def run(words, folder):
    """Runs a command in a folder. Returns whether it succeeded, the processor-seconds and the output."""
    with tempfile.TemporaryFile("w+", encoding="utf-8", errors="replace") as said:
        started = subprocess.Popen(words, cwd=folder, stdin=subprocess.DEVNULL, stdout=said, stderr=subprocess.STDOUT)
        _, status, used = os.wait4(started.pid, 0)
        started.returncode = os.waitstatus_to_exitcode(status)
        said.seek(0)
        return started.returncode == 0, used.ru_utime + used.ru_stime, said.read()


def copy_crate(name, crate):
    """Copies the sources of a crate, and what checks of it kept, if there is any."""
    for part in ("src", "specs", "proofs", "out/incremental"):
        folder = (PROVED if part.startswith("out") else ROOT) / "crates" / name / part
        if folder.is_dir():
            shutil.copytree(folder, crate / part)


def planted(crate, mutants):
    """The files that the mutants change, and their changed texts."""
    texts, places = {}, sorted((place for one in mutants for place in one.places), reverse=True)
    for file, start, end, new in places:
        path = crate / file
        text = texts.setdefault(path, path.read_text(encoding="utf-8"))
        texts[path] = text[:start] + new + text[end:]
    return {**texts, **left_out(crate, mutants)} if ANEW else texts


def left_out(crate, mutants):
    """The files of answers of the functions that have to be refused, without the answers to clauses."""
    texts = {}
    for function in (one.name for one in functions_of(mutants[0].crate)):
        path = crate.joinpath("proofs", *function.split("::")[1:], "Answers.antt")
        if any(one.is_refused_at(function) for one in mutants) and path.is_file():
            answers = path.read_text(encoding="utf-8").split("\n\n")
            texts[path] = "\n\n".join(one for one in answers if not re.search(r"^pub returns", one, re.M))
    return texts


def check_planted(crate, mutants):
    """Checks the functions that these mutants change, with the changes. Then restores the crate's own texts."""
    texts = planted(crate, mutants)
    own = {path: path.read_text(encoding="utf-8") for path in texts}
    try:
        for path, text in texts.items():
            path.write_text(text, encoding="utf-8")
        return run(command(crate.name, set().union(*(one.asked() for one in mutants))), crate)
    finally:
        for path, text in own.items():
            path.write_text(text, encoding="utf-8")


def goals_of(said, function, is_its_own):
    """The goals of a function that are not proved: their answers are refused, or none was found. If all that is refused
    belongs to this mutant, these include goals whose answers depend on it. In a group that can be another mutant's."""
    folder, goals = "/".join(function.split("::")[1:]), []
    for place, error in ANSWER.findall(said):
        if place == folder:
            goals += re.findall(r"^`([^`]+)`: ", error)
            unchecked = error.partition(" not checked: ")[2] if is_its_own else ""
            goals += re.findall(r"[\w-]+", re.sub(r"\([^)]*\)| and \d+ more", "", unchecked))
    verdict = dict(VERDICT.findall(said))[function]
    unfound = verdict.partition(" did not prove ")[2].partition("; it ")[0]
    return goals + re.findall(r"`([^`]+)`", unfound)


def clause_of(goal, function, crate):
    """The clause that a goal belongs to. If a function has only one clause: its name, or `ensures` if it has no name. A
    goal that belongs to no clause is returned unchanged."""
    named = re.search(r"-clause-(.+)$", goal)
    if named or not goal.startswith("returns"):
        return named[1] if named else goal
    clauses = next((one.clauses for one in functions_of(crate) if one.name == function), [])
    return (clauses[0] or "ensures") if len(clauses) == 1 else goal


def refusal_of(mutant, said, is_alone):
    """The clauses and goals that refused a mutant, or None if its function is proved. Also what to print."""
    verdicts = [one for one in VERDICT.findall(said) if mutant.is_refused_at(one[0])]
    is_its_own = is_alone or bool(mutant.definitions)
    goals = [(function, goal) for function, _ in verdicts for goal in goals_of(said, function, is_its_own)]
    refused = {clause_of(goal, function, mutant.crate) for function, goal in goals}
    if refused:
        return refused, ", ".join(sorted(refused))
    if verdicts and all(verdict == "proved" for _, verdict in verdicts):
        return None, "NOT REFUSED"
    return refused, f"not refused for itself: {verdicts[0][1][:160]}" if verdicts else "the check does not name it"


def verdict_of(mutant, said, is_alone):
    """PASSED, FAILED, or AGAIN for a further group. Also what to print."""
    refused, shown = refusal_of(mutant, said, is_alone)
    if refused and mutant.clauses and mutant.clauses <= refused:
        return PASSED, shown
    if refused:
        shown += f", and its file names {', '.join(sorted(mutant.clauses)) or 'no clause'}"
    return FAILED if refused is None or is_alone else AGAIN, shown


def first_group(mutants):
    """The first mutant, with those that are independent of it and of each other, unless it has to be tried alone.
    Mutants of bodies come first, because most of them are independent."""
    first, *others = sorted(mutants, key=lambda one: bool(one.definitions))
    group = [first]
    for one in others:
        if not one.is_alone() and not group[0].is_alone() and all(one.is_apart(other) for other in group):
            group.append(one)
    return group


def try_group(crate, group):
    """Plants a group and checks once. Returns those that passed and those that failed."""
    _, seconds, said = check_planted(crate, group)
    if os.environ.get("LOGS"):
        Path(os.environ["LOGS"], f"{group[0].name.replace('/', '-')}.log").write_text(said, encoding="utf-8")
    lines, found = [f"{seconds:6.1f}  {crate.name}, {len(group)} planted"], {PASSED: [], FAILED: [], AGAIN: []}
    for one in group:
        verdict, shown = verdict_of(one, said, len(group) == 1)
        found[verdict].append(one)
        lines.append(f"        {verdict}{one.name}: {shown}")
    print("\n".join(lines), flush=True)
    return found[PASSED], found[FAILED]


def is_proved(name):
    """Whether the unchanged crate is proved."""
    proved, seconds, said = (True, 0, "") if "PROVED" in os.environ else run(["rt", "check"], ROOT / "crates" / name)
    print(f"{seconds:6.1f}  {name}, unchanged" if proved else said, flush=True)
    return proved


def passed_before(kept, mutants):
    """Those of a crate's mutants that passed before, with the same files, and are not named themselves."""
    if "--all" in OPTIONS:
        return []
    is_recorded = kept.is_recorded()
    before = [one for one in mutants if one.name not in NAMES and (is_recorded or kept.has(one.edit))]
    if before:
        where = f"as {RECORD} says" if is_recorded else "on this machine"
        print(f"        {kept.crate.name}, {len(before)} passed before with the same files, {where}", flush=True)
    return before


def try_crate(name, mutants):
    """Tries the mutants of a crate that did not pass before. Returns those that passed and those that failed."""
    kept = Kept(ROOT / "crates" / name, PROVED, ANEW)
    before = passed_before(kept, mutants)
    left = [one for one in mutants if one not in before]
    passed, failed = try_all(name, left) if left else ([], [])
    kept.add(one.edit for one in passed)
    if "--record" in OPTIONS and not failed and name in (NAMES or [name]):
        kept.write_record(one.edit for one in mutants)
    return passed, failed


def try_all(name, mutants):
    """Tries these mutants of a crate, and returns those that passed and those that failed."""
    if not is_proved(name):
        return [], mutants
    with tempfile.TemporaryDirectory() as room:
        crate = Path(room) / name
        copy_crate(name, crate)
        passed, failed, left = [], [], mutants
        while left:
            group = first_group(left)
            right, wrong = try_group(crate, group)
            if not right and not wrong:
                right, wrong = try_group(crate, group[:1])
            passed, failed = passed + right, failed + wrong
            left = [one for one in left if one not in right and one not in wrong]
        return passed, failed


def chosen(names):
    """The mutants of each crate that the arguments name."""
    mutants = {}
    for edit in all_edits(ROOT):
        crate = edit.crate.name
        if not names or crate in names or f"{crate}/{edit.name}" in names:
            mutants.setdefault(crate, []).append(Mutant(edit))
    return mutants or sys.exit(__doc__.partition("\n")[0])


def main():
    if len(OPTIONS) > 1 or not OPTIONS <= {"--all", "--anew", "--record"}:
        sys.exit(__doc__.partition("\n")[0])
    with ThreadPoolExecutor(LANES) as pool:
        tried = list(pool.map(lambda one: try_crate(*one), chosen(NAMES).items()))
    failed = [one.name for _, wrong in tried for one in wrong]
    for name in failed:
        print(f"FAILED {name}")
    print(f"{sum(len(passed) for passed, _ in tried)} passed, {len(failed)} failed")
    sys.exit(bool(failed))


main()
