#!/usr/bin/env python3
"""Compares the conditions for targets in Rust with the compiler's list of targets: tests/targets.py.

Few targets are compiled in tests. For the others, the script evaluates `#[cfg(..)]` itself: on each target there has to
be one way to get random bytes and one kind of vectors, the number of the system call has to be that of the processor,
and the drop-in has to have the modules that its comments promise. It takes one target of each system, and for Linux one
of each processor too, as each takes a call of the compiler. The last line is N passed, M failed.
"""

import re
import subprocess
import sys
from pathlib import Path

ROOT = Path(__file__).resolve().parent.parent
SYSTEM, SIMD = "rust/nanorand-proved/src/system.rs", "rust/nanorand-proved/src/simd.rs"
SOURCE, ENTROPY = "rust/nanorand-drop-in/src/entropy/source.rs", "rust/nanorand-drop-in/src/entropy.rs"
# Of these items of a file, exactly one has to be compiled. A module that one of them uses has to be there too.
CHOICES = {
    (SYSTEM, "call"): r"mod call\b|use (\w+) as call\b",
    (SYSTEM, "get_random"): r" +pub\(super\) fn get_random\b",
    (SIMD, "lanes"): r"use (\w+) as lanes\b",
    (SIMD, "eight"): r"use (\w+) as eight\b",
    (SOURCE, "fill"): r"pub\(crate\) fn fill\b",
}
FEATURES = [set(), {'feature="std"'}, {'feature="getrandom"'}, {'feature="std"', 'feature="getrandom"'}]
# What the vectors of a module need. All others are the module `plain`.
VECTORS = {
    "sse2": {'target_arch="x86_64"', 'target_feature="sse2"'},
    "neon": {'target_arch="aarch64"', 'target_feature="neon"', 'target_endian="little"'},
}
# The number of the system call getrandom, which tests/targets.sh compares with the crate libc. Programs of 32 bits on
# x86-64 have another one.
NUMBERS = {"x86_64": 318, "x86": 355, "arm": 384, "powerpc": 359, "powerpc64": 359, "s390x": 349, "aarch64": 278,
           "riscv64": 278}
X32 = {'target_arch="x86_64"', 'target_pointer_width="32"'}
# Targets that the compiler has had for long: programs of 32 bits on x86-64, another order of bytes, a processor without
# vectors, and systems that are easily left out.
KNOWN = {"x86_64-unknown-linux-gnux32", "aarch64_be-unknown-linux-gnu", "x86_64-unknown-none", "x86_64-unknown-illumos",
         "wasm32-unknown-unknown"}


def printed(*words):
    return subprocess.run(["rustc", "--print", *words], capture_output=True, text=True, check=True).stdout.splitlines()


def targets():
    """The names of some targets, of which no two have the same system, except Linux on different processors."""
    seen = set()
    for name in printed("target-list"):
        processor, _, system = name.partition("-")
        new = {system, processor} - seen if "linux" in system else {system} - seen
        seen |= new
        if new or name in KNOWN:
            yield name


def value_of(words, facts):
    """Whether the condition at the beginning of the words holds. It is removed from them."""
    name = words.pop(0)
    if words[:1] == ["="]:
        value = words[1]
        del words[:2]
        return f"{name}={value}" in facts
    if words[:1] != ["("]:
        return name in facts
    parts = []
    while words[0] != ")":
        del words[0]
        parts += [] if words[0] == ")" else [value_of(words, facts)]
    del words[0]
    return {"any": any, "all": all, "not": lambda parts: not any(parts)}[name](parts)


def holds(condition, facts):
    words = re.findall(r'"[^"]*"|\w+|[(),=]', condition)
    value = value_of(words, facts)
    assert not words, condition
    return value


def items(text, pattern):
    """The condition of each item of this pattern, and what its group matched, if it has one."""
    found = re.finditer(rf"#\[cfg\(([^\]]*)\)\]\n(?: *#\[.*\]\n)*(?:{pattern})", text)
    return [match.groups() for match in found]


def choice_problems(texts, facts):
    for (path, name), pattern in CHOICES.items():
        chosen = [groups[1:] for groups in items(texts[path], pattern) if holds(groups[0], facts)]
        yield from [] if len(chosen) == 1 else [f"{path} has {len(chosen)} of {name}"]
        for module in (module for groups in chosen for module in groups if module):
            yield from [] if is_there(texts[path], module, facts) else [f"{path} uses {module}, which is not there"]


def is_there(text, module, facts):
    return any(holds(condition, facts) for condition, in items(text, rf"mod {module}\b"))


def vector_problems(text, facts):
    """The module that is used, and no other, has the vectors of the processor."""
    wanted = next((name for name, needed in VECTORS.items() if needed <= facts), "plain")
    used = [name for condition, name in items(text, CHOICES[SIMD, "lanes"]) if holds(condition, facts)]
    compiled = [name for name in (*VECTORS, "plain") if is_there(text, name, facts)]
    yield from [] if used == compiled == [wanted] else [f"{SIMD} uses {used} and has {compiled}, not {wanted}"]


def number_problems(text, facts):
    """The number that system.rs has for Linux on this processor."""
    [body] = re.findall(r"const NUMBER: .*? =(.*?);\n", text, re.S)
    numbers = re.findall(r"cfg!\(([^{}]*)\)\s*\{\s*Some\((\d+)\)", body)
    found = next((int(number) for condition, number in numbers if holds(condition, facts)), None)
    [processor] = [fact.split('"')[1] for fact in facts if fact.startswith("target_arch=")]
    wanted = None if X32 <= facts else NUMBERS.get(processor)
    yield from [] if found == wanted else [f"{SYSTEM} has the number {found}, not {wanted}"]


def wanted_system(facts):
    """The module of the drop-in that the target has."""
    if "windows" in facts:
        return "windows_uwp" if 'target_vendor="uwp"' in facts else "windows"
    if 'target_vendor="apple"' in facts:
        return "darwin"
    return "linux" if {'target_os="linux"', 'target_os="android"'} & facts else None


def system_problems(text, facts):
    rows = re.findall(r'^    (\w+), "[^"]*", (.*);$', text, re.M)
    wanted = None if 'feature="getrandom"' in facts else wanted_system(facts)
    for pattern in (r" *pub mod \$system\b", r" *pub use \$system::entropy as system;"):
        [(condition,)] = items(text, pattern)
        found = [name for name, target in rows if holds(condition.replace("$target", target), facts)]
        yield from [] if found == [wanted] * (wanted is not None) else [f"{ENTROPY} has {found}, not {wanted}"]
    [(condition,)] = items(text, r"pub fn system\b")
    yield from [] if holds(condition, facts) == (wanted is None) else [f"{ENTROPY}: `system` is there twice or never"]


def problems(texts, target):
    facts = set(printed("cfg", "--target", target))
    for features in FEATURES:
        yield from choice_problems(texts, facts | features)
        yield from vector_problems(texts[SIMD], facts | features)
        yield from system_problems(texts[ENTROPY], facts | features)
    if {'target_os="linux"', 'target_os="android"'} & facts:
        yield from number_problems(texts[SYSTEM], facts)


def main():
    if sys.argv[1:]:
        sys.exit(__doc__)
    texts = {path: (ROOT / path).read_text(encoding="utf-8") for path in (SYSTEM, SIMD, SOURCE, ENTROPY)}
    names = list(targets())
    cases = {name: sorted(set(problems(texts, name))) for name in names}
    cases["the list of targets"] = [f"it lacks {name}" for name in sorted(KNOWN - set(names))]
    for name, wrong in cases.items():
        for text in wrong:
            print(f"FAILED {name}: {text}")
    failed = sum(map(bool, cases.values()))
    print(f"{len(cases) - failed} passed, {failed} failed")
    return failed != 0


if __name__ == "__main__":
    sys.exit(main())
