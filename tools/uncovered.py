#!/usr/bin/env python3
"""Lists the code that no test has run.

    tools/uncovered.py TARGET SOURCE..    lists the code in the SOURCE folders that no test has run: N passed, M failed
    tools/uncovered.py --tools            prints what is needed: an LLVM command and its Debian package

For example, tools/uncovered.py target/coverage rust/lots/src. TARGET is a target folder of cargo in which tests ran
with RUSTFLAGS=-Cinstrument-coverage, and its folder `profiles` has their profiles. A region is the smallest piece of
code that the compiler counts: a condition, an arm, an operand of `&&`. Each region that no test ran is a failure,
unless uncovered.txt names its line. A line that uncovered.txt names but tests run is a failure as well.

The script uses llvm-profdata and llvm-cov of the compiler's own LLVM version, from Debian's package, whose commands end
in the version, or from rustup's component llvm-tools. --tools fails if they are not there. It also fails, and names
profiler_builtins, if rustc was built without the runtime that counts, as Debian's rustc 1.63 was.
"""

import json
import re
import shutil
import subprocess
import sys
from collections import Counter
from pathlib import Path

HERE = Path(__file__).resolve().parent
RUST = HERE.parent / "rust"
CODE = 0
PROGRAMS = ("debug", "debug/deps", "release", "release/deps")


def printed(*command):
    return subprocess.run(command, stdout=subprocess.PIPE, encoding="utf-8", check=True).stdout


def compiler():
    """The version of LLVM of rustc, and the folder of its libraries and tools."""
    said = printed("rustc", "--version", "--verbose")
    version, host = (re.search(rf"^{word}: ([\w-]+)", said, re.M)[1] for word in ("LLVM version", "host"))
    return version, Path(printed("rustc", "--print", "sysroot").strip()) / "lib/rustlib" / host


def tools():
    """The names of both commands, or None."""
    version, folder = compiler()
    of_rustup = folder / "bin"
    for names in ([f"{name}-{version}" for name in ("llvm-profdata", "llvm-cov")],
                  [str(of_rustup / name) for name in ("llvm-profdata", "llvm-cov")]):
        if all(map(shutil.which, names)):
            return names
    return None


def needed():
    """What has to be there, and whether it is."""
    version, folder = compiler()
    if not any(folder.glob("lib/libprofiler_builtins-*.rlib")):
        return "profiler_builtins", False
    return f"llvm-cov-{version} llvm-{version}", tools() is not None


def programs_of(target):
    """The programs that cargo built there: tests, and the programs that they start."""
    for path in [path for folder in PROGRAMS if (target / folder).is_dir() for path in (target / folder).iterdir()]:
        if path.is_file() and path.stat().st_mode & 0o100 and path.suffix != ".so":
            yield path


def regions_of(target, sources):
    """How often tests ran each region of these folders. A region is a file, a line, and its start and end there."""
    merge, show = tools()
    profile = target / "profiles/all"
    printed(merge, "merge", "-sparse", "-o", str(profile), *map(str, (target / "profiles").glob("*.profraw")))
    objects = [word for path in programs_of(target) for word in ("-object", str(path))]
    found = json.loads(printed(show, "export", "-skip-expansions", "-instr-profile", str(profile), *objects))
    runs = Counter()
    for function in found["data"][0]["functions"]:
        for line, start, last, end, count, number, _, kind in function["regions"]:
            file = Path(function["filenames"][number])
            if kind == CODE and any(folder in file.parents for folder in sources):
                runs[file, line, start, last, end] += count
    return runs


def code_at(file, line):
    """The line of a region. A closing brace counts with the code before it."""
    lines = file.read_text(encoding="utf-8").splitlines()
    while lines[line - 1].strip() == "}":
        line -= 1
    return lines[line - 1].strip()


def exceptions(sources):
    """The lines in these folders that uncovered.txt names."""
    lines = (HERE / "uncovered.txt").read_text(encoding="utf-8").splitlines()
    named = [line.partition(": ") for line in lines if line and not line.startswith("#")]
    return {(RUST / path, code) for path, _, code in named if any(one in (RUST / path).parents for one in sources)}


def main():
    if sys.argv[1:] == ["--tools"]:
        what, is_there = needed()
        print(what)
        return 0 if is_there else 1
    target, *sources = (Path(word).resolve() for word in sys.argv[1:])
    runs = regions_of(target, sources)
    left = {(file, code_at(file, line)): line for (file, line, *_), count in sorted(runs.items()) if count == 0}
    wanted = exceptions(sources)
    for file, code in sorted(left.keys() - wanted):
        print(f"FAILED {file.relative_to(RUST)}:{left[file, code]}: no test runs all of: {code}")
    for file, code in sorted(wanted - left.keys()):
        print(f"FAILED uncovered.txt: {file.relative_to(RUST)}: {code}: tests run it, or it is not there")
    failed = len(left.keys() ^ wanted)
    print(f"{sum(count > 0 for count in runs.values())} passed, {failed} failed")
    return 1 if failed else 0


if __name__ == "__main__":
    sys.exit(main())
