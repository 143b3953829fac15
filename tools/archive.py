#!/usr/bin/env python3
"""Builds dist/nanorand-VERSION-x86_64-linux.tar.gz, which holds the library for every language.

    tools/archive.py           proves and builds each piece with tests/build.sh, and packs them; minutes the first time
    tools/archive.py --pack    packs the pieces as they were last built

With the same tools, the same sources and pieces produce the same bytes. The last line is the SHA-256 of the archive.
"""

from __future__ import annotations

import gzip
import hashlib
import io
import os
import re
import shutil
import subprocess
import sys
import tarfile
import tempfile
from pathlib import Path

HERE = Path(__file__).resolve().parent
TOP = HERE.parent
sys.path.append(str(TOP / "python"))
import backend  # noqa: E402

NAME = f"nanorand-{backend.VERSION}-x86_64-linux"
OUT = TOP / "dist" / f"{NAME}.tar.gz"
LIBRARY = TOP / "crates/nanorand_c/out/libnanorand_c.a"
PAGE = TOP / "web/dist"
PROGRAMS = ["draw", "lots"]
# The Rust workspace, whose tests also run in the archive, the adapter for rand_core and the drop-in.
WORKSPACE = re.compile(r"Cargo\.(toml|lock)$|rust/(nanorand-(answers|proved|program|rand-core)|draw|lots)/"
                       r"|rust/nanorand-drop-in/(src/|Cargo\.toml$|README\.md$)")
# The files from which pip builds the Python package, with the archive's library.
PACKAGE = re.compile(r"pyproject\.toml$|python/((native|nanorand)/|backend\.py$|README\.md$)")
# The time of every file: 2026-01-01, 00:00 UTC.
TIME = 1767225600


def run(*command: str, folder: Path = TOP, **variables: str) -> str:
    """The standard output of a command. A command that fails ends the build."""
    environment = {**os.environ, "LC_ALL": "C", "TZ": "UTC", **variables}
    done = subprocess.run(command, cwd=folder, env=environment, stdin=subprocess.DEVNULL,
                          capture_output=True, encoding="utf-8")
    if done.returncode != 0:
        sys.exit(f"{done.stdout}{done.stderr}\ntools/archive.py: {' '.join(command[:3])} failed")
    return done.stdout


def copy(source: Path, target: Path) -> None:
    if not source.exists():
        sys.exit(f"tools/archive.py: {source.relative_to(TOP)} does not exist: build its piece first")
    target.parent.mkdir(parents=True, exist_ok=True)
    shutil.copyfile(source, target)


def fill(source: Path, target: Path) -> None:
    """Copies a text, in which the version replaces @VERSION@, and its first number @MAJOR@."""
    copy(source, target)
    text = target.read_text(encoding="utf-8").replace("@VERSION@", backend.VERSION)
    target.write_text(text.replace("@MAJOR@", backend.VERSION.split(".")[0]), encoding="utf-8")


def put_c(root: Path) -> None:
    """Both libraries, the headers, the files for pkg-config and CMake, and the examples."""
    for name in ["nanorand.h", "nanorand.hpp"]:
        copy(TOP / "c/include" / name, root / "include" / name)
    copy(LIBRARY, root / "lib/libnanorand.a")
    fill(TOP / "c/nanorand.pc.in", root / "lib/pkgconfig/nanorand.pc")
    copy(TOP / "c/nanorand-config.cmake", root / "lib/cmake/nanorand/nanorand-config.cmake")
    fill(TOP / "c/nanorand-config-version.cmake.in", root / "lib/cmake/nanorand/nanorand-config-version.cmake")
    for name in ["deck.c", "deck.out", "shuffle.cpp", "shuffle.out"]:
        copy(TOP / "c/examples" / name, root / "c" / name)
    run("cc", "-shared", "-nostdlib", "-s", "-o", str(root / "lib/libnanorand.so.1"),
        "-Wl,-soname,libnanorand.so.1", "-Wl,--version-script=c/nanorand.map",
        "-Wl,--whole-archive", str(root / "lib/libnanorand.a"), "-Wl,--no-whole-archive", "-lc",
        "-Wl,--no-undefined", "-Wl,--build-id=none", "-Wl,-z,now")
    (root / "lib/libnanorand.so").symlink_to("libnanorand.so.1")


def put_programs(root: Path) -> None:
    for name in PROGRAMS:
        copy(TOP / "crates" / name / "out" / name, root / "bin" / name)


def put_committed(root: Path, names: re.Pattern[str]) -> None:
    """Copies the committed files whose names match."""
    for name in run("git", "ls-files", "-z").split("\0"):
        if names.match(name):
            copy(TOP / name, root / name)


def put_rust(root: Path) -> None:
    put_committed(root, WORKSPACE)


def put_python(root: Path) -> None:
    """The wheel for this Python, and the files from which pip builds it for another one."""
    run("python/build.py", str(root / "python"), NANORAND_LIBRARY=str(LIBRARY))
    put_committed(root, PACKAGE)


def put_rest(root: Path) -> None:
    """The web page and its module, the known answers and the documents."""
    for name in ["nanorand.html", "nanorand_c.wasm"]:
        copy(PAGE / name, root / "web" / name)
    for name in ["answers.tsv", "README.md"]:
        copy(TOP / "tests/answers" / name, root / "answers" / name)
    copy(TOP / "LICENSE", root / "LICENSE")
    fill(HERE / "templates/archive.md", root / "README.md")
    run("tools/contracts.py", str(root / "contracts.html"))


def put_digests(root: Path) -> None:
    """SHA256SUMS, for sha256sum -c."""
    files = sorted(path for path in root.rglob("*") if path.is_file() and not path.is_symlink())
    lines = [f"{hashlib.sha256(path.read_bytes()).hexdigest()}  {path.relative_to(root)}\n"
             for path in files]
    (root / "SHA256SUMS").write_text("".join(lines), encoding="utf-8")


def entry(root: Path, path: Path) -> tarfile.TarInfo:
    """The header of a file, folder or link, which contains nothing about this machine."""
    info = tarfile.TarInfo(str(Path(NAME) / path.relative_to(root)))
    info.mtime = TIME
    if path.is_symlink():
        info.type, info.linkname, info.mode = tarfile.SYMTYPE, os.readlink(path), 0o777
    elif path.is_dir():
        info.type, info.mode = tarfile.DIRTYPE, 0o755
    else:
        info.size = path.stat().st_size
        info.mode = 0o755 if path.parent.name == "bin" else 0o644
    return info


def packed(root: Path) -> bytes:
    """The archive: its entries are sorted by name, and the gzip header has no time."""
    content = io.BytesIO()
    with tarfile.open(fileobj=content, mode="w", format=tarfile.USTAR_FORMAT) as archive:
        for path in [root, *sorted(root.rglob("*"))]:
            info = entry(root, path)
            archive.addfile(info, io.BytesIO(path.read_bytes()) if info.isreg() else None)
    return gzip.compress(content.getvalue(), compresslevel=9, mtime=0)


def pack() -> None:
    with tempfile.TemporaryDirectory() as room:
        root = Path(room) / NAME
        root.mkdir()
        for put in [put_c, put_programs, put_rust, put_python, put_rest, put_digests]:
            put(root)
        OUT.parent.mkdir(exist_ok=True)
        OUT.write_bytes(packed(root))
    print(f"{hashlib.sha256(OUT.read_bytes()).hexdigest()}  {OUT.relative_to(TOP)}")


def main() -> None:
    if sys.argv[1:] not in ([], ["--pack"]):
        sys.exit(__doc__)
    if not sys.argv[1:]:
        run("tests/build.sh", "library", "page", *PROGRAMS)
    pack()


if __name__ == "__main__":
    main()
