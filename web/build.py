#!/usr/bin/env python3
"""Proves the WebAssembly module and builds the web page web/dist/nanorand.html, one file that works offline.

    web/build.py                             proves the module in a temporary folder and builds the page
    web/build.py MODULE.wasm                 builds the page with an existing module
    web/build.py MODULE.wasm MODULE32.wasm   builds it with existing modules for 64-bit and 32-bit memory
    web/build.py --committed                 builds it with the modules in docs/nanorand.html
    web/build.py --check                     checks that --committed would build docs/nanorand.html: N passed, M failed

In the first two forms web/module32.sh compiles the module for 32-bit memory. Without a compiler for it, the page gets
the module in docs/nanorand.html. The same sources and modules always make the same page. The last lines of the output
are the SHA-256 of the modules and of the page, which are written to web/dist/.
"""

import base64
import hashlib
import html
import re
import shutil
import subprocess
import sys
import tempfile
from pathlib import Path
from typing import Iterator

HERE = Path(__file__).resolve().parent
TOP = HERE.parent
SOURCES = HERE / "src"
OUT = HERE / "dist"
sys.path.append(str(TOP / "tools"))
import crates  # noqa: E402

NAME = "nanorand_c"
COMMITTED = TOP / "docs" / "nanorand.html"
NO_COMPILER = 3
# A comment on lines of its own.
COMMENT = re.compile(r"^ *(?://.*|/\*(?:[^*]|\*(?!/))*\*/)\n", re.M)
IMPORT = re.compile(r'^import [^;]*? from "\./([a-z0-9]+)\.js";\n', re.M)


def prove_module(folder: Path) -> Path:
    """Copies the crates, with the proofs that rt kept, to a folder, and proves and builds the module there."""
    all_crates = crates.crates()
    for name in [NAME, *crates.below(NAME, all_crates)]:
        if name in all_crates:
            shutil.copytree(TOP / "crates" / name, folder / "crates" / name)
            kind = ["wasm64"] if name == NAME else []
            with open(folder / "crates.txt", "a", encoding="utf-8") as lines:
                print(all_crates[name]._replace(kind=kind).line(), file=lines)
    done = subprocess.run(["rt", "lib"], cwd=folder / "crates" / NAME, stdin=subprocess.DEVNULL,
                          stdout=subprocess.PIPE, stderr=subprocess.STDOUT, encoding="utf-8")
    if done.returncode != 0:
        sys.exit(f"{done.stdout}\nweb/build.py: the module was not proved")
    return folder / "crates" / NAME / "out" / f"{NAME}.wasm"


def number_at(code: bytes, place: int) -> tuple[int, int]:
    """An unsigned LEB128 number, and the index after it."""
    value = shift = 0
    while True:
        byte = code[place]
        value |= (byte & 127) << shift
        place, shift = place + 1, shift + 7
        if byte < 128:
            return value, place


def sections(code: bytes) -> Iterator[tuple[int, bytes]]:
    """The number and the content of each section of a module."""
    if code[:8] != b"\0asm\1\0\0\0":
        sys.exit("web/build.py: this is not a WebAssembly module")
    place = 8
    while place < len(code):
        number, (length, begin) = code[place], number_at(code, place + 1)
        yield number, code[begin:begin + length]
        place = begin + length


def look_at_module(code: bytes, bits: int) -> None:
    """Exits if a module imports anything, or if its memory has another width than `bits`."""
    found = dict(sections(code))
    if number_at(found.get(2, b"\0"), 0)[0] != 0:
        sys.exit("web/build.py: the module has imports")
    if 5 not in found or (64 if found[5][1] & 4 else 32) != bits:
        sys.exit(f"web/build.py: the module has no {bits}-bit memory")


def module_of_page(page: Path, name: str) -> bytes:
    """The module in the element of a page with this id."""
    found = re.search(rf'<script type="text/plain" id="{name}">([^<]*)</script>', page.read_text(encoding="utf-8"))
    return base64.b64decode(found[1])


def compile_module32(path: Path) -> bytes:
    """The module for 32-bit memory: compiled, or without a compiler the one in the committed page."""
    done = subprocess.run([HERE / "module32.sh", path], stdin=subprocess.DEVNULL, stderr=subprocess.PIPE,
                          encoding="utf-8")
    if done.returncode == NO_COMPILER:
        print("skipped: compiling the module for 32-bit memory, as there is no Debian rustc: "
              "the page gets the one in docs/nanorand.html")
        return module_of_page(COMMITTED, "module32")
    if done.returncode != 0:
        sys.exit(f"{done.stderr}\nweb/build.py: the module for 32-bit memory did not compile")
    return path.read_bytes()


def joined(name: str, seen: set[str]) -> str:
    """The code of web/src/NAME.js and, before it, that of all its imports, each once, without comments."""
    source = COMMENT.sub("", (SOURCES / f"{name}.js").read_text(encoding="utf-8"))
    parts = []
    for other in IMPORT.findall(source):
        if other not in seen:
            seen.add(other)
            parts.append(joined(other, seen))
    code = re.sub(r"^export ", "", IMPORT.sub("", source), flags=re.M)
    return "".join(parts) + code


def script(name: str) -> str:
    """A joined script, in strict mode as modules are. Exits if the script has a tag that would end it in a page."""
    code = '"use strict";\n' + joined(name, {name})
    names = re.findall(r"^(?:const|let|class|function|async function) (\w+)", code, re.M)
    if len(set(names)) < len(names):
        sys.exit(f"web/build.py: {name}.js and its imports have these names twice: "
                 f"{sorted(set(filter(lambda one: names.count(one) > 1, names)))}")
    if "</script" in code.lower() or "<!--" in code:
        sys.exit(f"web/build.py: {name}.js contains a tag that would end the script")
    return code


def document() -> str:
    return (TOP / "docs" / "LOTS.md").read_text(encoding="utf-8")


def python_code() -> str:
    return re.search(r"^```python\n(.*?)\n```$", document(), re.M | re.S)[1]


def rule() -> str:
    """The list under the rule's heading in docs/LOTS.md, as HTML without links."""
    section = re.search(r"^## The rule of the draw\n(.*?)^## ", document(), re.M | re.S)[1]
    items = re.findall(r"^- (.*\n(?:  .*\n)*)", section, re.M)
    text = "".join(f"<li>{html.escape(item.strip(), quote=False)}</li>\n" for item in items)
    text = re.sub(r"\[([^]]*)\]\([^)]*\)", r"\1", text)
    text = re.sub(r"\*\*(.*?)\*\*", r"<strong>\1</strong>", text)
    text = re.sub(r"`(.*?)`", r"<code>\1</code>", text)
    return f"<ul>\n{text}</ul>"


def repository() -> str:
    """The address of the repository, which its owner fills in there."""
    return re.search(r'^repository = "(.*)"$', (TOP / "Cargo.toml").read_text(encoding="utf-8"), re.M)[1]


def source_sentence(address: str) -> str:
    """Where the program comes from. URL stands for an address that is not filled in."""
    if address == "URL":
        return "URL stands for the address of the repository that this file comes from."
    return "The address is that of the repository that this file comes from."


def source_of(text: str) -> str:
    """The source of a content security policy that allows exactly this script or style."""
    return f"'sha256-{base64.b64encode(hashlib.sha256(text.encode()).digest()).decode()}'"


def page_with(module: bytes, module32: bytes) -> str:
    style, main = (SOURCES / "style.css").read_text(encoding="utf-8"), script("main")
    policy = ["default-src 'none'", f"script-src {source_of(main)} 'wasm-unsafe-eval'", "worker-src blob:",
              f"style-src {source_of(style)}", "img-src data:", "base-uri 'none'", "form-action 'none'"]
    values = {"policy": "; ".join(policy), "style": style, "main": main, "worker": script("worker"),
              "module": base64.b64encode(module).decode(), "module32": base64.b64encode(module32).decode(),
              "repository": html.escape(repository()), "source": source_sentence(repository()),
              "rule": rule(), "python": html.escape(python_code(), quote=False)}
    template = (SOURCES / "page.html").read_text(encoding="utf-8")
    values["announce"] = (SOURCES / "announce.html").read_text(encoding="utf-8")
    return re.sub(r"\{\{(\w+)\}\}", lambda mark: values[mark[1]], template)


def modules(given: list[Path], folder: Path) -> list[bytes]:
    """The two modules: the given ones, or else built ones."""
    module = (given[0] if given else prove_module(folder)).read_bytes()
    look_at_module(module, 64)
    module32 = given[1].read_bytes() if len(given) == 2 else compile_module32(folder / "module32.wasm")
    look_at_module(module32, 32)
    return [module, module32]


def check() -> None:
    """Compares the committed page with the page that the sources build with its modules."""
    page = page_with(module_of_page(COMMITTED, "module"), module_of_page(COMMITTED, "module32"))
    if page != COMMITTED.read_text(encoding="utf-8"):
        print("FAILED docs/nanorand.html differs from what the sources build, which web/build.py --committed writes")
        sys.exit("0 passed, 1 failed")
    print("1 passed, 0 failed")


def main() -> None:
    words = sys.argv[1:]
    if words == ["--check"]:
        return check()
    if len(words) > 2 or any(word.startswith("-") for word in words) and words != ["--committed"]:
        sys.exit(__doc__)
    if words == ["--committed"]:
        module, module32 = (module_of_page(COMMITTED, name) for name in ("module", "module32"))
    else:
        with tempfile.TemporaryDirectory() as name:
            module, module32 = modules([Path(word) for word in words], Path(name))
    page = page_with(module, module32).encode()
    OUT.mkdir(exist_ok=True)
    for name, content in ((f"{NAME}.wasm", module), (f"{NAME}32.wasm", module32), ("nanorand.html", page)):
        (OUT / name).write_bytes(content)
        print(f"{hashlib.sha256(content).hexdigest()}  web/dist/{name}")


if __name__ == "__main__":
    main()
