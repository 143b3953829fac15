"""Old browsers: without 64-bit memory the second module draws the same; without WebAssembly the page cannot draw."""

import base64
import re
import time
from pathlib import Path
from typing import Dict
from urllib.parse import urlparse
from urllib.request import url2pathname

import checks
import draws
from counts import VERSION, Counts
from drivers import start
from looks import EMPTY
from page import Page

WORDS = ("This browser cannot draw: it has no WebAssembly, or it is switched off. Open the page in a newer browser: "
         "Chrome, Edge or Chromium from version 97 on, Firefox from version 90 on, Safari from version 16 on. Or use "
         "the Python code below, which draws the same.")
FAILED = "The page failed, and nothing is drawn: TypeError: "
MODULE = "for 32-bit memory: built from the Rust crate, whose functions are compared with the proved ones"
MAKER = f"Version {VERSION}, module SHA-256 {{}}, {MODULE}"
OTHER = ("The record was made in a browser that runs this page's other drawing program (module), for 64-bit memory, "
         f"proved. This browser runs the one {MODULE}. Both draw the same.")
# Elements that are visible only once they are of use or have a text.
LATER = """
return ["tidy", "opened", "list-facts", "progress", "result", "check-step", "outcome", "maker"]
  .filter((id) => document.getElementById(id).checkVisibility());
"""


def without_modules(counts: Counts, page: Page, name: str, words: str = WORDS) -> None:
    """The page shows what went wrong, and does nothing else."""
    page.load()
    shown = page.shown()
    said = shown["page"] if shown["page"].startswith(words) else words
    counts.same(name, [shown[field] for field in ("page", "list", "seed", "count")], [said, "", "", ""])
    counts.same(f"{name}: nothing else", (page.browser.run(LATER), page.browser.run(EMPTY)), ([], []))
    page.paste("a\nb\n")
    page.fill("seed", "all")
    time.sleep(1)
    shown = page.shown()
    counts.same(f"{name}: after a list", [shown[field] for field in ("page", "list", "digest")], [said, "", ""])
    for button in ("draw", "check"):
        disabled = page.browser.run("return document.getElementById(arguments[0]).disabled;", button)
        counts.same(f"{name}: no {button}", disabled, True)


def with_module32(counts: Counts, page: Page, program: str, digests: Dict[int, str]) -> None:
    """The second module runs, the page says so, and it draws as the program does. A record by the first one agrees."""
    page.load()
    maker = page.browser.run('return document.getElementById("maker").textContent;')
    counts.same("the module for 32-bit memory", maker, MAKER.format(digests[32]))
    draws.random_draws(counts, page, program, digests[32], 30)
    draws.sizes(counts, page, program, digests[32])
    record = checks.first_record(page)
    checks.outcome(counts, page, "a record of this module", record, "agrees")
    checks.outcome(counts, page, "a record of the other", record.replace(digests[32], digests[64]), "agrees", OTHER)


def strict_copy(address: str, folder: Path) -> str:
    """A page that forbids modules, like this page in a browser that does not know 'wasm-unsafe-eval'."""
    page = Path(url2pathname(urlparse(address).path)).read_text(encoding="utf-8")
    (folder / "strict.html").write_text(page.replace(" 'wasm-unsafe-eval'", "", 1), encoding="utf-8")
    return (folder / "strict.html").as_uri()


def empty_copy(address: str, folder: Path) -> str:
    """A page whose modules are empty, so that they compile but do not start."""
    page = Path(url2pathname(urlparse(address).path)).read_text(encoding="utf-8")
    empty = base64.b64encode(b"\0asm\1\0\0\0").decode()
    page = re.sub(r'(<script type="text/plain" id="module(?:32)?">)[^<]*', rf"\g<1>{empty}", page)
    (folder / "empty.html").write_text(page, encoding="utf-8")
    return (folder / "empty.html").as_uri()


def run(counts: Counts, page: Page, program: str, digests: Dict[int, str]) -> None:
    """What a browser loses, it has lost for good: another one of the same kind as the page's loses it."""
    address, folder = page.address, page.folder
    strict, empty = strict_copy(address, folder), empty_copy(address, folder)

    without_modules(counts, Page(page.browser, strict, folder), "no module is allowed")
    without_modules(counts, Page(page.browser, empty, folder), "empty modules", FAILED)
    page.browser.errors()
    browser = start(type(page.browser), folder)
    try:
        old_page = Page(browser, address, folder, page.number, page.browsers)
        browser.lose("memory64")
        with old_page.unpainted():
            with_module32(counts, old_page, program, digests)
        browser.lose("WebAssembly")
        without_modules(counts, old_page, "no WebAssembly")
    finally:
        browser.close()
