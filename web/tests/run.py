#!/usr/bin/env python3
"""Tests the built page, web/dist/nanorand.html, in browsers.

    web/tests/run.py LOTS BROWSER.. [--pictures FOLDER] [--only PART]

For example, web/tests/run.py crates/lots/out/lots chromium firefox. LOTS is the program with which the page is
compared. Each BROWSER is chromium or firefox; all run side by side. Of many cases of one kind, such as random draws,
each browser runs its share. With --pictures, the part looks saves what the window shows. The parts are answers, glue,
pieces, draws, sizes, refusals, checks, formats, announcements, announcing, announced, shell, placed, attacks, failures,
said, heard, late, steps, lists, clerk, looks, files, copies, long and old. The last line is N passed, M failed.
"""

import argparse
import sys
import tempfile
import traceback
from concurrent.futures import ThreadPoolExecutor
from contextlib import nullcontext
from pathlib import Path
from typing import Optional

import announced
import announcements
import announcing
import answers
import attacks
import checks
import clerk
import draws
import failures
import formats
import glue
import heard
import late
import lists
import looks
import old
import pieces
import placed
import refusals
import said
import shell
import steps
from counts import Counts, sha256
from drivers import Chromium, DriverError, Firefox, count_orphans, start
from page import Page

OUT = Path(__file__).resolve().parent.parent / "dist"
BROWSERS = {"chromium": Chromium, "firefox": Firefox}
# The parts that do not look at the window, and do not press keys.
UNPAINTED = ("answers", "glue", "pieces", "draws", "sizes", "refusals", "checks", "formats", "announcements", "attacks",
             "failures", "late", "long")


def in_browser(kind: type, number: int, browsers: int, program: str, pictures: Optional[Path], only: str) -> Counts:
    """Runs the parts in a browser of its own, which has this number among so many browsers."""
    counts = Counts()
    address = (OUT / "nanorand.html").as_uri()
    modules = {64: (OUT / "nanorand_c.wasm").read_bytes(), 32: (OUT / "nanorand_c32.wasm").read_bytes()}
    digests = {bits: sha256(code) for bits, code in modules.items()}
    module = digests[64]
    with tempfile.TemporaryDirectory() as name:
        folder = Path(name)
        downloads = folder / "downloads"
        downloads.mkdir()
        try:
            browser = start(kind, downloads)
        except (DriverError, OSError) as error:
            counts.place = kind.name
            counts.case("starts", f"{type(error).__name__}: {error}")
            return counts
        page = Page(browser, address, folder, number, browsers)
        parts = {
            "answers": lambda: answers.run(counts, page, modules),
            "glue": lambda: glue.run(counts, page, modules),
            "pieces": lambda: pieces.run(counts, page),
            "draws": lambda: draws.random_draws(counts, page, program, module, 100),
            "sizes": lambda: draws.sizes(counts, page, program, module),
            "refusals": lambda: refusals.run(counts, page, program),
            "checks": lambda: checks.run(counts, page, program, digests),
            "formats": lambda: formats.run(counts, page, program, digests),
            "announcements": lambda: announcements.run(counts, page, program, modules[64]),
            "announcing": lambda: announcing.run(counts, page, downloads),
            "announced": lambda: announced.run(counts, page, program, modules[64], downloads),
            "shell": lambda: shell.run(counts, page, program, modules[64]),
            "placed": lambda: placed.run(counts, page, program, modules[64]),
            "attacks": lambda: attacks.run(counts, page, digests),
            "failures": lambda: failures.run(counts, page),
            "said": lambda: said.run(counts, page, module),
            "heard": lambda: heard.run(counts, page),
            "late": lambda: late.run(counts, page),
            "steps": lambda: steps.run(counts, page),
            "lists": lambda: lists.run(counts, page),
            "clerk": lambda: clerk.run(counts, page, downloads),
            "looks": lambda: looks.run(counts, page, pictures),
            "files": lambda: draws.files(counts, page, program, downloads),
            "copies": lambda: draws.copies(counts, page),
            "long": lambda: draws.long_lists(counts, page, program, module),
            "old": lambda: old.run(counts, page, program, digests),
        }
        try:
            for part, run in parts.items():
                if only in ("", part):
                    counts.place = f"{browser.name} {browser.version}, {part}"
                    page.load()
                    try:
                        with page.unpainted() if part in UNPAINTED else nullcontext():
                            run()
                    except Exception:
                        counts.case(part, traceback.format_exc()[-600:])
                    counts.same("no error of the console", browser.errors(), [])
        finally:
            browser.close()
    return counts


def main() -> int:
    reader = argparse.ArgumentParser(usage=__doc__)
    reader.add_argument("program")
    reader.add_argument("browsers", nargs="+", choices=sorted(BROWSERS))
    reader.add_argument("--pictures", type=Path)
    reader.add_argument("--only", default="")
    wanted = reader.parse_args()
    program = str(Path(wanted.program).resolve())
    count_orphans()
    if wanted.pictures:
        wanted.pictures.mkdir(exist_ok=True)
    with ThreadPoolExecutor() as pool:
        browsers = len(wanted.browsers)
        begun = [pool.submit(in_browser, BROWSERS[browser], number, browsers, program, wanted.pictures, wanted.only)
                 for number, browser in enumerate(wanted.browsers)]
        found = [browser.result() for browser in begun]
    passed, failed = sum(counts.passed for counts in found), sum(counts.failed for counts in found)
    if passed + failed == 0:
        print(f"FAILED no part has the name {wanted.only}")
        failed = 1
    print(f"{passed} passed, {failed} failed")
    return 1 if failed else 0


if __name__ == "__main__":
    sys.exit(main())
