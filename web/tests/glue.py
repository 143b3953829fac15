"""The calls of web/src/module.js alone, checked in a browser."""

import base64
import sys
from pathlib import Path
from typing import Dict

from counts import Counts, sha256
from page import Page

HERE = Path(__file__).resolve().parent
# The bytes of which the script digests the first ones, again and again.
CYCLE = bytes(range(11, 251))
sys.path.insert(1, str(HERE.parent))
import build  # noqa: E402


def run(counts: Counts, page: Page, modules: Dict[int, bytes]) -> None:
    script = build.script("module") + (HERE / "glue.js").read_text(encoding="utf-8")
    for bits, module in modules.items():
        calls, wrong, digests = page.browser.run(script, base64.b64encode(module).decode(), bits)
        counts.case(f"calls are watched, {bits} bits", "" if calls >= 350 else str(calls))
        for call in wrong:
            counts.case(f"a call, {bits} bits", call)
        for length, digest in digests:
            wanted = sha256((CYCLE * (length // len(CYCLE) + 1))[:length])
            counts.same(f"digest of {length} bytes, {bits} bits", digest, wanted)
