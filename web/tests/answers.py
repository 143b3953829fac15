"""The table of known answers, through the exports of both modules in a browser."""

import base64
from pathlib import Path
from typing import Dict

from counts import Counts
from page import Page

HERE = Path(__file__).resolve().parent
TABLE = HERE.parent.parent / "tests/answers/answers.tsv"
# The number of rows with a length of more than 32 bits, which a 32-bit module cannot take: ranges of `usize`, samples
# and draws.
TOO_LARGE = {64: 0, 32: 61}


def run(counts: Counts, page: Page, modules: Dict[int, bytes]) -> None:
    script = (HERE / "answers.js").read_text(encoding="utf-8")
    table = TABLE.read_text(encoding="ascii")
    wanted = sum(1 for line in table.splitlines() if not line.startswith("#"))
    for bits, module in modules.items():
        number, wrong, too_large = page.browser.run(script, base64.b64encode(module).decode(), table, bits)
        counts.same(f"rows of the table, {bits} bits", (number, too_large), (wanted - TOO_LARGE[bits], TOO_LARGE[bits]))
        for row in wrong:
            counts.case(f"a row, {bits} bits", row)
        counts.passed += number - len(wrong)
