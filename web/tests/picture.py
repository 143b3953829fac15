#!/usr/bin/env python3
"""Makes docs/page.png, a picture of docs/nanorand.html in Chromium after the example's draw: web/tests/picture.py."""

import tempfile
from pathlib import Path

from drivers import Chromium
from page import Page
from steps import drawn

DOCS = Path(__file__).resolve().parents[2] / "docs"
WIDTH = 1000

with tempfile.TemporaryDirectory() as name:
    browser = Chromium(Path(name))
    try:
        browser.size(WIDTH, 900)
        drawn(Page(browser, (DOCS / "nanorand.html").as_uri(), Path(name)))
        browser.size(WIDTH, browser.run("return document.documentElement.scrollHeight;"))
        browser.run("document.activeElement.blur(); scrollTo(0, 0);")
        browser.picture(DOCS / "page.png")
    finally:
        browser.close()
