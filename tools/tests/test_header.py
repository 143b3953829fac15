"""Tests of `tools/header.py --check`: it compares the header and each archive with the exports, in both directions."""

import contextlib
import functools
import io
import subprocess
import sys
import tempfile
import unittest
from pathlib import Path
from unittest import mock

sys.path.insert(0, str(Path(__file__).resolve().parent.parent))

import header

# The sources are read once.
ITEMS_AT = functools.cache(header.items_at)
WRONG = "c/include/nanorand.h is not what tools/header.py writes: run it"
# What nm prints of two objects, with the options that `archived` gives it.
LISTED = """
liba.a[one.o]:
nanorand_v1_one T 0000000000000000 0000000000000004

liba.a[two.o]:
nanorand_v1_two T 0000000000000000 0000000000000004
other D 0000000000000000
"""


class Check(unittest.TestCase):
    @classmethod
    def setUpClass(cls):
        cls.symbols = {function.symbol for function in header.functions()}
        cls.text = header.HEADER.read_text(encoding="utf-8")

    def failures(self, *archives, text=None):
        """What --check prints of archives with these symbols and of a header with this text. The sum has to fit."""
        with tempfile.TemporaryDirectory() as name:
            path = Path(name, "nanorand.h")
            path.write_text(text or self.text, encoding="utf-8")
            symbols = dict(zip("abc", archives))
            with mock.patch.multiple(header, archived=symbols.__getitem__, items_at=ITEMS_AT, HEADER=path), \
                    mock.patch.object(sys, "argv", ["header.py", "--check", *symbols]), \
                    contextlib.redirect_stdout(io.StringIO()) as said:
                status = header.main()
        *lines, last = said.getvalue().splitlines()
        cases = 1 + len(self.symbols) + sum(len(self.symbols | archive) for archive in archives)
        self.assertEqual((last, status), (f"{cases - len(lines)} passed, {len(lines)} failed", int(lines != [])))
        return [line.removeprefix("FAILED ") for line in lines]

    def test_equal(self):
        self.assertEqual(self.failures(self.symbols, self.symbols), [])

    def test_symbols_that_an_archive_lacks_or_alone_has(self):
        one = min(self.symbols)
        found = self.failures(self.symbols, self.symbols - {one}, self.symbols | {"other", "nanorand_v1_other"})
        self.assertEqual(found, [f"{one} is not in b", "nanorand_v1_other is in c alone", "other is in c alone"])

    def test_another_symbol_in_place_of_one(self):
        one = max(self.symbols)
        found = self.failures(self.symbols - {one} | {f"{one}s"})
        self.assertEqual(found, [f"{one} is not in a", f"{one}s is in a alone"])

    def test_text(self):
        self.assertEqual(self.failures(text=f"{self.text}\n"), [WRONG])
        found = self.failures(text=self.text.replace("Returns the version of", "Returns that of"))
        self.assertEqual(found, ["nanorand_v1_version is not explained", WRONG])

    def refusal(self, call, *arguments):
        """What a call ends with."""
        with self.assertRaises(SystemExit) as ended:
            call(*arguments)
        return ended.exception.code.removeprefix("tools/header.py: ")

    def test_comments_that_are_not_for_c(self):
        for comment, reason in [("", "it is empty"), ("Draws a u8.", "it has u8"), ("Writes to &mut.", "it has &mut")]:
            self.assertEqual(self.refusal(header.in_c_words, "one", comment),
                             f"the comment of one is not for C programmers: {reason}")

    def test_exports_in_a_nested_module(self):
        text = (header.ROOT / "crates/nanorand_c/src/version.rt").read_text(encoding="utf-8")
        export = text[text.index("///"):]
        with tempfile.TemporaryDirectory() as name:
            path = Path(name, "version.rt")
            with mock.patch.object(header, "SOURCES", [path]):
                path.write_text(text, encoding="utf-8")
                self.assertEqual(len(header.functions()), 1)
                path.write_text(f"{text}\nmod nested {{\n{export}}}\n", encoding="utf-8")
                self.assertEqual(self.refusal(header.functions), "not every export is a function of a file")

    def test_symbols_of_an_archive(self):
        with mock.patch.object(subprocess, "run", return_value=mock.Mock(stdout=LISTED)):
            self.assertEqual(header.archived("liba.a"), {"nanorand_v1_one", "nanorand_v1_two", "other"})


if __name__ == "__main__":
    unittest.main()
