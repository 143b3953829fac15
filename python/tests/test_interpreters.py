"""Tests the package in subinterpreters: it works in those that share the GIL, and in no others (PEP 684)."""

import sys
import tempfile
import unittest
from pathlib import Path

README = Path(__file__).resolve().parents[1] / "README.md"
IMPORT = """
try:
    from nanorand import WyRand
    text = str(WyRand(42).range(1, 100))
except ImportError as error:
    text = f"{type(error).__name__}: {error}"
with open(%r, "w", encoding="utf-8") as file:
    file.write(text)
"""


def in_new_interpreter(own_lock):
    """What a new subinterpreter, with or without a GIL of its own, writes into a file."""
    with tempfile.TemporaryDirectory() as folder:
        path = Path(folder) / "text"
        if sys.version_info >= (3, 13):
            import _interpreters as interpreters

            made = interpreters.create("isolated" if own_lock else "legacy")
            interpreters.exec(made, IMPORT % str(path))
        else:
            import _xxsubinterpreters as interpreters

            made = interpreters.create(isolated=own_lock)
            interpreters.run_string(made, IMPORT % str(path))
        interpreters.destroy(made)
        return path.read_text(encoding="utf-8")


@unittest.skipIf(sys.version_info < (3, 12), "this Python has no subinterpreters with a GIL of their own")
class Subinterpreters(unittest.TestCase):
    def test_one_that_shares_the_lock(self):
        self.assertEqual(in_new_interpreter(False), "69")

    def test_one_with_its_own_lock(self):
        wanted = "does not support loading in subinterpreters"
        self.assertEqual(in_new_interpreter(True), "LibraryRefused: the extension module cannot be loaded: "
                         f"module nanorand._native {wanted}")
        self.assertIn(f"`{wanted}`", README.read_text(encoding="utf-8"))


if __name__ == "__main__":
    unittest.main()
