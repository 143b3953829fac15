"""Tests of `tools/uncovered.py`: which code counts as run, and what is a failure."""

import contextlib
import io
import json
import sys
import tempfile
import unittest
from collections import Counter
from pathlib import Path
from unittest import mock

sys.path.insert(0, str(Path(__file__).resolve().parent.parent))

import uncovered

LIST = "# one/src/lib.rs: a comment\n\ntwo/src/lib.rs: of another folder\n"


class Sums(unittest.TestCase):
    def ended(self, counts, *named):
        """The status and the output, if tests ran each line of a file so often, and uncovered.txt names some lines."""
        with tempfile.TemporaryDirectory() as name:
            room = Path(name).resolve()
            source = room / "rust/one/src/lib.rs"
            source.parent.mkdir(parents=True)
            source.write_text("first();\nsecond();\n}\nlast();\n", encoding="utf-8")
            rows = "".join(f"one/src/lib.rs: {code}\n" for code in named)
            (room / "uncovered.txt").write_text(LIST + rows, encoding="utf-8")
            regions = Counter({(source, line, 1, line, 9): count for line, count in enumerate(counts, 1)})
            with mock.patch.multiple(uncovered, HERE=room, RUST=room / "rust", regions_of=lambda *_: regions), \
                    mock.patch.object(sys, "argv", ["uncovered.py", str(room), str(source.parent)]), \
                    contextlib.redirect_stdout(io.StringIO()) as said:
                status = uncovered.main()
        return status, said.getvalue().splitlines()

    def test_all_run(self):
        self.assertEqual(self.ended([1, 2, 3, 4]), (0, ["4 passed, 0 failed"]))

    def test_what_no_test_runs(self):
        line = "FAILED one/src/lib.rs:4: no test runs all of: last();"
        self.assertEqual(self.ended([1, 2, 3, 0]), (1, [line, "3 passed, 1 failed"]))
        self.assertEqual(self.ended([1, 2, 3, 0], "last();"), (0, ["3 passed, 0 failed"]))

    def test_named_but_run(self):
        line = "FAILED uncovered.txt: one/src/lib.rs: {}: tests run it, or it is not there"
        for code in ("last();", "gone();"):
            self.assertEqual(self.ended([1, 2, 3, 4], code), (1, [line.format(code), "4 passed, 1 failed"]))

    def test_one_of_each(self):
        status, lines = self.ended([1, 0, 3, 4], "last();")
        self.assertEqual((status, len(lines), lines[-1]), (1, 3, "3 passed, 2 failed"))

    def test_a_brace_counts_with_the_code_before_it(self):
        self.assertEqual(self.ended([1, 1, 0, 1], "second();"), (0, ["3 passed, 0 failed"]))


class Regions(unittest.TestCase):
    def test_what_is_counted(self):
        here, other = "/rust/one/src/lib.rs", "/rust/two/src/lib.rs"
        # The lines, and how often each ran, its file and its kind, in two instances of a function.
        instances = [[(1, 3, 0, 0), (2, 0, 0, 0), (3, 5, 0, 2), (4, 5, 1, 0)], [(1, 7, 0, 0), (2, 0, 0, 0)]]
        functions = [{"filenames": [here, other],
                      "regions": [[line, 1, line, 9, count, number, 0, kind] for line, count, number, kind in instance]}
                     for instance in instances]
        said = json.dumps({"data": [{"functions": functions}]})
        with mock.patch.multiple(uncovered, tools=lambda: ("merge", "show"), printed=lambda *_: said):
            found = uncovered.regions_of(Path("/none"), [Path("/rust/one/src")])
            below = uncovered.regions_of(Path("/none"), [Path("/rust/one"), Path("/rust/tw")])
        self.assertEqual(found, {(Path(here), 1, 1, 1, 9): 10, (Path(here), 2, 1, 2, 9): 0})
        self.assertEqual(below, found)


class Needed(unittest.TestCase):
    def test_what_is_needed(self):
        """Rustc's own runtime, and then the tools of its LLVM."""
        with tempfile.TemporaryDirectory() as name:
            folder = Path(name)
            (folder / "lib").mkdir()
            with mock.patch.object(uncovered, "compiler", lambda: ("14", folder)), \
                    mock.patch.object(uncovered.shutil, "which", lambda _: None):
                self.assertEqual(uncovered.needed(), ("profiler_builtins", False))
                (folder / "lib/libprofiler_builtins-1a.rlib").touch()
                self.assertEqual(uncovered.needed(), ("llvm-cov-14 llvm-14", False))
            with mock.patch.object(uncovered, "compiler", lambda: ("14", folder)), \
                    mock.patch.object(uncovered.shutil, "which", str):
                self.assertEqual(uncovered.needed(), ("llvm-cov-14 llvm-14", True))


if __name__ == "__main__":
    unittest.main()
