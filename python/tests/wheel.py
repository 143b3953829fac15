"""Tests the metadata of the wheel whose file the variable WHEEL names. tests/python.sh runs it, in the repository."""

import base64
import csv
import email
import hashlib
import os
import re
import subprocess
import sys
import sysconfig
import tempfile
import unittest
import zipfile
from pathlib import Path

ROOT = Path(__file__).resolve().parents[2]
NATIVE = f"nanorand/_native{sysconfig.get_config_var('EXT_SUFFIX')}"


class Wheel(unittest.TestCase):
    def setUp(self):
        path = Path(os.environ["WHEEL"])
        self.name, self.version, *self.tags = path.stem.split("-")
        self.folder = f"{self.name}-{self.version}.dist-info"
        with zipfile.ZipFile(path) as wheel:
            self.entries = wheel.infolist()
            self.files = {entry.filename: wheel.read(entry) for entry in self.entries}
        self.metadata = email.message_from_bytes(self.of_itself("METADATA"))

    def of_itself(self, name):
        return self.files[f"{self.folder}/{name}"]

    def test_record(self):
        """By its own record, no file is missing or changed."""
        rows = list(csv.reader(self.of_itself("RECORD").decode().splitlines()))
        self.assertEqual(sorted(row[0] for row in rows), sorted(self.files))
        for path, digest, size in rows:
            content = self.files[path]
            wanted = base64.urlsafe_b64encode(hashlib.sha256(content).digest()).rstrip(b"=").decode()
            if path != f"{self.folder}/RECORD":
                self.assertEqual((digest, size), (f"sha256={wanted}", str(len(content))), path)

    def test_files(self):
        """It has the package's files and its own, uncompressed, and without times."""
        modules = {f"nanorand/{path.name}" for path in (ROOT / "python/nanorand").iterdir() if path.is_file()}
        own = {f"{self.folder}/{name}" for name in ("METADATA", "WHEEL", "licenses/LICENSE", "RECORD")}
        self.assertEqual(set(self.files), modules | own | {NATIVE})
        self.assertLessEqual({"nanorand/py.typed", "nanorand/_native.pyi"}, modules)
        kinds = {(entry.date_time, entry.compress_type) for entry in self.entries}
        self.assertEqual(kinds, {((1980, 1, 1, 0, 0, 0), zipfile.ZIP_STORED)})

    def test_tags(self):
        """It is for this Python version and every Linux on its processor."""
        python = "cp" + "".join(map(str, sys.version_info[:2]))
        self.assertEqual(self.tags, [python, python, "manylinux_2_17_x86_64"])
        said = email.message_from_bytes(self.of_itself("WHEEL"))
        self.assertEqual(said.get_all("Tag"), ["-".join(self.tags)])
        self.assertEqual((said["Root-Is-Purelib"], said["Wheel-Version"]), ("false", "1.0"))

    def test_metadata(self):
        """Its version, license, description and oldest Python are the package's."""
        readme = (ROOT / "python/README.md").read_text(encoding="utf-8")
        self.assertEqual((self.metadata["Name"], self.metadata["Version"]), (self.name, self.version))
        header = (ROOT / "c/include/nanorand.h").read_text("ascii")
        number = int(re.search(r"^#define NANORAND_VERSION (\d+)$", header, re.M)[1])
        self.assertEqual(self.version, f"{number // 10000}.{number // 100 % 100}.{number % 100}")
        self.assertEqual(self.metadata["Requires-Python"], f">={re.search(r'Python (3[.][0-9]+)', readme)[1]}")
        self.assertEqual((self.metadata["License-Expression"], self.metadata["License-File"]), ("Zlib", "LICENSE"))
        self.assertEqual(self.of_itself("licenses/LICENSE"), (ROOT / "LICENSE").read_bytes())
        self.assertEqual(self.metadata.get_payload(), readme)

    def test_module_names_no_source(self):
        for word in (b"numbers.c", b"call_range", os.fsencode(ROOT)):
            self.assertNotIn(word, self.files[NATIVE])

    def test_addresses_are_found_when_the_module_is_loaded(self):
        """So nobody can change later which functions it calls."""
        with tempfile.NamedTemporaryFile() as module:
            module.write(self.files[NATIVE])
            module.flush()
            shown = subprocess.run(["readelf", "-d", module.name], check=True, capture_output=True, encoding="utf-8")
        self.assertRegex(shown.stdout, r"\(FLAGS\) .*\bBIND_NOW\b")


if __name__ == "__main__":
    unittest.main()
