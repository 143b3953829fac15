"""The build of the package: its metadata, which library and compiler it uses, its errors, and their texts.

It runs in the repository, because the wheel does not have what it tests.
"""

import ast
import contextlib
import email
import glob
import io
import os
import platform
import re
import shutil
import subprocess
import sys
import sysconfig
import tarfile
import tempfile
import time
import unittest
import zipfile
from pathlib import Path
from unittest import mock

import backend

try:
    import tomllib
except ImportError:
    tomllib = None

BUILD = backend.HERE / "build.py"


class Places(unittest.TestCase):
    """Tests in a temporary folder, which replaces the top of the repository."""

    def setUp(self):
        folder = tempfile.TemporaryDirectory()
        self.addCleanup(folder.cleanup)
        self.top = Path(folder.name)
        self.patch(backend, "TOP", self.top)
        self.run = self.patch(backend, "run", side_effect=self.command)
        self.ran = []

    def patch(self, *arguments, **named):
        patch = mock.patch.object(*arguments, **named)
        self.addCleanup(patch.stop)
        return patch.start()

    def command(self, *words, **variables):
        self.ran.append((words, variables))
        self.put(f"{variables['PREFIX']}/lib/libnanorand.a")
        return ""

    def put(self, name):
        path = self.top / name
        path.parent.mkdir(parents=True, exist_ok=True)
        path.write_bytes(b"")
        return path

    def environment(self, **variables):
        return mock.patch.dict(os.environ, variables)

    def test_the_library_that_is_named_comes_first(self):
        named, _ = self.put("a folder/named.a"), self.put("lib/libnanorand.a")
        with self.environment(NANORAND_LIBRARY=str(named)):
            self.assertEqual(backend.library(self.top), named)
        self.assertEqual(self.ran, [])

    def test_a_library_that_is_named_and_not_there(self):
        self.put("lib/libnanorand.a")
        for path in (self.top / "none.a", self.top):
            with self.environment(NANORAND_LIBRARY=str(path)):
                with self.assertRaisesRegex(backend.BuildFailed, f"there is no static library {path}$"):
                    backend.library(self.top)
        self.assertEqual(self.ran, [])

    def test_that_of_the_archive_is_the_next(self):
        packed = self.put("lib/libnanorand.a")
        with self.environment(NANORAND_LIBRARY=""):
            self.assertEqual(backend.library(self.top), packed)
        self.assertEqual(self.ran, [])

    def test_that_of_rustc_is_the_last(self):
        """`c/install` builds it, in a folder that has nothing of an earlier build or of another rustc."""
        room = self.top / "room"
        with self.environment(NANORAND_LIBRARY="", RUSTC=sys.executable, CC="clang -m64", DESTDIR="/elsewhere"):
            self.assertEqual(backend.library(room), room / "lib/libnanorand.a")
        variables = {"CC": "clang -m64", "DESTDIR": "", "PREFIX": str(room), "RUSTC": sys.executable}
        self.assertEqual(self.ran, [((str(self.top / "c/install"),), variables)])

    def test_no_binutils_or_compiler(self):
        (self.top / "pyproject.toml").write_bytes((backend.HERE.parent / "pyproject.toml").read_bytes())
        for missing, package, build in (("ld", "binutils", lambda: backend.library(self.top)),
                                        ("objcopy", "binutils", lambda: backend.library(self.top)),
                                        ("nm", "binutils", lambda: backend.compiled(self.top / "module")),
                                        ("clang", "gcc", lambda: backend.compiled(self.top / "module"))):
            with self.environment(NANORAND_LIBRARY="", RUSTC=sys.executable, CC="clang -m64"):
                with mock.patch.object(shutil, "which", lambda name, absent=missing: None if name == absent else name):
                    text = f"^there is no {missing}: on Debian, install {package}$"
                    self.assertRaisesRegex(backend.BuildFailed, text, build)
        self.assertEqual(self.ran, [])

    def test_no_rustc(self):
        with self.environment(NANORAND_LIBRARY="", RUSTC="no_such_rustc"):
            with self.assertRaisesRegex(backend.BuildFailed, "^there is no no_such_rustc: on Debian, install rustc$"):
                backend.library(self.top)
        self.assertEqual(self.ran, [])


def listed(order):
    """Makes every way to list a folder return its files in this order."""
    patches = contextlib.ExitStack()
    for place, name in (Path, "glob"), (Path, "rglob"), (Path, "iterdir"), (os, "listdir"), (glob, "glob"):
        def found(*given, own=getattr(place, name), **named):
            return order([*own(*given, **named)])

        patches.enter_context(mock.patch.object(place, name, found))
    return patches


def written(includes, archive, module):
    """Writes the file that `link` makes, without a compiler."""
    module.write_bytes(b"a module")


class Tools(unittest.TestCase):
    def linked(self, order):
        with listed(order), mock.patch.object(backend, "run") as run:
            backend.link(["one", "other"], "archive.a", "module.so")
        return run.call_args_list

    def test_commands_have_one_order(self):
        """The order does not depend on the order in which a folder lists its files."""
        commands = self.linked(sorted)
        self.assertEqual(self.linked(lambda files: sorted(files, reverse=True)), commands)
        self.assertEqual(self.linked(lambda files: sorted(files, key=lambda file: str(file)[::-1])), commands)
        words = [word for [words, _] in commands for word in words if word.endswith(".c")]
        self.assertEqual(words, sorted(str(backend.HERE / "native" / name)
                                       for name in os.listdir(backend.HERE / "native") if name.endswith(".c")))

    def test_the_compiler(self):
        cases = [
            ("clang -m64", "gcc", ["clang", "-m64"]),
            ("", "true -pthread", ["true", "-pthread"]),
            ("", "no_such_compiler -x", ["cc"]),
            ("", None, ["cc"]),
        ]
        for given, own, wanted in cases:
            of_python = mock.patch.object(sysconfig, "get_config_var", return_value=own)
            with mock.patch.dict(os.environ, CC=given), of_python:
                self.assertEqual(backend.compiler(), wanted)

    def test_headers(self):
        with tempfile.TemporaryDirectory() as with_headers, tempfile.TemporaryDirectory() as without:
            (Path(with_headers) / "Python.h").write_bytes(b"")
            cases = [(with_headers, without), (without, with_headers), (with_headers, with_headers)]
            for own, other in cases:
                with self.paths(include=own, platinclude=other):
                    self.assertEqual(backend.headers(), sorted({own, other}))
            with self.paths(include=without, platinclude=without):
                wanted = f"^there is no Python.h in {without}: on Debian, install python3-dev$"
                self.assertRaisesRegex(backend.BuildFailed, wanted, backend.headers)

    def paths(self, **folders):
        return mock.patch.object(sysconfig, "get_path", side_effect=folders.get)

    def test_no_headers_end_a_build_before_rustc_begins(self):
        with tempfile.TemporaryDirectory() as folder, mock.patch.object(backend, "run") as run:
            with self.paths(include=folder, platinclude=folder):
                self.assertRaises(backend.BuildFailed, backend.build_wheel, folder)
            run.assert_not_called()

    def test_commands_that_fail(self):
        with self.assertRaisesRegex(backend.BuildFailed, "^no_such_command: No such file"):
            backend.run("no_such_command")
        with self.assertRaisesRegex(backend.BuildFailed, "^sh failed:\none\ntwo\n$"):
            backend.run("sh", "-c", "echo one; echo two >&2; exit 3")
        self.assertEqual(backend.run("printf", "text"), "text")
        self.assertEqual(backend.run("sh", "-c", "printf $ADDED", ADDED="more"), "more")

    def test_an_error_is_one_line_for_pip(self):
        """pip runs a hook in a process of its own, and shows what that prints."""
        hook = "import backend; raise backend.BuildFailed('one line')"
        done = subprocess.run([sys.executable, "-c", hook], cwd=backend.HERE, capture_output=True, encoding="utf-8")
        self.assertEqual((done.returncode, done.stderr), (1, "one line\n"))

    def test_a_module_that_exports_more(self):
        with mock.patch.object(backend, "symbols", return_value=["PyInit__native", "nanorand_v1_version"]):
            with self.assertRaisesRegex(backend.BuildFailed, "exports .*nanorand_v1_version"):
                backend.check("a module")
        for exported in ([], ["PyInit_native"]):
            with mock.patch.object(backend, "symbols", return_value=exported):
                self.assertRaises(backend.BuildFailed, backend.check, "a module")

    def test_symbols_of_a_module(self):
        with tempfile.TemporaryDirectory() as folder:
            module, source = Path(folder) / "module.so", Path(folder) / "module.c"
            source.write_text('#include <string.h>\nint one; int two(char *p) { return (int)strlen(p); }\n')
            backend.run("cc", "-shared", "-fPIC", "-fno-builtin", "-o", str(module), str(source))
            self.assertEqual({"one", "two"} & set(backend.symbols(module, "--defined-only")), {"one", "two"})
            self.assertTrue(any(name.startswith("strlen@") for name in backend.symbols(module, "--undefined-only")))

    def test_platforms(self):
        manylinux = "manylinux_2_17_x86_64"
        cases = [
            ("linux-x86_64", ["memcpy@GLIBC_2.14", "PyLong_FromLong", "strlen@@GLIBC_2.2.5"], manylinux),
            ("linux-x86_64", ["PyLong_FromLong", "strlen"], "linux_x86_64"),
            ("linux-x86_64", [], "linux_x86_64"),
            ("linux-x86_64", ["memcpy@GLIBC_2.17"], manylinux),
            ("linux-x86_64", ["memcpy@GLIBC_2.14", "exp@GLIBC_2.29"], "linux_x86_64"),
            ("linux-x86_64", ["x@GLIBC_3.0"], "linux_x86_64"),
            ("linux-x86_64", ["x@GLIBC_2.4", "y@GLIBC_2.34"], "linux_x86_64"),
            ("linux-x86_64", ["x@GLIBC_2.34", "y@GLIBC_2.9"], "linux_x86_64"),
            ("linux-x86_64", ["x@GLIBC_2.100"], "linux_x86_64"),
            ("linux-x86_64", ["x@GLIBC_2.3", "y@GLIBC_2.17", "z@GLIBC_2.9"], manylinux),
            ("linux-aarch64", ["memcpy@GLIBC_2.17"], "linux_aarch64"),
            ("macosx-11.0-arm64", [], "macosx_11_0_arm64"),
        ]
        for own, symbols, wanted in cases:
            with mock.patch.object(sysconfig, "get_platform", return_value=own):
                with mock.patch.object(backend, "symbols", return_value=symbols):
                    self.assertEqual(backend.platform_of("a module"), wanted)

    def test_commands_name_no_folder_of_a_source(self):
        [call] = self.linked(sorted)
        self.assertIn(f"-ffile-prefix-map={backend.TOP}=.", call[0])

    def test_the_module_is_optimized(self):
        [[words, _]] = self.linked(sorted)
        self.assertEqual([word for word in words if word.startswith("-O")], ["-O2"])
        self.assertIn("-DNDEBUG", words)


class Interpreters(unittest.TestCase):
    def refused(self, **attributes):
        """The error of each hook that compiles. It ends the hook before any command runs."""
        version = mock.patch.object(sys, "version_info", attributes.get("version", sys.version_info))
        name = mock.patch.object(platform, "python_implementation", return_value=attributes.get("name", "CPython"))
        free = mock.patch.object(sysconfig, "get_config_var", return_value=attributes.get("free", 0))
        with tempfile.TemporaryDirectory() as folder, mock.patch.object(backend, "run") as run, version, name, free:
            for hook in (backend.build_wheel, backend.build_editable):
                with self.assertRaises(backend.BuildFailed) as caught:
                    hook(folder)
            self.assertEqual(os.listdir(folder), [])
        run.assert_not_called()
        return str(caught.exception)

    def test_this_one(self):
        self.assertEqual(backend.interpreter(), "cp%d%d" % sys.version_info[:2])

    def test_others(self):
        wanted = "nanorand requires CPython 3.9 or later, not free-threaded, and this is "
        self.assertEqual(self.refused(version=(3, 8, 18)), f"{wanted}CPython 3.8")
        self.assertEqual(self.refused(version=(2, 7, 18)), f"{wanted}CPython 2.7")
        self.assertEqual(self.refused(version=(3, 9, 18), name="PyPy"), f"{wanted}PyPy 3.9")
        self.assertEqual(self.refused(version=(3, 13, 0), free=1), f"{wanted}free-threaded CPython 3.13")

    def test_the_oldest_and_later_ones(self):
        for version in (3, 9, 0), (3, 10, 2), (3, 13, 1), (4, 0, 0):
            with mock.patch.object(sys, "version_info", version):
                self.assertEqual(backend.interpreter(), "cp%d%d" % version[:2])

    def test_an_older_one_can_read_the_backend(self):
        for path in backend.__file__, BUILD:
            ast.parse(Path(path).read_text(encoding="utf-8"), feature_version=(3, 8))


class Metadata(unittest.TestCase):
    def setUp(self):
        self.metadata = email.message_from_bytes(backend.metadata())

    def settings(self, text, table):
        with tempfile.TemporaryDirectory() as folder, mock.patch.object(backend, "TOP", Path(folder)):
            (Path(folder) / "pyproject.toml").write_text(text, encoding="utf-8")
            return backend.settings(table)

    def test_values(self):
        text = """\
[one]
a = "1"

# A comment.
[one.more]
some-key = "two words = 2"  # a comment
list = ["x", "y # z"]
# A comment.
lines = [
    "first = 1",
    # A comment.
    "second",
]

[two]
b = []
"""
        more = {"some-key": "two words = 2", "list": ["x", "y # z"], "lines": ["first = 1", "second"]}
        wanted = {"one": {"a": "1"}, "one.more": more, "two": {"b": []}}
        self.assertEqual({table: self.settings(text, table) for table in wanted}, wanted)

    @unittest.skipUnless(tomllib, "this Python has no tomllib")
    def test_tables_are_read_as_toml(self):
        project = tomllib.loads((backend.TOP / "pyproject.toml").read_text(encoding="utf-8"))["project"]
        self.assertEqual(backend.settings("project.urls"), project.pop("urls"))
        self.assertEqual(backend.settings("project"), project)

    def test_each_setting_has_its_field(self):
        """All settings but the readme, which is the body, and the version, which is the header's."""
        project = backend.settings("project")
        fields = {"name": "Name", "description": "Summary", "requires-python": "Requires-Python",
                  "license": "License-Expression"}
        lists = {"license-files": "License-File", "classifiers": "Classifier"}
        self.assertEqual(set(project), {*fields, *lists, "dynamic", "keywords", "readme"})
        for key, field in fields.items():
            self.assertEqual(self.metadata.get_all(field), [project[key]])
        for key, field in lists.items():
            self.assertEqual(self.metadata.get_all(field), project[key])
        self.assertEqual(self.metadata["Keywords"], ",".join(project["keywords"]))
        self.assertEqual(project["dynamic"], ["version"])
        self.assertEqual(self.metadata.get_all("Version"), [backend.VERSION])
        urls = [f"{label}, {address}" for label, address in backend.settings("project.urls").items()]
        self.assertEqual(self.metadata.get_all("Project-URL"), urls)
        readme = (backend.TOP / project["readme"]).read_text(encoding="utf-8")
        self.assertEqual(self.metadata.get_payload(), readme)

    def test_versions_of_python(self):
        """The classifiers name the versions of the README."""
        readme = (backend.HERE / "README.md").read_text(encoding="utf-8")
        first, last = map(int, re.search(r"CPython 3[.](\d+) to 3[.](\d+)", readme).groups())
        pattern = re.compile(r"Programming Language :: Python :: 3[.](\d+)$")
        found = [pattern.match(text) for text in self.metadata.get_all("Classifier")]
        self.assertEqual([int(match[1]) for match in found if match], [*range(first, last + 1)])
        self.assertEqual(self.metadata["Requires-Python"], f">=3.{first}")

    def test_classifiers_have_one_order(self):
        """They are sorted, except that 3.9 comes before 3.10, and none deprecates the license expression."""
        classifiers = [re.sub(r"3[.](\d)$", r"3.0\1", text) for text in self.metadata.get_all("Classifier")]
        self.assertEqual(classifiers, sorted(set(classifiers)))
        self.assertFalse([text for text in classifiers if text.startswith("License")])


class SourceDistributions(unittest.TestCase):
    def built(self, order=sorted):
        with tempfile.TemporaryDirectory() as folder, listed(order):
            name = backend.build_sdist(folder)
            return name, (Path(folder) / name).read_bytes()

    def test_it_has_one_order(self):
        self.assertEqual(self.built(lambda files: sorted(files, reverse=True)), self.built())

    def test_files(self):
        """It has the files that git knows of these folders, and its metadata."""
        folders = ["LICENSE", "pyproject.toml", "python", "c/include/*.h", "c/include/*.hpp", "c/install",
                   "c/nanorand*", "rust/lots/src", "rust/nanorand-c/src", "rust/nanorand-proved/src"]
        known = subprocess.run(["git", "ls-files", "--cached", "--others", "--exclude-standard", *folders], check=True,
                               cwd=backend.TOP, stdout=subprocess.PIPE, encoding="utf-8").stdout.splitlines()
        wanted = [name for name in known if not name.startswith("python/tests/") and (backend.TOP / name).exists()]
        found = backend.sources()
        self.assertEqual(found.pop("PKG-INFO"), backend.metadata())
        self.assertEqual(sorted(found), sorted(wanted))
        for name, content in found.items():
            self.assertEqual(content, (backend.TOP / name).read_bytes())

    def test_entries(self):
        """Each entry is in one folder, and has nothing of this machine. The modes are those of git."""
        name, _ = self.built()
        with tempfile.TemporaryDirectory() as folder:
            backend.build_sdist(folder)
            with tarfile.open(Path(folder) / name) as archive:
                entries = archive.getmembers()
                contents = {entry.name: archive.extractfile(entry).read() for entry in entries}
        top = f"nanorand-{backend.VERSION}"
        self.assertEqual(name, f"{top}.tar.gz")
        self.assertEqual({name[len(top) + 1:]: text for name, text in contents.items()}, backend.sources())
        self.assertEqual(list(contents), sorted(contents))
        self.assertEqual({(entry.mtime, entry.uid, entry.gid, entry.uname, entry.gname) for entry in entries},
                         {(backend.TIME, 0, 0, "", "")})
        programs = {entry.name[len(top) + 1:] for entry in entries if entry.mode != 0o644}
        self.assertEqual(programs, {"c/install", "python/build.py"})
        self.assertEqual({entry.mode for entry in entries}, {0o644, 0o755})
        self.assertFalse([entry.name for entry in entries if entry.pax_headers])

    def test_time_is_that_of_a_wheel(self):
        with tempfile.TemporaryDirectory() as folder:
            path = Path(folder) / "archive.zip"
            backend.pack({"one": b""}, path)
            with zipfile.ZipFile(path) as archive:
                [entry] = archive.infolist()
        self.assertEqual(entry.date_time, time.gmtime(backend.TIME)[:6])

    def test_it_needs_the_repository(self):
        with tempfile.TemporaryDirectory() as folder, mock.patch.object(backend, "TOP", Path(folder)):
            for name in ["LICENSE", "pyproject.toml"]:
                (Path(folder) / name).write_bytes(b"")
            with mock.patch.object(backend, "metadata", return_value=b""):
                with self.assertRaisesRegex(backend.BuildFailed, f"repository: {folder} has no python/README.md$"):
                    backend.build_sdist(folder)


class Editable(unittest.TestCase):
    def setUp(self):
        folder = tempfile.TemporaryDirectory()
        self.addCleanup(folder.cleanup)
        self.top = Path(folder.name)
        patches = {"library": mock.Mock(), "link": written, "symbols": mock.Mock(return_value=["PyInit__native"])}
        for patch in mock.patch.multiple(backend, **patches), mock.patch.object(backend, "HERE", self.top):
            patch.start()
            self.addCleanup(patch.stop)

    def built(self):
        """The files of the wheel, and the folder to which it points."""
        name = backend.build_editable(self.top)
        with zipfile.ZipFile(self.top / name) as wheel:
            files = {name: wheel.read(name) for name in wheel.namelist()}
        return files, Path(files["nanorand.pth"].decode().rstrip("\n"))

    def test_its_wheel_has_only_a_path(self):
        files, folder = self.built()
        own = {f"{backend.INFORMATION}/{name}" for name in ("METADATA", "WHEEL", "RECORD", "licenses/LICENSE")}
        self.assertEqual(set(files), own | {"nanorand.pth"})
        self.assertEqual(folder, self.top / "dist/editable" / backend.interpreter())

    def test_the_folder_has_links_and_the_module(self):
        _, folder = self.built()
        self.assertEqual(os.listdir(folder), ["nanorand"])
        found = {path.name: path for path in (folder / "nanorand").iterdir()}
        self.assertEqual(found.pop(backend.MODULE).read_bytes(), b"a module")
        self.assertEqual({name: path.resolve() for name, path in found.items()},
                         {path.name: path for path in backend.package()})

    def test_what_an_earlier_build_left_is_removed(self):
        _, folder = self.built()
        (folder / "nanorand/removed.py").write_bytes(b"")
        self.built()
        self.assertNotIn("removed.py", os.listdir(folder / "nanorand"))

    def test_a_build_that_fails_leaves_the_folder_as_it_was(self):
        _, folder = self.built()
        with mock.patch.object(backend, "symbols", return_value=[]):
            self.assertRaises(backend.BuildFailed, backend.build_editable, self.top)
        self.assertIn(backend.MODULE, os.listdir(folder / "nanorand"))


class Wheels(unittest.TestCase):
    def packed(self, order):
        """The name of a wheel and its bytes."""
        patches = {"library": mock.Mock(), "link": written, "symbols": mock.Mock(return_value=["PyInit__native"])}
        with tempfile.TemporaryDirectory() as folder, mock.patch.multiple(backend, **patches):
            with listed(order):
                name = backend.build_wheel(folder)
            return name, (Path(folder) / name).read_bytes()

    def test_a_wheel_has_one_order(self):
        wheel = self.packed(sorted)
        self.assertEqual(self.packed(lambda files: sorted(files, reverse=True)), wheel)

    def test_what_is_packed(self):
        name, content = self.packed(sorted)
        with zipfile.ZipFile(io.BytesIO(content)) as wheel:
            contents = {name: wheel.read(name) for name in wheel.namelist()}
            modes = {entry.filename: entry.external_attr >> 16 for entry in wheel.infolist()}
        *files, last = contents
        self.assertEqual((files, last), (sorted(files), f"{backend.INFORMATION}/RECORD"))
        for path in backend.PACKAGE.iterdir():
            if path.is_file():
                self.assertEqual(contents[f"nanorand/{path.name}"], path.read_bytes())
        self.assertEqual(contents[f"nanorand/{backend.MODULE}"], b"a module")
        self.assertEqual(contents[f"{backend.INFORMATION}/METADATA"], backend.metadata())
        tag = name[len(f"nanorand-{backend.VERSION}-"):-len(".whl")]
        self.assertIn(f"\nTag: {tag}\n".encode(), contents[f"{backend.INFORMATION}/WHEEL"])
        self.assertEqual(modes.pop(f"nanorand/{backend.MODULE}"), 0o100755)
        self.assertEqual(set(modes.values()), {0o100644})

    def test_a_module_is_looked_at_before_it_is_packed(self):
        exported = mock.Mock(return_value=["PyInit__native", "more"])
        patches = {"library": mock.Mock(), "link": written, "symbols": exported}
        with tempfile.TemporaryDirectory() as folder, mock.patch.multiple(backend, **patches):
            self.assertRaises(backend.BuildFailed, backend.build_wheel, folder)
            self.assertEqual(os.listdir(folder), [])

    def test_the_command(self):
        def command(*arguments, **variables):
            return subprocess.run([sys.executable, BUILD, *arguments], capture_output=True, text=True,
                                  env={**os.environ, **variables})

        for arguments in (("one", "two"), ("--help",), ("-h",)):
            done = command(*arguments)
            self.assertEqual((done.returncode, done.stderr), (1, "usage: python/build.py [FOLDER]\n"))
        with tempfile.TemporaryDirectory() as folder:
            done = command(folder, NANORAND_LIBRARY="no.a")
            self.assertEqual((done.returncode, done.stderr), (1, "python/build.py: there is no static library no.a\n"))
            self.assertEqual(os.listdir(folder), [])
            done = command(folder, CC="no_such_compiler", NANORAND_LIBRARY=str(BUILD))
            self.assertEqual(done.returncode, 1)
            self.assertIn("python/build.py: there is no no_such_compiler: on Debian, install gcc", done.stderr)


if __name__ == "__main__":
    unittest.main()
