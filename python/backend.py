"""Builds the Python package, for pip (PEP 517 and PEP 660) and for python/build.py.

The C files of python/native and the static library become one extension module, which exports `PyInit__native`
alone. With the same compilers and linker, equal sources give equal bytes in every folder. The library is the file that
the variable NANORAND_LIBRARY names. If that is not set, it is lib/libnanorand.a, which the unpacked archive has, or
else what c/install compiles with rustc (the variable RUSTC, or `rustc`). A build needs a C compiler (the variable CC,
or Python's own, or `cc`), and no network.

pip runs this file before it knows whether the Python is new enough. So Python 3.8 has to be able to read it.
"""

import ast
import base64
import gzip
import hashlib
import io
import os
import platform
import re
import shlex
import shutil
import subprocess
import sys
import sysconfig
import tarfile
import tempfile
import zipfile
from pathlib import Path

HERE = Path(__file__).resolve().parent
TOP = HERE.parent
PACKAGE = HERE / "nanorand"
# In the repository and in the unpacked archive.
INCLUDE = next(folder for folder in (TOP / "c/include", TOP / "include") if folder.exists())
# The version of the header, which has 1.2.3 as 10203.
NUMBER = int(re.search(r"^#define NANORAND_VERSION (\d+)$", (INCLUDE / "nanorand.h").read_text("ascii"), re.M)[1])
VERSION = f"{NUMBER // 10000}.{NUMBER // 100 % 100}.{NUMBER % 100}"
INFORMATION = f"nanorand-{VERSION}.dist-info"
MODULE = f"_native{sysconfig.get_config_var('EXT_SUFFIX')}"
# What every Linux of today has: the symbols of glibc 2.17.
OLDEST_LIBC = (2, 17)
# The time of every packed file: 1980-01-01, 00:00 UTC, the first that a wheel can have.
DATE, TIME = (1980, 1, 1, 0, 0, 0), 315532800
# The files of the source distribution: those from which pip builds the package, with c/install and what that compiles.
SOURCES = [
    *["LICENSE", "pyproject.toml", "python/README.md", "python/backend.py", "python/build.py"],
    *["python/nanorand/*.py", "python/nanorand/*.pyi", "python/nanorand/py.typed", "python/native/*.[ch]"],
    *["c/include/*.h", "c/include/*.hpp", "c/install", "c/nanorand*"],
    *[f"rust/{crate}/src/**/*.rs" for crate in ("lots", "nanorand-c", "nanorand-proved")],
]
WHEEL = """\
Wheel-Version: 1.0
Generator: python/backend.py
Root-Is-Purelib: false
Tag: {tag}
"""


class BuildFailed(SystemExit):
    """The package cannot be built; its text says why. As it is a `SystemExit`, pip shows the text and no traceback."""


def run(*command, **variables):
    """The standard output of a command, which has to succeed. The variables are added to its environment."""
    try:
        done = subprocess.run(command, env={**os.environ, **variables}, capture_output=True, encoding="utf-8")
    except OSError as error:
        raise BuildFailed(f"{command[0]}: {error.strerror}") from None
    if done.returncode != 0:
        raise BuildFailed(f"{command[0]} failed:\n{done.stdout}{done.stderr}")
    return done.stdout


def settings(table):
    """The keys and values of a table of pyproject.toml, all of which are strings or lists of strings.

    Python has a reader of TOML only from version 3.11 on. Such values are written in the same way in Python.
    """
    text = (TOP / "pyproject.toml").read_text("utf-8")
    body = re.search(rf"^\[{re.escape(table)}\]\n(.*?)(?=^\[|\Z)", text, re.M | re.S)[1]
    pairs = re.findall(r"^([\w-]+) = (.*?)(?=^[\w-]+ = |\Z)", body, re.M | re.S)
    return {key: ast.literal_eval(value.strip()) for key, value in pairs}


def metadata():
    """The core metadata: what pyproject.toml says, the version, and the README."""
    project, urls = settings("project"), settings("project.urls")
    fields = [
        ("Metadata-Version", "2.4"),
        ("Name", project["name"]),
        ("Version", VERSION),
        ("Summary", project["description"]),
        ("Keywords", ",".join(project["keywords"])),
        ("License-Expression", project["license"]),
        *[("License-File", name) for name in project["license-files"]],
        *[("Classifier", name) for name in project["classifiers"]],
        *[("Project-URL", f"{label}, {address}") for label, address in urls.items()],
        ("Requires-Python", project["requires-python"]),
        ("Description-Content-Type", "text/markdown"),
    ]
    lines = "".join(f"{name}: {value}\n" for name, value in fields)
    return f"{lines}\n".encode() + (TOP / project["readme"]).read_bytes()


def interpreter():
    """The interpreter of a wheel's tag. Each version of CPython has its own wheel."""
    oldest = settings("project")["requires-python"][len(">="):]
    name = platform.python_implementation()
    if sysconfig.get_config_var("Py_GIL_DISABLED"):
        name = f"free-threaded {name}"
    if name != "CPython" or sys.version_info < tuple(map(int, oldest.split("."))):
        this = f"{name} {sys.version_info[0]}.{sys.version_info[1]}"
        raise BuildFailed(f"nanorand requires CPython {oldest} or later, not free-threaded, and this is {this}")
    return f"cp{sys.version_info[0]}{sys.version_info[1]}"


def require(command, package):
    """Ends the build if there is no such command, before anything is compiled."""
    if not shutil.which(command):
        raise BuildFailed(f"there is no {command}: on Debian, install {package}")


def compiler():
    """The C compiler, as words of a command."""
    given = shlex.split(os.environ.get("CC", ""))
    own = shlex.split(sysconfig.get_config_var("CC") or "")
    return given or (own if own and shutil.which(own[0]) else ["cc"])


def library(room):
    """The static library. If it has to be compiled, it is installed in the folder `room`."""
    given, packed = os.environ.get("NANORAND_LIBRARY"), TOP / "lib/libnanorand.a"
    if given or packed.exists():
        found = Path(given or packed)
    else:
        rustc = os.environ.get("RUSTC") or "rustc"
        require(rustc, "rustc")
        for name in ("ld", "objcopy"):
            require(name, "binutils")
        run(str(TOP / "c/install"), CC=" ".join(compiler()), DESTDIR="", PREFIX=str(room), RUSTC=rustc)
        found = room / "lib/libnanorand.a"
    if not found.is_file():
        raise BuildFailed(f"there is no static library {found}")
    return found


def headers():
    """The folders of Python's own headers, which Debian has in a separate package."""
    folders = sorted({sysconfig.get_path("include"), sysconfig.get_path("platinclude")})
    if not any((Path(folder) / "Python.h").is_file() for folder in folders):
        raise BuildFailed(f"there is no Python.h in {' or '.join(folders)}: on Debian, install python3-dev")
    return folders


def link(includes, archive, module):
    """Compiles the extension module. No time or path is in it."""
    run(
        *[*compiler(), "-shared", "-fPIC", "-std=c11", "-O2", "-DNDEBUG", "-fvisibility=hidden", "-o", str(module)],
        *[f"-ffile-prefix-map={TOP}=.", *[f"-I{folder}" for folder in [INCLUDE, *includes]]],
        *[str(source) for source in sorted((HERE / "native").glob("*.c"))],
        *[str(archive), "-s", "-Wl,--exclude-libs,ALL", "-Wl,--gc-sections", "-Wl,-z,now"],
    )


def symbols(module, kind):
    """The names of dynamic symbols, with the version after @ where there is one."""
    return [line.split()[-1] for line in run("nm", "-D", kind, str(module)).splitlines()]


def check(module):
    """The module exports what Python looks for and nothing else."""
    exported = symbols(module, "--defined-only")
    if exported != ["PyInit__native"]:
        raise BuildFailed(f"the extension module exports {exported}")


def platform_of(module):
    """The platform of a wheel's tag: manylinux, if the module needs a glibc, and none newer than OLDEST_LIBC.

    A module without symbols of glibc is linked with another C library, such as musl, for which no manylinux is.
    """
    own = re.sub(r"\W", "_", sysconfig.get_platform())
    found = [re.search(r"@+GLIBC_([\d.]+)$", symbol) for symbol in symbols(module, "--undefined-only")]
    versions = [tuple(map(int, one[1].split("."))) for one in found if one]
    is_old = versions and max(versions) <= OLDEST_LIBC
    return "manylinux_2_17_x86_64" if own == "linux_x86_64" and is_old else own


def compiled(module):
    """Compiles the extension module, and returns the tag of its wheel."""
    python = interpreter()
    require(compiler()[0], "gcc")
    require("nm", "binutils")
    with tempfile.TemporaryDirectory() as room:
        link(headers(), library(Path(room)), module)
    check(module)
    return f"{python}-{python}-{platform_of(module)}"


def package():
    """The files of the package, except the extension module."""
    return sorted(path for path in PACKAGE.iterdir() if path.suffix in (".py", ".pyi", ".typed"))


def information(tag):
    """The files that describe a wheel, except its record."""
    return {
        f"{INFORMATION}/METADATA": metadata(),
        f"{INFORMATION}/WHEEL": WHEEL.format(tag=tag).encode(),
        f"{INFORMATION}/licenses/LICENSE": (TOP / "LICENSE").read_bytes(),
    }


def record(contents):
    """The digest and the size of each file, as RECORD has them."""
    lines = []
    for name, content in contents.items():
        digest = base64.urlsafe_b64encode(hashlib.sha256(content).digest()).rstrip(b"=").decode()
        lines.append(f"{name},sha256={digest},{len(content)}\n")
    return "".join(lines) + f"{INFORMATION}/RECORD,,\n"


def pack(contents, wheel):
    """Writes the files uncompressed, with one date and one mode."""
    with zipfile.ZipFile(wheel, "w", zipfile.ZIP_STORED) as archive:
        for name, content in contents.items():
            entry = zipfile.ZipInfo(name, DATE)
            entry.create_system = 3
            entry.external_attr = (0o100755 if name.endswith(".so") else 0o100644) << 16
            archive.writestr(entry, content)


def write_wheel(folder, tag, contents):
    """Writes a wheel with these files and those that describe it, and returns its name."""
    contents = dict(sorted({**contents, **information(tag)}.items()))
    contents[f"{INFORMATION}/RECORD"] = record(contents).encode()
    name = f"nanorand-{VERSION}-{tag}.whl"
    pack(contents, Path(folder) / name)
    return name


def build_wheel(wheel_directory, config_settings=None, metadata_directory=None):
    """Builds the wheel in a folder and returns its name."""
    with tempfile.TemporaryDirectory() as room:
        module = Path(room) / MODULE
        tag = compiled(module)
        contents = {f"nanorand/{path.name}": path.read_bytes() for path in [*package(), module]}
    return write_wheel(wheel_directory, tag, contents)


def linked(module):
    """The folder of an editable installation: it has the extension module, and links to the files of the package."""
    folder = HERE / "dist/editable" / interpreter()
    shutil.rmtree(folder, ignore_errors=True)
    (folder / "nanorand").mkdir(parents=True)
    shutil.copy(module, folder / "nanorand")
    for path in package():
        (folder / "nanorand" / path.name).symlink_to(path)
    return folder


def build_editable(wheel_directory, config_settings=None, metadata_directory=None):
    """Builds the wheel of an editable installation, which only adds a folder to the path, and returns its name."""
    with tempfile.TemporaryDirectory() as room:
        module = Path(room) / MODULE
        tag = compiled(module)
        folder = linked(module)
    return write_wheel(wheel_directory, tag, {"nanorand.pth": os.fsencode(f"{folder}\n")})


def sources():
    """The name of each file of the source distribution, and its bytes."""
    found = {"PKG-INFO": metadata()}
    for pattern in SOURCES:
        paths = [path for path in TOP.glob(pattern) if path.is_file()]
        if not paths:
            raise BuildFailed(f"a source distribution is built in the repository: {TOP} has no {pattern}")
        found.update({path.relative_to(TOP).as_posix(): path.read_bytes() for path in paths})
    return dict(sorted(found.items()))


def build_sdist(sdist_directory, config_settings=None):
    """Builds the source distribution in a folder and returns its name."""
    folder, content = f"nanorand-{VERSION}", io.BytesIO()
    with tarfile.open(fileobj=content, mode="w", format=tarfile.PAX_FORMAT) as archive:
        for name, text in sources().items():
            entry = tarfile.TarInfo(f"{folder}/{name}")
            entry.size, entry.mtime = len(text), TIME
            entry.mode = 0o755 if text.startswith(b"#!/") else 0o644
            archive.addfile(entry, io.BytesIO(text))
    # The header of gzip has no name and no time.
    with open(Path(sdist_directory) / f"{folder}.tar.gz", "wb") as file:
        with gzip.GzipFile("", "wb", fileobj=file, mtime=0) as packed:
            packed.write(content.getvalue())
    return f"{folder}.tar.gz"
