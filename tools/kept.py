"""Says which mutants passed before, so that a later run does not try them again: those of a crate in its record, which
is committed, and single ones in a folder of this machine."""

import contextlib
import hashlib
import os
import time
from pathlib import Path

import crates
from edits import edits_of

TOOLS = ("crates.py", "definitions.py", "edits.py", "kept.py", "mutants.py", "rattle.py")
PARTS = ("src", "specs", "proofs")
# The record of a crate, in its folder.
RECORD = "mutants/passed.txt"
HEAD = "# Written by `tools/mutants.py --record`. While the sum fits, the mutants are not tried again.\n"
# An entry that was not used for 30 days is removed.
UNUSED = 30 * 24 * 60 * 60


def folder():
    """The folder of the entries: $KEPT, or else nanorand/mutants in the user's cache. If $KEPT is empty, there is
    none."""
    cache = os.environ.get("XDG_CACHE_HOME") or Path.home() / ".cache"
    named = os.environ.get("KEPT", Path(cache) / "nanorand/mutants")
    return Path(named) if named else None


class Kept:
    """The mutants of a crate that passed. Each has an entry, which is named by the checksum of what its check depends
    on: the kit's logic, these scripts, the sources of the crate and, in the checkout that proved them, of the libraries
    below it, whether stored answers are left out, and the mutant itself. If one of these changes, the entry is not
    found. The record has the checksum of the entries of all mutants of the crate."""

    def __init__(self, crate, proved, anew):
        self.crate, self.proved, self.anew, self.folder = crate, proved, anew, folder()
        self.sum = self.current_sum()

    def current_sum(self):
        """The checksum of what the checks of all mutants of the crate read."""
        everything = crates.crates()
        digest = hashlib.sha256(repr((self.anew, crates.logic())).encode())
        for name in TOOLS:
            digest.update(Path(__file__).with_name(name).read_bytes())
        for name in (self.crate.name, *crates.below(self.crate.name, everything)):
            if name in everything:
                digest.update(everything[name].line().encode())
                add_files(digest, self.crate if name == self.crate.name else self.proved / "crates" / name)
        return digest.hexdigest()

    def entry(self, edit):
        """The name of a mutant's entry."""
        changes = (self.sum, edit.name, edit.refused, edit.changes)
        return hashlib.sha256(repr(changes).encode()).hexdigest()

    def record(self):
        """The record that all mutants of the crate passed."""
        entries = [self.entry(edit) for edit in edits_of(self.crate)]
        return f"{HEAD}{len(entries)} mutants, sum {hashlib.sha256(repr(entries).encode()).hexdigest()}\n"

    def is_recorded(self):
        path = self.crate / RECORD
        return path.is_file() and path.read_text(encoding="utf-8") == self.record()

    def write_record(self, tried):
        """Writes the record, unless these are not all mutants of the crate, or a file changed since this object was
        made."""
        if self.sum == self.current_sum() and list(tried) == list(edits_of(self.crate)):
            (self.crate / RECORD).write_text(self.record(), encoding="utf-8")
        else:
            print(f"note: {self.crate.name} is not recorded, as files changed while its mutants were tried", flush=True)

    def has(self, edit):
        """Whether this mutant passed in an earlier run. Its entry then counts as used now."""
        if self.folder is None:
            return False
        try:
            os.utime(self.folder / self.entry(edit))
        except OSError:
            return False
        return True

    def add(self, edits):
        """Keeps that these mutants passed, unless a file changed since this object was made."""
        if self.folder is None or self.sum != self.current_sum():
            return
        try:
            self.folder.mkdir(parents=True, exist_ok=True)
            for edit in edits:
                (self.folder / self.entry(edit)).touch()
            self.remove_unused()
        except OSError as error:
            print(f"note: what passed is not kept: {error}", flush=True)

    def remove_unused(self):
        for path in self.folder.iterdir():
            with contextlib.suppress(FileNotFoundError):
                if path.stat().st_mtime < time.time() - UNUSED:
                    path.unlink()


def add_files(digest, crate):
    """Adds the names and bytes of what a check of the crate reads."""
    for path in sorted(path for part in PARTS for path in crate.glob(f"{part}/**/*") if path.is_file()):
        digest.update(repr((str(path.relative_to(crate)), path.read_bytes())).encode())
