"""The results of earlier runs on this machine that tried wrong bodies.

An edit that was refused counts as refused again if the edit, its crate, the crates below, the toolchain and
this tool are the same. The result of the tool's own tests is kept in the same way. Nothing else is kept: an
edit that was not refused, or only because a proof names what it took away, is tried again. Each edit has a
file, so an interrupted run keeps what it finished.
"""

import contextlib
import functools
import hashlib
import json
import modulefinder
import os

from shared.checking import rt
from shared.keeping import kept_folder, whole_file
from shared.kit import TOP

TOOLS = os.path.join(TOP, "tools")
# The command with its tests, and the module that tries edits.
WHOLE, TRYING = os.path.join(TOOLS, "wrong-bodies"), os.path.join(TOOLS, "wrong_bodies/turns.py")


def sum_of(files, total=""):
    """A checksum of these files, of their paths below the top, and of another checksum."""
    made = hashlib.sha256(total.encode())
    for file in files:
        with open(file, "rb") as text:
            made.update(repr((os.path.relpath(file, TOP), text.read())).encode())
    return made.hexdigest()


@functools.cache
def files_of(start):
    """A Python file of tools/, and all files of tools/ that it imports."""
    finder = modulefinder.ModuleFinder([TOOLS])
    finder.run_script(start)
    return sorted(it.__file__ for it in finder.modules.values() if it.__file__)


def sum_of_tool():
    """A checksum of the toolchain and of the whole tool, with its tests."""
    return sum_of(files_of(WHOLE), rt.kit_sum())


def sums_of(crate, edits):
    """For each edit the checksum of everything that its trial reads."""
    judging = sum_of(files_of(TRYING), rt.stamp_of(crate, {}))
    sum_with = lambda it: hashlib.sha256(repr((judging, it.name, sum_of([it.file]))).encode()).hexdigest()
    return {it: sum_with(it) for it in edits}


class Passed:
    """Whether something passed on this machine, by a checksum of everything that it reads."""

    def __init__(self, name, total):
        self.at, self.name = kept_folder(), f"{name}-{total}"

    def is_kept(self):
        return bool(self.at) and os.path.isfile(os.path.join(self.at, self.name))

    def keep(self):
        with contextlib.suppress(OSError):
            if self.at:
                with whole_file(self.at, self.name):
                    pass


class Kept:
    """The kept results of a crate's edits, by the checksums at the time when this object is made."""

    def __init__(self, crate, edits, at):
        self.crate, self.edits, self.at = crate, edits, at
        self.sums = sums_of(crate, edits) if at else {}

    def refused(self):
        """The edits that were refused in an earlier run, each with the text of its result."""
        found = {}
        for edit, name in self.sums.items():
            with contextlib.suppress(OSError, ValueError, KeyError, TypeError):
                with open(os.path.join(self.at, name), encoding="utf-8") as file:
                    said = json.load(file)
                if said["sum"] == name and isinstance(said["text"], str):
                    found[edit] = said["text"]
        return found

    def keep(self, found):
        """Keeps which edits were just refused, unless a file that their trial reads has changed since."""
        with contextlib.suppress(OSError):
            if not self.at or sums_of(self.crate, self.edits) != self.sums:
                return
            for it in found:
                if it.is_refused and not it.says_little:
                    name = self.sums[it.edit]
                    with whole_file(self.at, name) as file:
                        file.write(json.dumps({"sum": name, "text": it.text}).encode())
