"""Where this repository and the toolchain are, and what crates.txt lists."""

import dataclasses
import functools
import os
import re
import shutil
import sys

TOP = os.path.dirname(os.path.dirname(os.path.dirname(os.path.abspath(__file__))))
GROUP = re.compile(r"# ([\w ]+):")


@functools.cache
def kit_folder():
    """The folder of the toolchain that the command `rt` on the PATH belongs to."""
    command = shutil.which("rt")
    if command is None:
        sys.exit("the toolchain's command rt isn't on the PATH")
    return os.path.dirname(os.path.dirname(os.path.realpath(command)))


@dataclasses.dataclass(frozen=True)
class Listed:
    """A crate in crates.txt."""

    name: str
    # Such as `staticlib`, or an empty text for a library or a program.
    kind: str
    # The crates and the toolchain's libraries that it uses.
    uses: tuple
    # The first words of the comment above its group, such as `Tests`.
    group: str

    @property
    def folder(self):
        return os.path.join(TOP, "crates", self.name)


@functools.cache
def listed():
    """The crates of crates.txt by their names, in its order."""
    found, group = {}, ""
    with open(os.path.join(TOP, "crates.txt"), encoding="utf-8") as lines:
        for line in lines:
            if comment := GROUP.match(line):
                group = comment[1]
            head, colon, uses = line.partition("#")[0].partition(":")
            if colon:
                name, *kind = head.split()
                found[name] = Listed(name, " ".join(kind), tuple(uses.split()), group)
    return found


@functools.cache
def names_below(name):
    """The crates and the toolchain's libraries below a crate, the lowest first."""
    found = []
    for it in listed()[name].uses if name in listed() else ():
        found += [below for below in (*names_below(it), it) if below not in found]
    return found
