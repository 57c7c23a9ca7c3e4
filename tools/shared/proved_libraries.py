"""The libraries that rt ci proved from these sources, and the archive of a static library built over them.

rt ci keeps each library on the machine, by a checksum of everything that its proof read. After its run,
crates/*/out may come from other sources, since rt restores what was there before.
"""

import contextlib
import copy
import os
import shutil

from shared.checking import built_from_nothing, rt
from shared.keeping import kept_folder, whole_file


class NotProved(Exception):
    """rt ci has not proved the library of this name on this machine, from the sources as they are."""


def copied(library, copies, folder=None):
    """A copy of a library over the copies of those below it, with its files in this folder, if one is
    given."""
    own = copies[library.name] = copy.copy(library)
    own.deps = [copies[it.name] for it in library.deps]
    if folder:
        own.folder, own.rlib = folder, os.path.join(folder, "out/rlib", library.name + ".rlib")
    return own


def over_proved_libraries(crate, room):
    """A copy of the crate that uses the libraries that rt ci keeps. Each gets a folder in this room.

    The room has to be empty: if rt can't write a file of a library, it regards the kept library as damaged
    and removes it. A library that isn't kept is taken from the out/ of its crate, where this run of rt ci
    made it.
    """
    proved, copies = rt.Kept(crate.below()), {}
    for library in crate.below():
        own = copied(library, copies, os.path.join(room, library.name))
        if not proved.give(own, False, proved.key(library)):
            if not built_from_nothing(library):
                raise NotProved(library.name)
            own.folder, own.rlib = library.folder, library.rlib
        proved.is_built(own)
    return copied(crate, copies)


class Archive:
    """The archive of a static library that a run on this machine built, by a checksum of the toolchain and of
    all sources."""

    # How many archives are kept. Older ones are removed.
    MOST = 2

    def __init__(self, crate):
        self.at, self.name = kept_folder(), f"lib{crate.name}-"
        self.own = f"{self.name}{rt.stamp_of(crate, {})}.a"

    def give(self, to):
        """Copies the archive to a path. Returns whether there was one."""
        try:
            shutil.copyfile(os.path.join(self.at or "", self.own), to)
        except OSError:
            return False
        return True

    def keep(self, archive):
        """Keeps an archive that was just built."""
        with contextlib.suppress(OSError):
            if not self.at:
                return
            with whole_file(self.at, self.own) as file, open(archive, "rb") as built:
                shutil.copyfileobj(built, file)
            found = [os.path.join(self.at, it) for it in os.listdir(self.at) if it.startswith(self.name)]
            for old in sorted(found, key=os.path.getmtime)[: -self.MOST]:
                os.remove(old)
