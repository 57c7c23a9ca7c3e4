"""What is compiled without a proof and kept in .rt/unproved: programs, and the C library.

A build is a folder with `program`, with a hard link to it by the name of each of its crates, since it runs
the one that it is called as, and with its object file `module.o`; with the C library it also has the module
of that, `module.bc`. Its file `sums` has, for each crate, a
checksum of everything that the crate is made of. So only the first run after a change compiles.
"""

import contextlib
import glob
import hashlib
import json
import os
import shutil
import sys
import tempfile
import time

from shared.kit import TOP, kit_folder, listed, names_below
from shared.progress import Line

FOLDER = os.path.join(TOP, ".rt", "unproved")
# How many builds of the same crates are kept.
KEPT = 2
# How the name of a folder begins in which a run compiles, and the seconds after which none does any more.
NEW, DAY = "new-", 24 * 3600
OWN = [os.path.join(TOP, "tools/shared", it) for it in ("compiling.py", "exports.py")]


def sum_of(crate):
    """A checksum of the toolchain, of the way a crate is compiled, and of its sources and those below it."""
    files = [os.path.join(kit_folder(), "KIT-ID"), os.path.join(TOP, "crates.txt"), *OWN]
    for name in (*names_below(crate), crate):
        if name in listed():
            files += sorted(glob.glob(os.path.join(listed()[name].folder, "src/**/*.rt"), recursive=True))
    total = hashlib.sha256()
    for file in files:
        with open(file, "rb") as text:
            total.update(repr((os.path.relpath(file, TOP), text.read())).encode())
    return total.hexdigest()[:32]


def folder_for_kept():
    """The folder for builds, or None if it can't be made."""
    with contextlib.suppress(OSError):
        os.makedirs(FOLDER, exist_ok=True)
        if os.access(FOLDER, os.W_OK):
            return FOLDER
    return None


def builds_in(folder):
    """The kept builds, the newest first, each with the checksums of its crates."""
    found = []
    for it in os.scandir(folder):
        sums = os.path.join(it.path, "sums")
        with contextlib.suppress(OSError, ValueError), open(sums, encoding="utf-8") as text:
            found.append((it.stat().st_mtime, it.path, json.load(text)))
    return [(path, sums) for _, path, sums in sorted(found, reverse=True)]


def kept(sums):
    """The folder of a kept build that has these crates with these checksums, or None."""
    for path, own in builds_in(FOLDER) if os.path.isdir(FOLDER) else []:
        if sums.items() <= own.items():
            with contextlib.suppress(OSError):
                os.utime(path)
            return path
    return None


def keep(made, sums, folder):
    """Moves a new build to its place, and removes all but the newest of these crates. Returns the place."""
    for name in sums:
        # (no symbolic link, since `rt ci` refuses a repository that has one)
        os.link(os.path.join(made, "program"), os.path.join(made, name))
    with open(os.path.join(made, "sums"), "w", encoding="utf-8") as text:
        json.dump(sums, text)
    place = os.path.join(folder, hashlib.sha256(repr(sorted(sums.items())).encode()).hexdigest()[:32])
    shutil.rmtree(place, ignore_errors=True)
    try:
        os.rename(made, place)
    except OSError:
        # (another run was faster)
        if not os.path.isdir(place):
            raise
    old = [path for path, own in builds_in(folder) if own.keys() == sums.keys()][KEPT:]
    # (and what a killed run left)
    rooms = [it for it in os.scandir(folder) if it.name.startswith(NEW)]
    old += [it.path for it in rooms if it.stat().st_mtime < time.time() - DAY]
    for it in old:
        shutil.rmtree(it, ignore_errors=True)
    return place


@contextlib.contextmanager
def build_of(crates, tool, what, say):
    """A build that has these crates, or None if they don't compile. The tool of this name then says why. If
    there is no such build yet, it first says this line, and shows on a terminal how far the compile is."""
    sums = {it: sum_of(it) for it in crates}
    place = kept(sums)
    if place:
        yield place
        return
    print(f"{tool}: {say}", file=sys.stderr, flush=True)
    # (only now, since it takes a while)
    from shared.compiling import NotCompiled, compile_crates

    folder = folder_for_kept()
    with tempfile.TemporaryDirectory(dir=folder, prefix=NEW) as room, Line() as line:
        try:
            made = compile_crates(crates, room, line, f"{tool}: compiling {what}")
        except NotCompiled as error:
            line.clear()
            print(f"{error}\n{tool}: the sources did not compile".strip(), file=sys.stderr)
            yield None
            return
        line.clear()
        place = keep(made, sums, folder or room)
        yield place
