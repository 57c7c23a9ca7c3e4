"""The archive of the C library, which is proved: how it is built, or taken from what this machine keeps.

The archive also has the module of which its machine code is compiled, `module.bc.gz`, where it was built over
the libraries that `rt ci` proved. So a build for WebAssembly needs no proof of its own (tools/build-wasm).
"""

import contextlib
import gzip
import os
import shlex
import subprocess
import sys
import tempfile

from shared.checking import crates_of
from shared.compiling import toolchain_with
from shared.exports import LIBRARY
from shared.kit import TOP, kit_folder
from shared.proved_libraries import Archive, NotProved, over_proved_libraries

CRATE = os.path.join(TOP, "crates", LIBRARY)
ARCHIVE = os.path.join(CRATE, "out/libkb_c.a")
# The checksum of the kit and of all sources from which the archive was built.
STAMP = ARCHIVE + ".stamp"
MODULE = "module.bc.gz"
CLANG = """\
#!/bin/sh
# clang, except that the module of the archive is kept.
case " $* " in
*" -c -x ir module.bc -o module.o "*) gzip -9c module.bc >{module} || exit ;;
esac
exec {kit}/bin/clang "$@"
"""


def is_built(stamp):
    """Whether the archive exists, built from the sources with this checksum."""
    with contextlib.suppress(OSError), open(STAMP, encoding="utf-8") as text:
        return text.read() == stamp and os.path.exists(ARCHIVE)
    return False


def has_module():
    """Whether the archive has its module."""
    members = subprocess.run(["ar", "t", ARCHIVE], capture_output=True, text=True, check=True)
    return MODULE in members.stdout.split()


def module():
    """The module of the archive."""
    packed = subprocess.run(["ar", "p", ARCHIVE, MODULE], capture_output=True, check=True)
    return gzip.decompress(packed.stdout)


def compile_library(say, is_over_gate, needs_module=False):
    """Proves and compiles the archive, or takes one that was built from the same sources. Returns the
    status. An archive with its module can be built over the libraries of `rt ci` alone."""
    crate = next(it for it in crates_of(TOP) if it.name == LIBRARY)
    archive = Archive(crate)
    is_enough = lambda: not needs_module or has_module()
    if is_built(archive.own) and is_enough():
        say("the library was built before: linking, which takes seconds")
        return 0
    os.makedirs(os.path.dirname(ARCHIVE), exist_ok=True)
    with contextlib.suppress(FileNotFoundError):
        os.remove(STAMP)
    if archive.give(ARCHIVE) and is_enough():
        say("this machine keeps a library from these sources: linking, which takes seconds")
    else:
        status = prove_and_compile(say, crate, is_over_gate or needs_module)
        if status:
            return status
        archive.keep(ARCHIVE)
    with open(STAMP, "w", encoding="utf-8") as text:
        text.write(archive.own)
    return 0


def prove_and_compile(say, crate, is_over_gate):
    """Proves and compiles the crate over the libraries that `rt ci` proved, or with all crates below it."""
    rooms = os.path.join(TOP, ".rt")
    os.makedirs(rooms, exist_ok=True)
    # (only the prefix goes to standard output)
    how = {"cwd": CRATE, "stdout": sys.stderr}
    with tempfile.TemporaryDirectory(dir=rooms, prefix="libraries-") as room:
        libraries, kept = os.path.join(room, "libraries"), os.path.join(room, MODULE)
        os.mkdir(libraries)
        try:
            words = over_proved_libraries(crate, libraries).words(["--jobs", "2"], keeps=False)
        except NotProved as name:
            lacking = "rt ci has not proved %s on this machine, from these sources" % name
            if is_over_gate:
                say(lacking + ": run rt ci")
                return 1
            say("proving and compiling kb_c and all crates below it, in some forty minutes (%s)" % lacking)
            return subprocess.call(["rt", "lib"], **how)
        say("proving and compiling kb_c over what rt ci has proved, which takes some minutes")
        kit = kit_folder()
        clang = CLANG.format(module=shlex.quote(kept), kit=shlex.quote(kit + "/toolchain"))
        words += ["--toolchain", toolchain_with(clang, room), "--backend", "llvm", "-o", ARCHIVE]
        status = subprocess.call([kit + "/bin/rattle", "build", *words], **how)
        return status or subprocess.call(["ar", "r", ARCHIVE, kept], **how)
