"""The toolchain's rt as a module, the crates of a repository as rt has them, and checks of them.

It may need a change when the toolchain changes.
"""

import contextlib
import copy
import importlib.machinery
import importlib.util
import os
import shutil
import subprocess
import sys
import tempfile

from shared.kit import kit_folder


def load_rt():
    loader = importlib.machinery.SourceFileLoader("rt", os.path.join(kit_folder(), "bin", "rt"))
    module = importlib.util.module_from_spec(importlib.util.spec_from_loader("rt", loader))
    sys.modules["rt"] = module
    loader.exec_module(module)
    return module


rt = load_rt()


def crates_of(top):
    """The crates that a repository's crates.txt names, lowest first."""
    # (its first call installs a signal handler, which only the main thread may do)
    rt.rtlib.guarded()
    return sorted(rt.rtlib.crates_below(top), key=lambda it: len(it.below()))


def built_from_nothing(crate):
    """Whether rt ci built the crate's library, from the present sources.

    rt ci leaves no stamp. A library that was built from kept work is marked, and one that is older than a
    source was built from other sources.
    """
    form = os.path.join(crate.rlib, "format")
    if os.path.exists(os.path.join(os.path.dirname(crate.rlib), "stamp")) or not os.path.isfile(form):
        return False
    with open(form, encoding="utf-8") as lines:
        if "incremental\n" in lines:
            return False
    sources = [file for it in [crate, *crate.below()] for file in rt.rtlib.files_of(it.folder)]
    return all(os.path.getmtime(file) < os.path.getmtime(form) for file in sources)


def built_libraries(crates):
    """Builds the missing libraries below these crates. Returns whether all of them exist then.

    The libraries that rt ci built are used all together or not at all, since statements fit only the
    libraries over which they were built.
    """
    libraries = list(dict.fromkeys(dep for crate in crates for dep in crate.below()))
    if all(built_from_nothing(it) for it in libraries):
        return True
    tasks = {}
    for library in sorted(libraries, key=lambda it: len(it.below())):
        waits = [(dep.name, "library") for dep in library.below()]
        build = lambda given, jobs, it=library: it.build_rlib(["--jobs", "1"], anew=False) == 0
        tasks[library.name, "library"] = (waits, library.count(rb"\n"), rt.need(library), build)
    return all(rt.in_lanes(tasks).values())


@contextlib.contextmanager
def room_with(crate, texts):
    """A copy of the crate in its own folder, with these texts, and without the files whose text is None."""
    with tempfile.TemporaryDirectory(prefix="wrong-bodies-", ignore_cleanup_errors=True) as folder:
        for part in rt.rtlib.PARTS:
            if os.path.isdir(os.path.join(crate.folder, part)):
                shutil.copytree(os.path.join(crate.folder, part), os.path.join(folder, part))
        for path, text in texts.items():
            file = os.path.join(folder, path)
            if text is None:
                os.remove(file)
                continue
            os.makedirs(os.path.dirname(file), exist_ok=True)
            with open(file, "w", encoding="utf-8") as own:
                own.write(text)
        room = copy.copy(crate)
        room.folder = folder
        yield room


def check(crate, folder, flags, kept, seconds=None):
    """Checks the files in this folder as those of the crate, with a folder of kept work and a time limit."""
    words = [rt.rtlib.RATTLE, "check", *crate.words(flags, keeps=False), "--incremental", kept]
    how = {"stdin": subprocess.DEVNULL, "stdout": subprocess.PIPE, "stderr": subprocess.STDOUT}
    return subprocess.run([*rt.rtlib.guarded(), *words], cwd=folder, timeout=seconds, errors="replace", **how)
