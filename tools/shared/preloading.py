"""Runs programs with a library of tools/preload, which refuses allocations or shortens reads and writes."""

import concurrent.futures
import contextlib
import os
import subprocess
import tempfile

from shared.kit import TOP

PROCESSORS = len(os.sched_getaffinity(0))


def built_library(name, folder):
    """The environment that preloads the library of this name, which the C compiler builds in a folder."""
    library = os.path.join(folder, f"{name}.so")
    source = os.path.join(TOP, "tools/preload", f"{name}.c")
    compiler = os.environ.get("CC", "cc")
    subprocess.run([compiler, "-O2", "-shared", "-fPIC", "-o", library, source, "-ldl"], check=True)
    return {"LD_PRELOAD": library}


def counted_run(run, preloaded):
    """What a run returns that is given this environment, and the number of its allocations."""
    with tempfile.TemporaryDirectory() as folder:
        path = os.path.join(folder, "count")
        complete = run({**os.environ, **preloaded, "COUNT_ALLOCATIONS": path})
        # (a program that is killed writes no number)
        with contextlib.suppress(FileNotFoundError), open(path, encoding="ascii") as file:
            return complete, int(file.read())
    return complete, 0


def refused_runs(run, preloaded, numbers):
    """For each of these allocations its number, and what a run returns in which it is refused."""
    refuse = lambda it: run({**os.environ, **preloaded, "REFUSE_ALLOCATION": str(it)})
    with concurrent.futures.ThreadPoolExecutor(PROCESSORS) as pool:
        yield from zip(numbers, pool.map(refuse, numbers))
