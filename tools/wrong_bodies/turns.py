"""The order in which the gate tries the wrong bodies of crates in parallel to rt ci, and the time limit.

The wrong bodies of a crate are tried once rt ci has reported that the crate is proved. Of the crates that are
ready, those that the commit changes come first, then those that depend on them, then the others. The order of
the others begins at another crate for each commit, so that each crate comes first at some commit even if the
time never suffices for all. Edits that were refused in an earlier run on this machine are not tried again
(kept.py). Once the time is up, no check begins. Edits that were not tried are counted, and don't fail the
gate. A fault of this tool or an error of the operating system fails each edit of the crate; the message names
it.
"""

import concurrent.futures
import os
import queue
import re
import subprocess
import time
import traceback

from shared.checking import rt
from shared.kit import TOP
from wrong_bodies.kept import Kept
from wrong_bodies.trying import Limit, Tried, are_refused, crates_with_edits, say, try_crate, work_of

# The line of rt ci for a crate that it has proved, or that an earlier run on this machine proved.
PROVED = re.compile(r"^rt: (\w+) (?:proved$|is kept: )")


def git(*words, top=TOP):
    """The output of git, or an empty text if it fails."""
    try:
        how = {"stdin": subprocess.DEVNULL, "capture_output": True, "text": True}
        ran = subprocess.run(["git", *words], cwd=top, check=False, **how)
    except OSError:
        return ""
    return "" if ran.returncode else ran.stdout.strip()


def landed_before(git):
    """The commit that landed before this one: where this one branched off the main line, or else its parent,
    or an empty text."""
    head = git("rev-parse", "HEAD")
    bases = [git("merge-base", "HEAD", it) for it in ("origin/main", "main")]
    return next((it for it in bases if it and it != head), "") or git("rev-parse", "-q", "--verify", "HEAD~1")


def changed_crates(git):
    """The names of the crates that changed since the commit that landed before, or none if it is unknown."""
    base = landed_before(git)
    files = git("diff", "--name-only", base, "--", "crates").split("\n") if base else []
    return {it.split("/")[1] for it in files if it.count("/") > 1}


def turns_of(crates, changed, commit):
    """For each crate its turn: 0 if it changed, 1 if a crate below it changed, and otherwise a number of at
    least 2 that depends on the commit."""
    names = sorted(it.name for it in crates)
    first = int(commit[:8] or "0", 16) % max(1, len(names))
    turns = {name: 2 + (at - first) % len(names) for at, name in enumerate(names)}
    for it in crates:
        if it.name in changed:
            turns[it.name] = 0
        elif changed & {below.name for below in it.below()}:
            turns[it.name] = 1
    return turns


def try_what_is_new(crate, functions, edits, before, limit):
    """Tries those edits of a proved crate that were not refused in an earlier run with the same files."""
    known = before.refused()
    found = [Tried(it, True, text) for it, text in known.items()]
    if known:
        counts = f"{len(known)} of its {len(edits)} edits"
        say(f"{crate.name}: {counts} were refused in an earlier run on this machine, of the same files")
    left = [it for it in edits if it not in known]
    if left:
        tried = try_crate(crate, functions, left, is_proved=True, limit=limit)
        before.keep(tried)
        found += tried
    return found


def try_or_name_the_fault(crate, functions, edits, before, limit, pause=60):
    """Tries the new edits of a crate. After an error of the operating system it tries them once more, after a
    pause in seconds. A fault that remains fails each edit of the crate; the message names it."""
    for is_second in (False, True):
        try:
            return try_what_is_new(crate, functions, edits, before, limit)
        except Exception as error:
            at = traceback.extract_tb(error.__traceback__)[-1]
            what = f"{type(error).__name__} at {at.name}, line {at.lineno}: {error}"
            say(f"{crate.name}: {what}")
            if is_second or not isinstance(error, OSError):
                return [Tried(it, False, what) for it in edits]
            time.sleep(pause)


def try_ready(ready, limit):
    """Tries the edits of crates as they become ready, one crate after another, until the queue gives None."""
    found = []
    while (it := ready.get()[-1]) is not None:
        found += try_or_name_the_fault(*it, limit)
    return found


def be_idle():
    """Makes the checks of this thread run only while rt ci leaves a processor idle."""
    os.sched_setscheduler(0, os.SCHED_IDLE, os.sched_param(0))


def try_as_proved(crates, lines, at=None, limit=None, git=git):
    """Tries the wrong bodies of each crate once these lines of rt ci report that the crate is proved.

    It prints the lines too. The folder `at`, if there is one, has the results that runs keep.
    """
    limit, turns = limit or Limit(), turns_of(crates, changed_crates(git), git("rev-parse", "HEAD"))
    waiting = {it[0].name: (*it, Kept(it[0], it[2], at)) for it in crates_with_edits(crates)}
    ready, proved = queue.PriorityQueue(), set()
    with concurrent.futures.ThreadPoolExecutor(rt.processors(), initializer=be_idle) as pool:
        lanes = [pool.submit(try_ready, ready, limit) for _ in range(rt.processors())]
        try:
            for line in lines:
                say(line.rstrip("\n"))
                names = PROVED.findall(line)
                proved.update(names)
                for name, (crate, functions, edits, before) in [*waiting.items()] if names else []:
                    if {name, *(it.name for it in crate.below())} <= proved:
                        del waiting[name]
                        task = (crate, functions, edits, before)
                        ready.put((turns[name], -work_of(crate, edits), name, task))
        finally:
            for number in range(len(lanes)):
                # (after everything else in the queue)
                ready.put((len(crates) + 2, 0, str(number), None))
    found = [it for lane in lanes for it in lane.result()]
    unproved = [it for _, _, edits, _ in waiting.values() for it in edits]
    return are_refused([*found, *(Tried(it, False, "the crate is not proved") for it in unproved)])
