"""Measures runs of the built programs, and compares how they grow with the limits."""

import os
import re
import subprocess
import sys
import time

TOP = os.path.dirname(os.path.dirname(os.path.abspath(__file__)))
sys.path.append(os.path.join(TOP, "tools"))

from shared.programs import PROGRAMS

KEYRUN, RAWRUN, KEYCHECK = (PROGRAMS[name] for name in ("keyrun", "rawrun", "keycheck"))
# Short runs are repeated more often.
TRIES = 5
SHORT_TRIES = 20
# How many times the instructions and the time of a run may be those of the run of half its size.
GROWTH = 2.2
TIME_GROWTH = 3.5


def measure(words, out, tries=TRIES, program=KEYRUN, wanted=0):
    """The least seconds of processor time of `tries` runs, and the peak memory in bytes. Each run has to end
    with the wanted status."""
    seconds, memory = [], []
    quiet = {"stdin": subprocess.DEVNULL, "stderr": subprocess.DEVNULL}
    for _ in range(tries):
        with open(out, "wb") as target:
            child = subprocess.Popen([program] + words, stdout=target, **quiet)
            _, status, usage = os.wait4(child.pid, 0)
        child.returncode = os.waitstatus_to_exitcode(status)
        if child.returncode != wanted:
            sys.exit("bench: status %d of %s" % (child.returncode, words))
        seconds.append(usage.ru_utime + usage.ru_stime)
        memory.append(usage.ru_maxrss * 1024)
    return min(seconds), max(memory)


def measure_in_turns(runs, out, tries=SHORT_TRIES, program=KEYRUN):
    """The least seconds and the peak memory of each of these runs, by size. The runs alternate, so that each
    finds the caches as the largest one left them, and a busy moment of the machine affects only one try of
    each."""
    found = {}
    for _ in range(tries):
        for size, words in runs.items():
            seconds, memory = measure(words, out, 1, program)
            before = found.get(size, (seconds, memory))
            found[size] = min(seconds, before[0]), max(memory, before[1])
    return found


def counted(words, folder, program=KEYRUN):
    """The instructions that a run takes."""
    log = os.path.join(folder, "counted")
    valgrind = ["valgrind", "--tool=cachegrind", "--cache-sim=no", "--cachegrind-out-file=/dev/null"]
    quiet = {"stdin": subprocess.DEVNULL, "stdout": subprocess.DEVNULL, "stderr": subprocess.DEVNULL}
    status = subprocess.call([*valgrind, "--log-file=" + log, program, *words], **quiet)
    with open(log, encoding="utf-8") as file:
        found = re.search(r"I *refs: *([0-9,]+)", file.read())
    if status or not found:
        sys.exit("bench: status %d of %s by valgrind" % (status, words))
    return int(found[1].replace(",", ""))


def growths(numbers):
    """How many times each number is the one before it."""
    return [now / before for before, now in zip(numbers, numbers[1:])]


def exceeds_limit(folder, runs, found, program=KEYRUN):
    """Whether the number of instructions, or the time that was found, grows beyond its limit from one of
    these runs to the next. Prints how the instructions grow."""
    counts = growths([counted(words, folder, program) for words in runs.values()])
    print("  instructions grew %s times" % " and ".join("%.2f" % it for it in counts))
    times = growths([seconds for seconds, _ in found.values()])
    return any(it > GROWTH for it in counts) or any(it > TIME_GROWTH for it in times)


def exceeds_times(folder, runs, others, programs, most):
    """Whether the first program takes more than so many times the instructions of the second one, for a run
    and the other one of its size. Prints how many times."""
    first, second = programs
    found = [counted(it, folder, first) / counted(others[size], folder, second) for size, it in runs.items()]
    print("  by instructions: %s times" % ", ".join("%.2f" % it for it in found))
    return any(it > most for it in found)


def with_growth(found):
    """Yields for each size the seconds, the memory, and a text that says how time grew."""
    before = None
    for size, (seconds, memory) in found.items():
        yield size, seconds, memory, ", time grew %.2f times" % (seconds / before) if before else ""
        before = seconds


def doubled(folder, runs, text, tries=SHORT_TRIES, program=KEYRUN, counted_runs=None):
    """Measures these runs by their size, which doubles, and prints for each this text of its size and its
    seconds, and its peak memory. Returns whether a limit is exceeded. The instructions are those of
    `counted_runs`, if they are given."""
    found = measure_in_turns(runs, os.path.join(folder, "out"), tries, program)
    for size, seconds, memory, growth in with_growth(found):
        print(f"{text(size, seconds)}, {memory / 1e6:6.1f} MB peak{growth}")
    return exceeds_limit(folder, counted_runs or runs, found, program)


def peak_when_loaded(words):
    """The peak memory in bytes of a load alone, read while the program waits for its script. (The usage that
    the system reports at a child's end is at least the memory of this process, so it can't show a small
    peak.)"""
    quiet = {"stdout": subprocess.DEVNULL, "stderr": subprocess.DEVNULL}
    child = subprocess.Popen([KEYRUN] + words, stdin=subprocess.PIPE, **quiet)
    before = None
    while True:
        time.sleep(0.05)
        if child.poll() is not None:
            sys.exit("bench: the load ended with status %d" % child.returncode)
        with open("/proc/%d/stat" % child.pid) as file:
            fields = file.read().rsplit(")", 1)[1].split()
        now = (fields[0], fields[11], fields[12])
        if now[0] == "S" and now == before:
            break
        before = now
    with open("/proc/%d/status" % child.pid) as file:
        peak = next(int(line.split()[1]) * 1024 for line in file if line.startswith("VmHWM"))
    child.communicate(b"")
    return peak
