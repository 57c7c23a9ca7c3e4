"""How a tool ends at an interrupt: with one line, and with nothing left behind."""

import contextlib
import ctypes
import os
import signal
import sys
import time

# The status of a tool that an interrupt ended, as shells give it.
INTERRUPTED = 130
SIGNALS = (signal.SIGINT, signal.SIGTERM, signal.SIGHUP)
# The number of Linux's call that makes a process the parent of its descendants whose own parent ends.
PR_SET_CHILD_SUBREAPER = 36
# Set for what a tool starts: a tool below another one has to end before that one kills it.
BELOW = "PAFJIRN_TOOL_BELOW"
IS_BELOW = BELOW in os.environ
# The seconds after which processes that go on are asked to end, after which they are killed, and after which
# the search for them is given up.
ASKED, KILLED, GIVEN_UP = (0.5, 1.5, 3) if IS_BELOW else (1, 5, 10)


def status_line(number):
    """What the system says of a process: its state, its parent, and its times; or nothing if it ended."""
    with contextlib.suppress(OSError), open(f"/proc/{number}/stat", encoding="utf-8", errors="replace") as it:
        # (the program's name, in brackets, may have blanks)
        return it.read().rpartition(")")[2].split()
    return []


def processes_below(top):
    """What the system says of each process that a process started, and that these started, by its number."""
    said = {int(it): status_line(it) for it in os.listdir("/proc") if it.isdigit()}
    children = {}
    for number, words in said.items():
        if words and words[0] != "Z":
            children.setdefault(int(words[1]), []).append(number)
    found, left = {}, [top]
    while left:
        more = children.get(left.pop(), [])
        found.update((it, said[it]) for it in more)
        left += more
    return found


def seconds_below(top):
    """The seconds of processors that the processes below a process have taken."""
    ticks = sum(sum(map(int, it[11:15])) for it in processes_below(top).values())
    return ticks / os.sysconf("SC_CLK_TCK")


def end_all_below():
    """Ends all processes that this one started, and that these started. Ctrl-C interrupts them too, so they
    have some seconds to tidy up."""
    start, asked, passed = time.monotonic(), set(), 0
    # (a process may start another one while it is looked for)
    while (found := processes_below(os.getpid())) and passed < GIVEN_UP:
        passed = time.monotonic() - start
        for it in found if passed > ASKED else ():
            with contextlib.suppress(ProcessLookupError):
                if passed > KILLED:
                    os.kill(it, signal.SIGKILL)
                elif it not in asked:
                    os.kill(it, signal.SIGTERM)
                    asked.add(it)
        time.sleep(0.02)


def interrupted(number, _):
    """Ends what this process started before the blocks are left that remove temporary folders."""
    for it in SIGNALS:
        signal.signal(it, signal.SIG_IGN)
    end_all_below()
    raise KeyboardInterrupt


def interruptible(name, main, *words):
    """The status of main, which is the tool of this name. If an interrupt ends it, all processes that it
    started end, the blocks that it is in remove their temporary folders, and a line of the topmost tool says
    so."""
    os.environ[BELOW] = "1"
    ctypes.CDLL(None).prctl(PR_SET_CHILD_SUBREAPER, 1, 0, 0, 0)
    for it in SIGNALS:
        # (a job in the background may ignore it)
        if signal.getsignal(it) != signal.SIG_IGN:
            signal.signal(it, interrupted)
    try:
        return main(*words)
    except KeyboardInterrupt:
        # (nobody may be there to read it)
        with contextlib.suppress(OSError):
            print(end="" if IS_BELOW else f"{name}: interrupted\n", file=sys.stderr, flush=True)
        return INTERRUPTED
