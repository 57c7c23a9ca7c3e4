"""Runs a script as keyrun does, with the Python module: the same arguments and the same output.

    python3 hosts/python/play.py [--platform P] [--layout F] [--defaults F] [--user F] [--script F] [DIR]..
    python3 hosts/python/play.py [--platform P] [--layout F] [--defaults F] [--user F] --press N KEY [DIR]..

With --press it runs no script: it presses the key N times, at least once, and prints the time of a press
and the memory. The status is 0; 2 for wrong arguments; 3 if a file cannot be read, the load is refused or
there is no library; 4 if the session stops, or the script or the output fails; 5 if a handler traps."""

from __future__ import annotations

import argparse
import pathlib
import sys
import time

from pafjirn import Engine, EngineError
from pafjirn.command_line import Stop, add_files, parser, status_of


def read_words() -> argparse.Namespace:
    options = parser("play.py")
    about = "the script: standard input if absent"
    options.add_argument("--script", type=pathlib.Path, metavar="F", help=about)
    options.add_argument("--press", nargs=2, metavar=("N", "KEY"), help="press KEY N times instead")
    words = options.parse_args()
    if words.press and not (words.press[0].isdecimal() and int(words.press[0]) > 0):
        options.error(f"--press {words.press[0]}: give a number of presses of at least 1")
    return words


def read_script(path: pathlib.Path | None) -> list[bytes]:
    """The lines of a script. A line may end with a carriage return and a line feed."""
    try:
        script = path.read_bytes() if path else sys.stdin.buffer.read()
    except (FileNotFoundError, PermissionError):
        raise Stop(f"cannot read {path}", 3) from None
    except OSError:
        raise Stop("script: read failed", 4) from None
    *ended, last = script.split(b"\n")
    return [it.removesuffix(b"\r") for it in ended] + [last]


def most_memory() -> int:
    """The peak memory of this process in kB, or -1 if the system doesn't report it."""
    try:
        lines = pathlib.Path("/proc/self/status").read_text(encoding="ascii", errors="replace").splitlines()
    except OSError:
        return -1
    return next((int(line.split()[1]) for line in lines if line.startswith("VmHWM:")), -1)


def press_often(engine: Engine, presses: int, key: bytes) -> None:
    """Presses a key this many times, and reads the trace of each press."""
    for _ in range(presses):
        engine.press_quietly(key)
        engine.trace()


def press(engine: Engine, presses: int, key: str) -> str:
    """Presses a key this many times. Returns a line with the time of a press, and the memory after a tenth of
    the presses and after all."""
    tenth = (presses + 9) // 10
    start = time.perf_counter()
    press_often(engine, tenth, key.encode())
    early = most_memory()
    press_often(engine, presses - tenth, key.encode())
    each = (time.perf_counter() - start) * 1e6 / presses
    memory = f"{early} kB behind a tenth, {most_memory()} kB behind all"
    return f"{presses} presses, {each:.3f} microseconds each, {memory}\n"


def run() -> None:
    """Loads the files, and runs the script or presses the key."""
    given = read_words()
    with Engine() as engine:
        add_files(engine, given)
        sys.stderr.write(engine.load())
        if given.press:
            sys.stdout.write(press(engine, int(given.press[0]), given.press[1]))
            return
        try:
            for record in engine.records(read_script(given.script)):
                sys.stdout.write(record.trace)
        except EngineError:
            sys.stdout.write(engine.trace())
            raise


if __name__ == "__main__":
    sys.exit(status_of(run))
