"""Command lines that name the files of an engine, as that of keyrun does. The prompt of this package has such
a command line, and so has hosts/python/play.py."""

from __future__ import annotations

import argparse
import io
import os
import pathlib
import sys
from collections.abc import Callable

from pafjirn import Engine, EngineError, File, LibraryNotFound, LoadRefused, Platform

__all__ = ["Stop", "add_files", "parser", "status_of"]

_PLATFORMS = {"linux": Platform.LINUX, "mac": Platform.MAC, "win": Platform.WINDOWS}
# The status for some answers of the engine, by their numbers in include/pafjirn.h. For any other it is 4.
_STATUSES = {10: 2, 103: 5}


class Stop(Exception):
    """The end of a run: a message with the reason, and the status."""

    def __init__(self, why: str, status: int) -> None:
        super().__init__(why)
        self.status = status


def parser(program: str, description: str | None = None) -> argparse.ArgumentParser:
    """A parser of the options that name files, and of the folders of extensions."""
    made = argparse.ArgumentParser(prog=program, description=description)
    made.add_argument("--platform", choices=_PLATFORMS, help="whose keys count in extensions: linux if absent")
    made.add_argument("--layout", type=pathlib.Path, metavar="F", help="the layout of the scopes")
    made.add_argument("--defaults", type=pathlib.Path, metavar="F", help="the default rules")
    made.add_argument("--user", type=pathlib.Path, metavar="F", help="the user's rules: a keybindings.json")
    made.add_argument("folders", nargs="*", type=pathlib.Path, metavar="DIR", help="an extension's folder")
    return made


def _read(path: pathlib.Path) -> bytes:
    """The bytes of a file."""
    try:
        return path.read_bytes()
    except OSError:
        raise Stop(f"cannot read {path}", 3) from None


def _read_if_there(path: pathlib.Path) -> bytes | None:
    """The bytes of a file, or None if there is no file."""
    try:
        return path.read_bytes()
    except FileNotFoundError:
        return None
    except OSError:
        raise Stop(f"cannot read {path}", 3) from None


def add_files(engine: Engine, given: argparse.Namespace) -> None:
    """Passes the files that the arguments name to the engine. Raises Stop if one can't be read."""
    if given.platform:
        engine.platform(_PLATFORMS[given.platform])
    for file, path in [(File.LAYOUT, given.layout), (File.DEFAULTS, given.defaults), (File.USER, given.user)]:
        if path:
            engine.file(file, _read(path))
    for folder in given.folders:
        engine.extension(_read(folder / "package.json"), _read_if_there(folder / "handlers.json"))


def _status(run: Callable[[], None]) -> int:
    try:
        run()
    except KeyboardInterrupt:
        return 130
    except Stop as stop:
        print(stop, file=sys.stderr)
        return stop.status
    except (LoadRefused, LibraryNotFound) as refused:
        print(refused, file=sys.stderr)
        return 3
    except EngineError as stopped:
        print(stopped, file=sys.stderr)
        return _STATUSES.get(stopped.answer, 4)
    return 0


def status_of(run: Callable[[], None]) -> int:
    """Calls a function that prints, and returns the status of the program, which is 0 if it returns. A message
    says why it doesn't: 2 for a key's text that is none; 3 if a file cannot be read, the load is refused or
    there is no library; 4 if the session or the output fails; 5 if a handler traps; 130 after an interrupt."""
    # (the defaults of the system may differ)
    for stream in (sys.stdout, sys.stderr):
        if isinstance(stream, io.TextIOWrapper):
            stream.reconfigure(encoding="utf-8", newline="\n")
    try:
        status = _status(run)
        sys.stdout.flush()
        return status
    except OSError:
        print("script: write failed", file=sys.stderr)
        # (otherwise the interpreter would try to write the rest again at its end)
        os.dup2(os.open(os.devnull, os.O_WRONLY), sys.stdout.fileno())
        return 4
