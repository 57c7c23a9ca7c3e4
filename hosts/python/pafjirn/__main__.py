"""A prompt at which keys are pressed: a line in, and out what the engine's trace has of it and what it took.

    python3 -m pafjirn [--platform P] [--layout F] [--defaults F] [--user F] [DIR]..

A line is a key, such as ctrl+s, or a line of a script, such as `set window dirty true` or `palette he`
(docs/FORMATS.md lists them). The lines that the event added to the trace come first, and then, indented, what a
key press or a choice took: the command with its arguments, and its rule; or the keystrokes of the open chord.
The end of the input ends it.

The status is 0; 2 for wrong arguments; 3 if a file cannot be read, the load is refused or there is no library;
4 if the session stops; 5 if a handler traps; 130 after an interrupt."""

from __future__ import annotations

import io
import sys
from collections.abc import Iterator

from pafjirn import Ending, Engine, EngineError, Kind, Record
from pafjirn.command_line import add_files, parser, status_of

_ABOUT = """A prompt at which keys are pressed. A line is a key, such as ctrl+s, or a line of a script, such as
`set window dirty true` or `palette he`. The trace of the event comes out, and what it took."""
_HINT = "press a key, such as ctrl+s, or give a line of a script; ctrl+d ends"
# The answer for a text that is no key (include/pafjirn.h).
_NO_KEY = 10


def _lines() -> Iterator[str]:
    """The lines of the input. A terminal shows a prompt."""
    # (a line that isn't UTF-8 goes to the engine as it is)
    if isinstance(sys.stdin, io.TextIOWrapper):
        sys.stdin.reconfigure(encoding="utf-8", errors="surrogateescape")
    if not sys.stdin.isatty():
        yield from (line.rstrip("\r\n") for line in sys.stdin)
        return
    try:
        # (with it, lines can be edited and come back)
        import readline  # noqa: F401
    except ImportError:
        pass
    print(_HINT)
    while True:
        try:
            yield input("> ")
        except EOFError:
            print()
            return


def _told(engine: Engine, line: str) -> Record:
    """Presses the key of this text. A text that is no key is executed as a line of a script."""
    data = line.encode(errors="surrogateescape")
    try:
        engine.press_quietly(data)
    except EngineError as error:
        if error.answer != _NO_KEY:
            raise
        return engine.line(data)
    return engine.record()


def _taken(record: Record) -> Iterator[str]:
    """What an event took."""
    if record.kind == Kind.CHORDING:
        yield f"open chord: {record.chord}"
    if record.kind != Kind.STARTED:
        return
    arguments = "" if record.arguments_json is None else f" with {record.arguments_json}"
    yield f"command: {record.command}{arguments}" if record.command else "no command: taken from the rules above"
    if record.source is not None:
        yield f"rule: element {record.place} of {record.source}"
    if record.ending == Ending.NOT_FOUND:
        yield "the engine doesn't have the command: the host runs it"


def _show(record: Record) -> None:
    sys.stdout.write(record.trace)
    for line in _taken(record):
        print(f"    {line}")
    sys.stdout.flush()


def _run() -> None:
    """Loads the files that the arguments name, and shows what each line does."""
    given = parser("python3 -m pafjirn", _ABOUT).parse_args()
    with Engine() as engine:
        add_files(engine, given)
        sys.stderr.write(engine.load())
        for line in _lines():
            try:
                _show(_told(engine, line))
            except EngineError:
                sys.stdout.write(engine.trace())
                raise


if __name__ == "__main__":
    sys.exit(status_of(_run))
