"""Pafjirn for Python: a keybinding and command engine. It calls the shared library by ctypes.

    from pafjirn import Engine, File

    with Engine() as engine:
        engine.file(File.USER, b'[{ "key": "ctrl+h", "command": "type", "args": "hello" }]')
        engine.load()
        print(engine.press("ctrl+h").trace, end="")

Keycheck is the program `keycheck` over files in memory: it says what is wrong in them.

    from pafjirn import Keycheck

    with Keycheck() as keycheck:
        keycheck.put("keybindings.json", b'[{ "key": "ctrl+retrun", "command": "type" }]')
        print(keycheck.run("check", "--user", "keybindings.json").output, end="")

The package takes the first of these libraries: that of the path which is passed to Engine or Keycheck, that
of the path in PAFJIRN_LIBRARY, the one that `pip install` put beside this file, the one that
tools/build-library installed in .rt/prefix of the repository of this file, and the one that the system finds
by name.
`python3 -m pafjirn` is a prompt at which keys are pressed.

A call can raise:

- LibraryNotFound: no library can be loaded. Only Engine() and Keycheck() raise it.
- EngineError: the library answered that it did nothing, or that the session is stopped. `answer` is the
  number of the answer. After 103, a handler that trapped, `trace` reads what the event did up to there.
- LoadRefused, an EngineError: the load was refused.
- OutOfRange, a ValueError: a number doesn't fit into its integer type of the library. The engine was not
  called.
- WrongThread: another thread made the engine or the Keycheck. The library was not called.
- ValueError: a text can't be encoded as UTF-8, or `set` can't write the value on a line. The library was not
  called.
- ctypes.ArgumentError or TypeError: an argument is of another type than the call takes, such as a text in
  the place of the bytes of a file. The library was not called."""

from __future__ import annotations

import collections
import ctypes
import ctypes.util
import dataclasses
import enum
import functools
import json
import os
import pathlib
import threading
import weakref
from collections.abc import Callable, Iterable, Iterator, Mapping, Sequence
from typing import Any, Union

# A value of a context key.
Value = Union[bool, int, str, Sequence[str], Mapping[str, Any]]

__all__ = [
    "Checked",
    "Ending",
    "Engine",
    "EngineError",
    "Entry",
    "File",
    "Found",
    "Keycheck",
    "Kind",
    "LibraryNotFound",
    "LoadRefused",
    "OutOfRange",
    "Platform",
    "Record",
    "Step",
    "Value",
    "WrongThread",
]

# Where pip installs the library, and where tools/build-library does if this file is in its repository.
_HERE_OR_BUILT = [
    pathlib.Path(__file__).resolve().parent / "libpafjirn.so",
    pathlib.Path(__file__).resolve().parent / "../../../.rt/prefix/lib/libpafjirn.so",
]


class File(enum.IntEnum):
    """A file that an engine is loaded from."""

    LAYOUT = 0
    DEFAULTS = 1
    USER = 2


class Platform(enum.IntEnum):
    """The platform for which the keys of extensions are chosen."""

    LINUX = 0
    MAC = 1
    WINDOWS = 2


class Ending(enum.IntEnum):
    """How an event that the session accepted ended."""

    DONE = 0
    REFUSED = 3  # the trace says why
    NOT_FOUND = 7  # the engine doesn't have the command: the host runs it
    BAD_ARGUMENTS = 8  # the arguments don't fit the command, which didn't run


class Kind(enum.IntEnum):
    """What an event did about commands, or what a press that is looked up would do."""

    NOTHING = 0
    CHORDING = 1  # the press opened or continued a chord
    STARTED = 2  # a command started; the empty command starts nothing


class _Part(enum.IntEnum):
    TRACE = 0
    NOTICE = 1
    CHORD = 2
    COMMAND = 3
    ARGUMENTS = 4
    SOURCE = 5
    BEFORE = 6
    AFTER = 7
    STEP = 8
    KEYS = 9


class _EntryPart(enum.IntEnum):
    LABEL = 0
    ENTRY_COMMAND = 1


class _Stream(enum.IntEnum):
    OUTPUT = 0
    ERRORS = 1


class _Answer(enum.IntEnum):
    DONE = 0
    OUT_OF_ORDER = 1
    UNKNOWN = 2
    REFUSED = 3
    NO_MEMORY = 5
    NO_TEXT = 6
    NOT_FOUND = 7
    BAD_ARGUMENTS = 8
    NO_KEY = 10
    STOPPED = 97
    TRAPPED = 103


_REASONS = {
    _Answer.OUT_OF_ORDER: "files come before the load, and events after it",
    _Answer.UNKNOWN: "the engine or the Keycheck is closed, or a number has no meaning",
    _Answer.NO_MEMORY: "stopped: out of memory",
    _Answer.NO_TEXT: "the bytes aren't UTF-8",
    _Answer.NO_KEY: "the text is no key: docs/FORMATS.md lists them, such as ctrl+s",
    _Answer.STOPPED: "stopped: an event before stopped the session; make a new engine",
    _Answer.TRAPPED: "trapped",
}


def _reason_of(answer: int) -> str:
    for known, reason in _REASONS.items():
        if answer == known:
            return reason
    return f"the answer {answer}, which include/pafjirn.h explains"


class EngineError(Exception):
    """A call that did nothing, or that stopped the session. `answer` is its number in include/pafjirn.h."""

    def __init__(self, answer: int, reason: str = "") -> None:
        super().__init__(reason or _reason_of(answer))
        self.answer = answer


class LoadRefused(EngineError):
    """A load that is refused: the text says which file, and why. Files can be replaced and loaded again. An
    extension can't be removed: make a new engine."""


class LibraryNotFound(Exception):
    """The library doesn't exist, or doesn't fit this module. The text says which path was tried."""


class OutOfRange(ValueError):
    """A number that doesn't fit into its integer type of the library."""


class WrongThread(RuntimeError):
    """A call from a thread other than the one that made the engine."""


@dataclasses.dataclass(frozen=True)
class Step:
    """A step of `runCommands`."""

    number: int  # its number in the list, from 1
    command: str


@dataclasses.dataclass(frozen=True)
class Record:
    """What an event did. Only key presses and choices start commands. The trace has everything else."""

    ending: Ending
    kind: Kind
    chord: str  # the keystrokes of the open chord and of the key press
    command: str  # the command that started
    arguments_json: str | None  # the arguments of the rule, as JSON; None without arguments
    source: str | None  # the file of the rule: defaults, user, or the identifier of an extension
    place: int | None  # the number of elements above the rule in its file
    step: Step | None  # the last step of runCommands that began; those above it ran, those below it didn't
    trace: str  # the lines that the event added to the trace, each with its line feed

    @property
    def arguments(self) -> Any:
        """The arguments of the rule: the value of their JSON, or None without arguments."""
        return _value_of(self.arguments_json)


@dataclasses.dataclass(frozen=True)
class Found:
    """What a press of a key would take."""

    kind: Kind
    chord: str  # the keystrokes of the open chord and of the key
    command: str  # the command that would start
    arguments_json: str | None  # the arguments of the rule, as JSON; None without arguments
    source: str | None  # the file of the rule: defaults, user, or the identifier of an extension
    place: int | None  # the number of elements above the rule in its file

    @property
    def arguments(self) -> Any:
        """The arguments of the rule: the value of their JSON, or None without arguments."""
        return _value_of(self.arguments_json)


def _value_of(arguments_json: str | None) -> Any:
    return None if arguments_json is None else json.loads(arguments_json)


@dataclasses.dataclass(frozen=True)
class Entry:
    """An entry of the palette."""

    label: str
    command: str


@dataclasses.dataclass(frozen=True)
class Checked:
    """How a run of `keycheck` ended, and what it wrote. The exit status is 0 if nothing is wrong or a
    question was answered, 1 if a problem was shown, 2 for a command line that is refused, 3 for a file that
    isn't there or is refused, and 4 if memory was refused or a script didn't run to its end.
    docs/KEYCHECK.md has all cases."""

    status: int  # the exit status
    output: str  # what it wrote to standard output
    errors: str  # what it wrote to standard error


class _Handle(ctypes.Structure):
    _fields_ = [("at", ctypes.c_void_p), ("live", ctypes.c_bool)]


class _Here(threading.local):
    """The state of each thread: the handles of its engines that another thread has released."""

    def __init__(self) -> None:
        self.left: collections.deque[_Handle] = collections.deque()


_HERE = _Here()
_HANDLE, _BYTES, _SIZE = ctypes.POINTER(_Handle), ctypes.c_char_p, ctypes.c_size_t
_NUMBER, _INTEGER, _TRUTH = ctypes.c_uint32, ctypes.c_int64, ctypes.c_bool
_TEXT = [_BYTES, _SIZE]
# The functions of include/pafjirn.h, without `pafjirn_`: the types of the parameters after the handle, and of
# the result.
_FUNCTIONS: dict[str, tuple[list[Any], Any]] = {
    "new": ([], _NUMBER),
    "free": ([], None),
    "platform": ([_NUMBER], _NUMBER),
    "file": ([_NUMBER, *_TEXT], _NUMBER),
    "extension": ([*_TEXT, _TRUTH, *_TEXT], _NUMBER),
    "load": ([], _NUMBER),
    "line": (_TEXT, _NUMBER),
    "key": (_TEXT, _NUMBER),
    "focus": (_TEXT, _NUMBER),
    "set_truth": ([*_TEXT, *_TEXT, _TRUTH], _NUMBER),
    "set_number": ([*_TEXT, *_TEXT, _INTEGER], _NUMBER),
    "set_text": ([*_TEXT, *_TEXT, *_TEXT], _NUMBER),
    "unset": ([*_TEXT, *_TEXT], _NUMBER),
    "palette": (_TEXT, _NUMBER),
    "choose": ([_NUMBER], _NUMBER),
    "look_up": (_TEXT, _NUMBER),
    "keys_of": (_TEXT, _NUMBER),
    "continuations": ([], _NUMBER),
    "read": ([_NUMBER, _SIZE, *_TEXT], _SIZE),
    "taken": ([], _NUMBER),
    "place": ([], _SIZE),
    "steps": ([], _SIZE),
    "entries": ([], _SIZE),
    "entry": ([_NUMBER, _NUMBER, _SIZE, *_TEXT], _SIZE),
    "put": ([*_TEXT, *_TEXT], _NUMBER),
    "remove": (_TEXT, _NUMBER),
    "word": (_TEXT, _NUMBER),
    "keycheck": ([], _NUMBER),
    "status": ([], _NUMBER),
    "written": ([_NUMBER, _SIZE, *_TEXT], _SIZE),
}


def _path_of_library(given: str | os.PathLike[str] | None) -> str:
    """The path of the library, or its name if the system has to find it."""
    named = given or os.environ.get("PAFJIRN_LIBRARY")
    if named:
        return os.fspath(named)
    for path in _HERE_OR_BUILT:
        if path.exists():
            return str(path)
    return ctypes.util.find_library("pafjirn") or "libpafjirn.so"


@functools.cache
def _library_at(path: str) -> ctypes.CDLL:
    """The library at a path, with its functions declared as include/pafjirn.h does. It is loaded once."""
    try:
        library = ctypes.CDLL(path)
        for name, (takes, gives) in _FUNCTIONS.items():
            call = getattr(library, f"pafjirn_{name}")
            call.argtypes, call.restype = [_HANDLE, *takes], gives
    except (OSError, AttributeError) as wrong:
        hint = "make it with tools/build-library, or name another in PAFJIRN_LIBRARY"
        raise LibraryNotFound(f"cannot load the library {path} ({wrong}): {hint}") from wrong
    return library


def _release(library: ctypes.CDLL, handle: _Handle, left: collections.deque[_Handle]) -> None:
    """Ends an engine on its own thread. On another thread, its handle is left for its own thread to end."""
    if _HERE.left is left:
        library.pafjirn_free(handle)
    else:
        left.append(handle)


def _bytes(*texts: str | bytes) -> list[bytes | int]:
    """For each text its bytes and their length."""
    made: list[bytes | int] = []
    for text in texts:
        data = text.encode() if isinstance(text, str) else text
        made += [data, len(data)]
    return made


def _within(number: int, least: int, most: int) -> int:
    """The number, if the library can represent it. Raises OutOfRange otherwise."""
    if not least <= number <= most:
        raise OutOfRange(f"{number} is out of range: give a number from {least} to {most}")
    return int(number)


def _check_done(answer: int) -> None:
    """Raises EngineError for an answer that says that a call did nothing."""
    if answer != _Answer.DONE:
        raise EngineError(answer)


def _line_that_sets(scope: str, key: str, value: Sequence[str] | Mapping[str, Any]) -> bytes:
    """The script line that sets a key to a list or an object. Only the member names of an object matter."""
    for word in (scope, key):
        if not word or any(mark in word for mark in " \r\n"):
            hint = "give a scope and a key without spaces and line feeds"
            raise ValueError(f"{word!r} can't be written on a line: {hint}")
    names = list(value)
    if not all(isinstance(name, str) for name in names):
        raise ValueError(f"{value!r} can't be set: give a list of texts, or an object whose names are texts")
    written = dict.fromkeys(names, True) if isinstance(value, Mapping) else names
    return f"set {scope} {key} {json.dumps(written, ensure_ascii=False)}".encode()


class _Owner:
    """Owns a handle of the library, which its calls take."""

    def __init__(self, library: str | os.PathLike[str] | None = None) -> None:
        self._library = _library_at(_path_of_library(library))
        self._handle = _Handle()
        self._left = _HERE.left
        while self._left:
            self._library.pafjirn_free(self._left.pop())
        self._room = ctypes.create_string_buffer(1024)
        self._done("new")
        self._finalizer = weakref.finalize(self, _release, self._library, self._handle, self._left)

    def __exit__(self, *_: object) -> None:
        self.close()

    def close(self) -> None:
        """Ends it, and gives its memory back. Reads of a closed Engine are empty. All other calls of a closed
        Engine or Keycheck raise EngineError."""
        self._check_thread()
        self._finalizer()

    def _check_thread(self) -> None:
        if _HERE.left is not self._left:
            raise WrongThread(f"another thread made this {type(self).__name__}: call it there, by a queue")

    def _call(self, name: str, given: tuple[Any, ...]) -> int:
        self._check_thread()
        answer: int = getattr(self._library, f"pafjirn_{name}")(self._handle, *given)
        return answer

    def _done(self, name: str, *given: Any) -> None:
        _check_done(self._call(name, given))

    def _whole(self, read: Callable[[ctypes.Array[ctypes.c_char], int], int]) -> str:
        """A whole text. `read` copies it into a buffer of the given size, and returns its length. The buffer
        grows if a text is longer."""
        length = read(self._room, len(self._room))
        if length > len(self._room):
            self._room = ctypes.create_string_buffer(2 * length)
            read(self._room, len(self._room))
        return ctypes.string_at(self._room, length).decode()


class Engine(_Owner):
    """An engine. First pass files to it, then load it, and then send it events.

    Only the thread that made an engine may use it: calls from other threads raise WrongThread. Close an
    engine, or use it as a context manager. An engine without references ends by itself; if another thread
    released the last reference, it ends when its own thread makes the next engine."""

    def __init__(self, library: str | os.PathLike[str] | None = None) -> None:
        """Makes an engine without files, for Linux. `library` is the path of the shared library. Without it
        the library is searched for as the docstring of this module says. Raises LibraryNotFound, and
        EngineError if memory is refused."""
        super().__init__(library)
        self._ending = Ending.DONE

    def __enter__(self) -> Engine:
        return self

    def platform(self, platform: Platform) -> None:
        """Sets the platform, before the load."""
        self._done("platform", Platform(platform))

    def file(self, file: File, data: bytes) -> None:
        """Passes the bytes of a file, before the load. They replace those of an earlier call."""
        self._done("file", File(file), data, len(data))

    def extension(self, manifest: bytes, handlers: bytes | None = None) -> None:
        """Passes the bytes of an extension's `package.json` and, if it has one, its `handlers.json`. The
        extension can't be removed again."""
        more = handlers or b""
        self._done("extension", manifest, len(manifest), handlers is not None, more, len(more))

    def load(self) -> str:
        """Loads a session from the files, and returns its warnings, each with its line feed. Raises
        LoadRefused with the line that says why."""
        answer = self._call("load", ())
        if answer == _Answer.REFUSED:
            raise LoadRefused(answer, self._text(_Part.NOTICE).rstrip())
        _check_done(answer)
        return self._text(_Part.NOTICE)

    def line(self, line: str | bytes) -> Record:
        """Executes a line of a script. Here a refused event ends as DONE too: only the trace says that it was
        refused. A line that is no event is traced as an unread line."""
        return self._told("line", *_bytes(line))

    def press(self, key: str) -> Record:
        """Presses the key with this text, such as `ctrl+s`. Raises EngineError if the text is no key."""
        return self._told("key", *_bytes(key))

    def press_quietly(self, key: bytes) -> Ending:
        """Presses a key without making a record, for a host that presses many keys. `record` and `trace`
        read what the press did."""
        self._check_thread()
        return self._ended(self._library.pafjirn_key(self._handle, key, len(key)))

    def focus(self, scope: str) -> Record:
        """Gives the focus to a scope."""
        return self._told("focus", *_bytes(scope))

    def set(self, scope: str, key: str, value: Value) -> Record:
        """Sets a context key of a scope to a truth value, a whole number of 64 bits, a text, a list of texts
        or an object. Only the member names of an object matter. Raises OutOfRange for another number, and
        ValueError if a list or an object, its scope or its key can't be written as a line of a script."""
        if isinstance(value, bool):
            return self._told("set_truth", *_bytes(scope, key), value)
        if isinstance(value, int):
            return self._told("set_number", *_bytes(scope, key), _within(value, -(2**63), 2**63 - 1))
        if isinstance(value, str):
            return self._told("set_text", *_bytes(scope, key, value))
        if not isinstance(value, (list, tuple, Mapping)):
            hint = "give a truth value, a whole number, a text, a list of texts or an object"
            raise ValueError(f"{value!r} is not a value of a context key: {hint}")
        return self._once_set(self.line(_line_that_sets(scope, key, value)))

    def unset(self, scope: str, key: str) -> Record:
        """Removes a context key from a scope."""
        return self._told("unset", *_bytes(scope, key))

    def palette(self, query: str) -> list[Entry]:
        """Returns the entries of the palette that a query finds."""
        self._told_quietly("palette", *_bytes(query))
        return self.entries()

    def entries(self) -> list[Entry]:
        """The entries of the last palette. There are none after one of them is chosen."""
        self._check_thread()
        count = self._library.pafjirn_entries(self._handle)
        parts = (_EntryPart.LABEL, _EntryPart.ENTRY_COMMAND)
        return [Entry(*(self._entry(number, part) for part in parts)) for number in range(1, count + 1)]

    def choose(self, number: int) -> Record:
        """Chooses the entry with this number, counted from 1, of the last palette. Raises OutOfRange if the
        number doesn't fit into 32 bits."""
        return self._told("choose", _within(number, 0, 2**32 - 1))

    def look_up(self, key: str) -> Found:
        """Looks up what a press of the key with this text would take now, after the keystrokes of the open
        chord. Nothing is pressed, and the trace stays, but `record` then has what was found in the place of
        what the last event took. Raises EngineError if the text is no key. Here and in the next two calls
        refused memory doesn't stop the session."""
        self._done("look_up", *_bytes(key))
        return self._found()

    def keys_of(self, command: str) -> list[str]:
        """Looks up the keystrokes that start a command in the present context, without an open chord, those
        of the lowest rule first, each once. The first is what a menu shows. The rules of `runCommands` don't
        count for the commands in their lists."""
        self._done("keys_of", *_bytes(command))
        return self._text(_Part.KEYS).splitlines()

    def continuations(self) -> list[str]:
        """Looks up the keystrokes that go on from those of the open chord, or the first keystrokes of rules
        if no chord is open, those of the lowest rule first, each once. No other key finds anything. `look_up`
        returns what a press of each would take."""
        self._done("continuations")
        return self._text(_Part.KEYS).splitlines()

    def records(self, lines: Iterable[str | bytes]) -> Iterator[Record]:
        """Executes lines of a script one by one, and yields what each did."""
        for line in lines:
            yield self.line(line)

    def record(self) -> Record:
        """What the last event did that raised no exception. The record of a stopped session has no
        meaning."""
        self._check_thread()
        found = self._found()
        return Record(
            ending=self._ending,
            kind=found.kind,
            chord=found.chord,
            command=found.command,
            arguments_json=found.arguments_json,
            source=found.source,
            place=found.place,
            step=self._step(),
            trace=self._text(_Part.TRACE),
        )

    def _found(self) -> Found:
        arguments, source = self._text(_Part.ARGUMENTS), self._text(_Part.SOURCE)
        return Found(
            kind=Kind(self._library.pafjirn_taken(self._handle)),
            chord=self._text(_Part.CHORD),
            command=self._text(_Part.COMMAND),
            arguments_json=arguments or None,
            source=source or None,
            place=self._library.pafjirn_place(self._handle) if source else None,
        )

    def _step(self) -> Step | None:
        number = self._library.pafjirn_steps(self._handle)
        return Step(number, self._text(_Part.STEP)) if number else None

    def text(self) -> tuple[str, str]:
        """The text before the caret, and the text after it."""
        return self._text(_Part.BEFORE), self._text(_Part.AFTER)

    def trace(self) -> str:
        """The lines that the last event added to the trace."""
        return self._text(_Part.TRACE)

    def _told(self, name: str, *given: Any) -> Record:
        self._told_quietly(name, *given)
        return self.record()

    def _told_quietly(self, name: str, *given: Any) -> Ending:
        return self._ended(self._call(name, given))

    def _ended(self, answer: int) -> Ending:
        try:
            self._ending = Ending(answer)
        except ValueError:
            raise EngineError(answer) from None
        return self._ending

    def _once_set(self, record: Record) -> Record:
        """The record of a line that sets a key. As with the calls that set a key, a refusal ends as
        REFUSED."""
        if record.trace.startswith("refused "):
            self._ending = Ending.REFUSED
        return dataclasses.replace(record, ending=self._ending)

    def _entry(self, number: int, part: _EntryPart) -> str:
        read: Callable[..., int] = self._library.pafjirn_entry
        return self._whole(lambda room, size: read(self._handle, number, part, 0, room, size))

    def _text(self, part: _Part) -> str:
        self._check_thread()
        read: Callable[..., int] = self._library.pafjirn_read
        return self._whole(lambda room, size: read(self._handle, part, 0, room, size))


class Keycheck(_Owner):
    """The program `keycheck` over files in memory: it says what is wrong in files, and why a key does what it
    does. It reads no file of the system, and the files of an Engine aren't among its own.

    Threads, `close` and the context manager are as those of an Engine."""

    def __init__(self, library: str | os.PathLike[str] | None = None) -> None:
        """Makes a Keycheck without files. `library` is as that of an Engine. Raises LibraryNotFound, and
        EngineError if memory is refused."""
        super().__init__(library)

    def __enter__(self) -> Keycheck:
        return self

    def put(self, path: str, data: bytes) -> None:
        """Copies a file's bytes to a path. They replace those of an earlier call. A path is looked for as it
        is spelled: the files of an extension in the folder `notes` are at `notes/package.json` and
        `notes/handlers.json`. Raises EngineError if memory is refused; then the files are as before."""
        self._done("put", *_bytes(path), data, len(data))

    def remove(self, path: str) -> None:
        """Removes the file at a path, if there is one."""
        self._done("remove", *_bytes(path))

    def run(self, *words: str) -> Checked:
        """Runs `keycheck` by the words of a command line, without the program's name, over the files that
        were put, which stay. docs/KEYCHECK.md has the command lines. Raises EngineError if memory for the
        words is refused. Memory that is refused during the run is no error: the status is 4 then."""
        given = [_bytes(word) for word in ("keycheck", *words)]
        try:
            for word in given:
                self._done("word", *word)
        finally:
            # (a run takes all words away, also those before a word that was refused)
            answer = self._call("keycheck", ())
        _check_done(answer)
        status = self._library.pafjirn_status(self._handle)
        return Checked(status, self._written(_Stream.OUTPUT), self._written(_Stream.ERRORS))

    def _written(self, stream: _Stream) -> str:
        read: Callable[..., int] = self._library.pafjirn_written
        return self._whole(lambda room, size: read(self._handle, stream, 0, room, size))
