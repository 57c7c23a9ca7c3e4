"""Checks what the module returns and raises: for numbers out of range, for texts that a line can't contain,
for calls from another thread, after an engine is closed, and for runs of keycheck. It prints each difference
from what the module documents. The status is 0 if there is none. tools/check-hosts runs it."""

from __future__ import annotations

import ctypes
import gc
import sys
import threading
from collections.abc import Callable, Iterator
from typing import Any

from pafjirn import Checked, Ending, Engine, EngineError, Entry, File, Found, Keycheck, Kind, LibraryNotFound
from pafjirn import LoadRefused, OutOfRange, Platform, Step, WrongThread

LAYOUT = b'{"scopes": [{"name": "window"}, {"name": "editor", "parent": "window"}]}'
RULES = b"""[
    { "key": "x", "command": "type", "args": "t", "when": "truth" },
    { "key": "x", "command": "type", "args": "n", "when": "number == -9223372036854775808" },
    { "key": "x", "command": "type", "args": "l", "when": "'b' in list" },
    { "key": "y", "command": "my.own", "args": null },
    { "key": "s", "command": "runCommands", "args": { "commands": ["buffer.top", "x\\nrun y"] } },
    { "key": "z z", "command": "my.own" },
]"""
# Rules for look-ups. Rule 0 has the keys and the command of rule 7; rule 3 takes the key of rule 1, and rules
# 5 and 6 go on from that of rule 4.
LOOKED_UP = b"""[
    { "key": "ctrl+a", "command": "type", "args": "a" },
    { "key": "ctrl+b", "command": "type", "args": "b" },
    { "key": "shift+Ctrl+c", "command": "type", "args": "c", "when": "k" },
    { "key": "ctrl+b", "command": "my.own" },
    { "key": "ctrl+d", "command": "other" },
    { "key": "ctrl+d ctrl+e", "command": "my.own", "args": [1, "e"] },
    { "key": "ctrl+d x", "command": "" },
    { "key": "ctrl+a", "command": "type", "args": "A" },
]"""
MANIFEST = """{
    "name": "e", "publisher": "p",
    "contributes": { "commands": [{ "command": "buffer.top", "title": "Größe" }] }
}""".encode()


def raises(kind: type[Exception], call: Callable[[], object]) -> bool:
    """Whether a call raises an exception of exactly this class."""
    try:
        call()
    except Exception as raised:  # (an exception of another class is reported as wrong)
        return type(raised) is kind
    return False


def loaded() -> Engine:
    engine = Engine()
    engine.platform(Platform.MAC)
    engine.file(File.LAYOUT, LAYOUT)
    engine.file(File.USER, RULES)
    engine.extension(MANIFEST)
    engine.load()
    return engine


def numbers(engine: Engine) -> Iterator[tuple[str, bool]]:
    """Numbers that fit, and numbers that don't."""
    yield "a number that fits", engine.set("window", "number", -(2**63)).ending == Ending.DONE
    yield "its rule", engine.press("x").arguments == "n"
    yield "a number below", raises(OutOfRange, lambda: engine.set("window", "number", -(2**63) - 1))
    yield "a number above", raises(OutOfRange, lambda: engine.set("window", "number", 2**70 + 5))
    yield "the number after both", engine.press("x").arguments == "n"
    yield "a choice below", raises(OutOfRange, lambda: engine.choose(-1))
    yield "a choice above", raises(OutOfRange, lambda: engine.choose(2**32 + 1))
    no_file: Any = 2**32
    yield "no file", raises(ValueError, lambda: engine.file(no_file, b""))
    no_platform: Any = 3
    yield "no platform", raises(ValueError, lambda: engine.platform(no_platform))


def values(engine: Engine) -> Iterator[tuple[str, bool]]:
    """Values of context keys, and what isn't such a value."""
    yield "a truth value", engine.set("editor", "truth", True).trace == "set editor truth\n"
    yield "a list", engine.set("window", "list", ["ä", "b"]).ending == Ending.DONE
    yield "an object", engine.set("window", "object", {"b": 1.5}).trace == "set window object\n"
    yield "a list of no scope", engine.set("nowhere", "list", ["b"]).ending == Ending.REFUSED
    yield "the ending after it", engine.record().ending == Ending.REFUSED
    yield "a text", engine.set("window", "a b", "c\nd").ending == Ending.DONE
    yield "a list under two words", raises(ValueError, lambda: engine.set("window", "a b", ["c"]))
    yield "a list on two lines", raises(ValueError, lambda: engine.set("window", "a\nkey x", ["c"]))
    yield "a list of no name", raises(ValueError, lambda: engine.set("window", "", {"c": 1}))
    numbers_in_list: Any = [1]
    yield "a list of numbers", raises(ValueError, lambda: engine.set("window", "a", numbers_in_list))
    fraction: Any = 1.5
    yield "a fraction", raises(ValueError, lambda: engine.set("window", "a", fraction))
    not_bytes: Any = "[]"
    no_text: Any = 5
    yield "a text as a file", raises(ctypes.ArgumentError, lambda: engine.file(File.USER, not_bytes))
    yield "a number as a key", raises(TypeError, lambda: engine.press(no_text))
    yield "no UTF-8", raises(UnicodeEncodeError, lambda: engine.set("window", "a", "\ud800"))
    yield "an unset", engine.unset("window", "list").ending == Ending.DONE


def records(engine: Engine) -> Iterator[tuple[str, bool]]:
    """The records of events."""
    own = engine.press("y")
    yield "a command of the host's own", (own.ending, own.command) == (Ending.NOT_FOUND, "my.own")
    yield "its rule", (own.source, own.place) == ("user", 3)
    yield "its arguments", own.arguments is None and own.arguments_json in {None, "null"}
    yield "no step", own.step is None
    listed = engine.press("s")
    yield "a step", (listed.ending, listed.step) == (Ending.NOT_FOUND, Step(2, "x\nrun y"))
    yield "a chord", engine.press("z").kind == Kind.CHORDING
    yield "no arguments", engine.press("z").arguments_json is None
    yield "no key", raises(EngineError, lambda: engine.press("nokey"))
    focused = engine.focus("editor")
    yield "a focus", (focused.ending, focused.source, focused.place) == (Ending.DONE, None, None)
    yield "a palette", engine.palette("grösse") == [Entry("Größe", "buffer.top")]
    yield "a choice", engine.choose(1).command == "buffer.top" and not engine.entries()
    traces = [it.trace for it in engine.records(["focus window", b"focus nowhere", b"\xff"])]
    yield "lines", traces[:2] == ["focus window\n", "refused 20 UnknownScope\n"] and "unread" in traces[2]


def look_ups() -> Iterator[tuple[str, bool]]:
    """What presses would take, and the keys of commands."""
    engine = Engine()
    early = [lambda: engine.look_up("x"), lambda: engine.keys_of("type"), engine.continuations]
    yield "look-ups before the load", all(raises(EngineError, it) for it in early)
    engine.file(File.USER, LOOKED_UP)
    engine.load()
    typed = engine.look_up("ctrl+a")
    yield "a look-up", typed == Found(Kind.STARTED, "ctrl+a", "type", '"A"', "user", 7)
    yield "its arguments", typed.arguments == "A"
    yield "nothing that was pressed", (engine.text(), engine.trace()) == (("", ""), "")
    yield "another name", engine.look_up("Ctrl+B") == Found(Kind.STARTED, "ctrl+b", "my.own", None, "user", 3)
    nothing = Found(Kind.NOTHING, "ctrl+shift+c", "", None, None, None)
    yield "a clause that fails", engine.look_up("ctrl+shift+c") == nothing
    yield "its arguments", nothing.arguments is None
    yield "a chord", engine.look_up("ctrl+d") == Found(Kind.CHORDING, "ctrl+d", "", None, None, None)
    yield "keys", engine.keys_of("type") == ["ctrl+a"]
    yield "keys of two rules", engine.keys_of("my.own") == ["ctrl+d ctrl+e", "ctrl+b"]
    yield "no keys", [engine.keys_of(it) for it in ("other", "no.such")] == [[], []]
    yield "keys of no command", engine.keys_of("") == ["ctrl+d x"]
    yield "first keys", engine.continuations() == ["ctrl+a", "ctrl+d", "ctrl+b"]
    engine.set("window", "k", True)
    yield "the keys of another context", engine.keys_of("type") == ["ctrl+a", "ctrl+shift+c"]
    yield "a clause that holds", engine.look_up("ctrl+shift+c").place == 2
    yield "first keys then", engine.continuations() == ["ctrl+a", "ctrl+d", "ctrl+b", "ctrl+shift+c"]
    yield "the trace behind all of that", engine.trace() == "set window k\n"
    yield "no UTF-8 of a command", raises(UnicodeEncodeError, lambda: engine.keys_of("\ud800"))
    no_text: Any = b"\xff"
    yield "no text of a command", raises(EngineError, lambda: engine.keys_of(no_text))
    yield from look_ups_in_a_chord(engine)
    engine.close()
    yield "look-ups after the end", all(raises(EngineError, it) for it in early)


def look_ups_in_a_chord(engine: Engine) -> Iterator[tuple[str, bool]]:
    """The same behind the first keystroke of a chord."""
    engine.press("ctrl+d")
    yield "keys that go on", engine.continuations() == ["x", "ctrl+e"]
    yield "keys without the chord", engine.keys_of("my.own") == ["ctrl+d ctrl+e", "ctrl+b"]
    yield "no command", engine.look_up("x") == Found(Kind.STARTED, "ctrl+d x", "", None, "user", 6)
    nothing = Found(Kind.NOTHING, "ctrl+d ctrl+a", "", None, None, None)
    yield "a key that ends the chord", engine.look_up("ctrl+a") == nothing
    own = Found(Kind.STARTED, "ctrl+d ctrl+e", "my.own", '[1,"e"]', "user", 5)
    yield "a key that goes on", engine.look_up("ctrl+e") == own
    yield "no key", raises(EngineError, lambda: engine.look_up("ctrl+"))
    yield "two keys", raises(EngineError, lambda: engine.look_up("ctrl+e x"))
    record = engine.record()
    yield "the record", (record.command, record.arguments, record.place) == ("my.own", [1, "e"], 5)
    yield "its trace", record.trace == "key ctrl+d: chord\n"
    pressed = engine.press("ctrl+e")
    yield "the press", (pressed.ending, pressed.command) == (Ending.NOT_FOUND, "my.own")
    yield "its trace", pressed.trace == "key ctrl+d ctrl+e: start my.own\nnot found my.own\n"
    yield "first keys behind it", engine.continuations() == ["ctrl+a", "ctrl+d", "ctrl+b", "ctrl+shift+c"]


def threads(engine: Engine) -> Iterator[tuple[str, bool]]:
    """Calls from another thread, and an engine that another thread releases."""
    found: list[bool] = []
    calls = [lambda: engine.press("x"), engine.trace, engine.entries, engine.close, engine.record]
    calls += [lambda: engine.look_up("x"), lambda: engine.keys_of("type"), engine.continuations]
    other = threading.Thread(target=lambda: found.extend(raises(WrongThread, it) for it in calls))
    other.start()
    other.join()
    yield "calls from another thread", found == [True] * len(calls)
    left = [loaded()]

    def release() -> None:
        left.clear()
        gc.collect()

    other = threading.Thread(target=release)
    other.start()
    other.join()
    loaded().close()
    yield "the engine after all of that", engine.press("x").kind == Kind.STARTED


def ends() -> Iterator[tuple[str, bool]]:
    """Loads that are refused, engines that are closed, and a library that doesn't exist."""
    with Engine() as engine:
        yield "an event before the load", raises(EngineError, lambda: engine.press("x"))
        engine.file(File.USER, b"{")
        yield "a load that is refused", raises(LoadRefused, engine.load)
        engine.file(File.USER, b"[]")
        yield "another load", engine.load() == ""
    engine.close()
    yield "an event after the end", raises(EngineError, lambda: engine.press("x"))
    yield "a read after the end", engine.trace() == ""
    yield "no library", raises(LibraryNotFound, lambda: Engine("/nowhere.so"))


# What keycheck writes about a rule without a command at a path with a letter of two bytes.
SHOWN = """ü/keys:2:3: error: 40 MissingMember: the rule has no member `command`; the rule is dropped
      {"key":"a"} ]
      ^
1 problem: 1 error
"""


def keychecks() -> Iterator[tuple[str, bool]]:
    """Runs of keycheck over files in memory."""
    words = ("check", "--user", "ü/keys")
    with Keycheck() as keycheck, Keycheck() as other:
        keycheck.put("ü/keys", b'[\n  {"key":"a"} ]')
        yield "a problem", keycheck.run(*words) == Checked(1, SHOWN, "")
        yield "a second run", keycheck.run(*words) == Checked(1, SHOWN, "")
        yield "the files of another", other.run(*words).status == 3
        keycheck.put("ü/keys", b"[]")
        yield "no problem", keycheck.run(*words) == Checked(0, "", "")
        keycheck.remove("ü/keys")
        keycheck.remove("ü/keys")
        missing = Checked(3, "", "cannot read ü/keys: there is no such file\n")
        yield "no file", keycheck.run(*words) == missing
        yield "no UTF-8 among words", raises(UnicodeEncodeError, lambda: keycheck.run("check", "\ud800"))
        no_text: Any = b"\xff"
        yield "no text of a word", raises(EngineError, lambda: keycheck.run("check", no_text))
        yield "no text of a path", raises(EngineError, lambda: keycheck.put(no_text, b""))
        yield "no text of a path to remove", raises(EngineError, lambda: keycheck.remove(no_text))
        yield "no words of runs before", keycheck.run("--version").output.startswith("keycheck ")
        yield "no words", keycheck.run().status == 2
        not_bytes: Any = "[]"
        yield "a text as a file", raises(ctypes.ArgumentError, lambda: keycheck.put("k", not_bytes))
        yield "calls from another thread", all(of_another_thread(keycheck))
    yield "a run after the end", raises(EngineError, lambda: keycheck.run("--version"))
    yield "a file after the end", raises(EngineError, lambda: keycheck.put("k", b""))
    yield "no library", raises(LibraryNotFound, lambda: Keycheck("/nowhere.so"))


def of_another_thread(keycheck: Keycheck) -> list[bool]:
    """For each call of another thread whether it raises WrongThread."""
    found: list[bool] = []
    calls: list[Callable[[], object]] = [lambda: keycheck.run("--version"), lambda: keycheck.put("k", b"")]
    calls += [lambda: keycheck.remove("k"), keycheck.close]
    other = threading.Thread(target=lambda: found.extend(raises(WrongThread, it) for it in calls))
    other.start()
    other.join()
    return found if len(found) == len(calls) else [False]


def main() -> int:
    wrong = []
    with loaded() as engine:
        for test in [numbers, values, records, threads]:
            wrong += [name for name, is_right in test(engine) if not is_right]
    for more in [look_ups, ends, keychecks]:
        wrong += [name for name, is_right in more() if not is_right]
    for name in wrong:
        print(f"{name}: not as hosts/python/pafjirn documents")
    return 1 if wrong else 0


if __name__ == "__main__":
    sys.exit(main())
