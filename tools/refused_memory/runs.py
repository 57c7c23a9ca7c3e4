"""The runs of tools/refused-memory: command lines of the programs, with their files and scripts."""

import dataclasses
import json


@dataclasses.dataclass
class Run:
    """A run of a program. A word `@NAME` is the path of one of its files."""

    name: str
    program: str
    words: list
    script: bytes = b""
    files: dict = dataclasses.field(default_factory=dict)
    # The status of the complete run.
    status: int = 0
    # How many of its allocations aren't needed: those for the flat map of context keys, without which a
    # search finds a key, and those of code that reads the rest of a file after its fault is known.
    spare: int = 0


def handlers(*given, version=1):
    """A handlers.json, on one line."""
    return json.dumps({"version": version, "handlers": given}).encode()


def handler(command, budget, depth, code, **more):
    return {"command": command, "budget": budget, "depth": depth, "code": code.replace(" ", ""), **more}


EXAMPLES = [
    "--layout",
    "examples/layout.json",
    "--defaults",
    "examples/defaults.json",
    "--user",
    "examples/keybindings.json",
]
BOTH = ["examples/notes", "examples/brackets"]

HI = handler("x.hi", 1004, 1, "010000 300000 000000", texts=["hi"], calls=["type"])
HI_FILES = {
    "e/package.json": b'{"publisher":"p","name":"e",'
    b'"contributes":{"commands":{"command":"x.hi","title":"Hi"}}}',
    "e/handlers.json": handlers(HI),
    "user": b'[{"key":"h","command":"x.hi"}]',
}
HI_WORDS = ["--user", "@user", "@e"]
FOLLOWER = {"f/package.json": b'{"publisher":"q","name":"f","extensionDependencies":["P.E"]}'}

# Handlers, most of them not accepted, and an extension without handlers.
UNACCEPTED = {
    "e/package.json": b'{"publisher":"p","name":"e"}',
    "e/handlers.json": handlers(
        HI,
        handler("x.dear", 2008, 1, "500002 010000 300000 510000 000000", texts=["hi"], calls=["type"]),
        handler("x.deep", 2000, 1, "300000 000000", calls=["x.hi"]),
        handler("x.low", 7, 1, "050000"),
        handler("x.blank", 7, 1, ""),
        version=2,
    ),
    **FOLLOWER,
}

# A handler that calls another one, which calls a third; each makes texts.
NESTED = {
    "user": b'[{"key":"h","command":"x.a"},{"key":"b","command":"x.bad"}]',
    "e/package.json": b'{"publisher":"p","name":"e"}',
    "e/handlers.json": handlers(
        handler(
            "x.a", 100000, 3, "010000 400001 160000 150000 300000 000000", texts=["<", "dirty"], calls=["x.b"]
        ),
        handler(
            "x.b",
            50000,
            2,
            "040000 020007 160000 150000 300000 040000 300001 000000",
            params=[{"name": "t", "kind": "text"}],
            calls=["x.c", "type"],
        ),
        handler(
            "x.c",
            5000,
            1,
            "040000 060000 150000 300000 010000 030001 300001 000000",
            params=[{"name": "t", "kind": "text"}],
            texts=["seen"],
            calls=["type", "setContext"],
        ),
        handler("x.bad", 5000, 1, "010000 160000 010000 150000 120000 000000", texts=["no number"]),
    ),
}
NESTED_WORDS = ["--user", "@user", "@e"]

LIST = {
    "e/package.json": json.dumps(
        {
            "publisher": "p",
            "name": "e",
            "contributes": {
                "commands": [
                    {"command": "x.hello", "title": "Hello World", "category": "Hello"},
                    {"command": "x.off", "title": "Off", "enablement": "false"},
                    {"command": "x.hid", "title": "Hid"},
                    {"command": "x.bye", "title": "Bye"},
                ],
                "menus": {"commandPalette": [{"command": "x.hid", "when": "false"}]},
            },
        }
    ).encode()
}

# A line of each kind, and each refusal that a short script can meet.
ALL_LINES = b"""# each kind of line
key ctrl+k
key ctrl+k
key n
key f20
key z
press a
key \xff
focus nowhere
set nowhere k 1
unset nowhere k
set window k 1
set window k 2
set window list ["a", "b"]
set window names {"a": 1, "b": 2}
set window text "abc"
set window bad 1.5
unset window k
unset window k
key l
key ctrl+k
focus window
key ctrl+k
palette
choose 0
palette hi
choose 9
choose 1
choose 1
key s
key s
key r
key w
key a
dispose 99
dispose 1
register type
register no.such
disable no.such
enable no.such
disable p.e
disable q.f
key ctrl+k
disable p.e
key h
enable q.f
dispose 1
enable p.e
register type
register deleteLeft
enable p.e
enable q.f
key h
"""
ALL_USER = b"""[{"key":"ctrl+k ctrl+c","command":"type"},{"key":"n","command":""},\
{"key":"h","command":"x.hi"},
{"key":"l","command":"type","args":"l","when":"text in list || text in names || text =~ /^A.c$/i"},
{"key":"s","command":"setContext","args":{"key":"made","value":"by a command"}},\
{"key":"w","command":"type","args":{"text":5}},
{"key":"a","command":"no.such"},
{"key":"r","command":"runCommands","args":{"commands":[{"command":"type","args":"a"},\
"cursorLeft","no.such","type"]}}]"""
ALL = Run(
    "a line of each kind",
    "keyrun",
    [*HI_WORDS, "@f"],
    ALL_LINES,
    {**HI_FILES, **FOLLOWER, "user": ALL_USER},
    spare=21,
)

UPDATES = b"\n".join(
    b"update " + line
    for line in (
        b"no.such {}",
        b"p.e [1 /*",
        b'p.e ["',
        b"p.e [,]",
        b"p.e {}",
        b'p.e {"version":3,"handlers":[]}',
        b"p.e " + handlers({**HI, "code": "0g"}),
        b"p.e " + handlers(HI, HI),
        b"p.e " + handlers({**HI, "depth": 65}),
        b"p.e " + handlers({**HI, "code": "00"}),
        b"p.e " + handlers({**HI, "code": "ff0000"}),
        b"p.e " + handlers({**HI, "code": "030002"}),
        b"p.e " + handlers({**HI, "code": "500002"}),
        b"p.e " + handlers({**HI, "code": "500002"}, version=2),
        b"p.e " + handlers({**HI, "budget": 2000}),
        b"p.e " + handlers({**HI, "code": "050000"}),
        b"p.e " + handlers({**HI, "calls": ["x.no"]}),
        b"p.e " + handlers({**HI, "texts": ["yo"]}),
    )
)

RUNS = [
    Run("a reload", "keyrun", [], b'key a\nreload [{"key":"a","command":"type","args":"hi"}]\nkey a\n'),
    Run(
        "runCommands, disposal and registration",
        "keyrun",
        [],
        b'reload [{"key":"r","command":"runCommands",'
        b'"args":{"commands":["cursorLeft",{"command":"type","args":"hi"}]}}]\n'
        b"key r\ndispose 1\nkey r\nregister type\nregister type\ndispose 10\nregister buffer.top\nkey r\n",
    ),
    Run("examples/session.txt", "keyrun", [*EXAMPLES, "--script", "examples/session.txt", *BOTH], spare=2),
    Run("examples/extensions.txt", "keyrun", [*EXAMPLES, "--script", "examples/extensions.txt", *BOTH]),
    Run(
        "palettes over the examples",
        "keyrun",
        BOTH,
        b"palette no STRASSE\nchoose 2\nchoose 1\npalette br pair\nchoose 1\npalette\n"
        b"disable acme.notes\nchoose 2\npalette\n",
    ),
    Run(
        "repeated blocks", "keyrun", ["examples/rulers"], b"key ctrl+alt+6\nkey ctrl+alt+7\nkey ctrl+alt+7\n"
    ),
    Run(
        "raw handlers",
        "rawrun",
        ["--user", "crates/kb_rawrun_main/data/user.json", "crates/kb_rawrun_main/data"],
        b"key h\nkey h\n",
    ),
    Run("what keycheck says of handlers", "keycheck", ["handlers", *BOTH]),
    Run(
        "what keycheck says of handlers, as JSON",
        "keycheck",
        ["handlers", "--json", "@e", "@f"],
        files=UNACCEPTED,
        status=1,
    ),
    Run("what keycheck says of files", "keycheck", ["check", *EXAMPLES, *BOTH], status=1),
    Run("what keycheck says of a key press", "keycheck", ["explain", "ctrl+s", *EXAMPLES, *BOTH]),
    Run(
        "what keycheck says of the palette, as JSON",
        "keycheck",
        ["palette", "no", "--json", *EXAMPLES, *BOTH],
    ),
    Run(
        "a reload with patterns that leaves a chord, and broken files",
        "keyrun",
        ["--user", "@user"],
        b'key ctrl+k\nreload [{"key":"a","command":"type","args":"a","when":"x =~ /(?=y)/"},'
        b'{"key":"b","command":"type","args":"b","when":"x =~ /^a/"},{"key":"c"}]\n'
        b'set window x "abc"\nkey a\nkey b\nreload [\nreload {}\nreload [1 /*\nreload\nkey b\n',
        {"user": b'[{"key":"ctrl+k ctrl+c","command":"type"}]'},
        spare=17,
    ),
    Run(
        "disposal, disabling and enabling",
        "keyrun",
        HI_WORDS,
        b"dispose 1\ndisable p.e\ndispose 1\nkey h\nenable p.e\nregister type\nenable p.e\nkey h\n",
        HI_FILES,
    ),
    Run(
        "an extension that another one needs, and an update",
        "keyrun",
        [*HI_WORDS, "@f"],
        b"disable p.e\ndisable q.f\ndisable p.e\nenable q.f\ndispose 1\ndispose 1\nregister type\ndispose 1\n"
        + b"enable p.e\n"
        + b"update p.e "
        + handlers({**HI, "budget": 2000})
        + b"\nupdate p.e "
        + handlers({**HI, "texts": ["yo"]})
        + b"\nkey h\n",
        {**HI_FILES, **FOLLOWER},
    ),
    Run("updates that are refused", "keyrun", HI_WORDS, UPDATES + b"\nkey h\n", HI_FILES, spare=3),
    Run(
        "a palette with choices",
        "keyrun",
        ["@e"],
        b"palette he wo\nchoose 2\nchoose 1\nchoose 1\npalette\nchoose 1\npalette\n",
        LIST,
    ),
    Run(
        "chords that are left",
        "keyrun",
        ["--user", "@user"],
        b"set window ok true\nkey ctrl+k\nset window ok false\nkey ctrl+c\nset window ok true\nkey ctrl+k\n"
        b"focus window\n"
        b"key ctrl+k\nfocus nowhere\nkey ctrl+c\nkey ctrl+k\nunset window ok\nkey ctrl+c\n",
        {"user": b'[{"key":"ctrl+k ctrl+c","command":"cursorRight","when":"ok"}]'},
    ),
    ALL,
    Run(
        "nested handlers",
        "keyrun",
        NESTED_WORDS,
        b'key h\nset window dirty "x"\nkey h\n',
        {**NESTED, "e/handlers.json": handlers(*json.loads(NESTED["e/handlers.json"])["handlers"][:3])},
        spare=6,
    ),
    Run(
        "nested raw handlers",
        "rawrun",
        NESTED_WORDS,
        b'key h\nset window dirty "x"\nkey h\n',
        NESTED,
        spare=6,
    ),
    Run(
        "a raw handler that traps",
        "rawrun",
        NESTED_WORDS,
        b"key h\nkey b\nkey h\n",
        NESTED,
        status=5,
        spare=5,
    ),
    Run("a handler that is refused", "keyrun", NESTED_WORDS, b"key h\n", NESTED, status=3),
    Run(
        "a layout that is refused",
        "keyrun",
        ["--layout", "@layout"],
        b"key h\n",
        {"layout": b'{"scopes":[{"name":"a","keys":{"k":[1]}},{"parent":"a"}]}'},
        status=3,
    ),
    Run(
        "an extension that is passed twice",
        "keyrun",
        ["@e", "@f"],
        b"key h\n",
        {**HI_FILES, "f/package.json": b'{"publisher":"P","name":"E"}'},
        status=3,
    ),
]
