"""Random sessions: files and scripts that a seed gives, as runs of a program.

A run is a dictionary of files by their paths. Most files are right, so that scripts run; some rules, clauses,
manifests, handlers and lines are wrong in each way that comes to mind. The handlers are those of
tools/random-counts.
"""

import importlib.machinery
import importlib.util
import json
import os

from shared.kit import TOP

SCOPES = ["window", "editor", "suggest", "panel"]
NAMES = ["a", "b", "lang", "lines", "dirty", "list", "größe"]
TEXTS = ["", "rust", "a", "12", "-3", "true", "ein Wort", "ß\u0000\t\"\\", "𝒳"]
NUMBERS = [0, 1, -1, 12, 2**53 + 1, 2**63 - 1, -(2**63)]
KEYS = ["a", "a", "b", "b", "left", "numpad1", "-", "/"]
HELD = ["", "", "ctrl+", "ctrl+", "CTRL-", "alt+shift+", "cmd+"]
WRONG_KEYS = ["", " ", "ctrl+", "ctrl", "f20", "[KeyA]", "a b a b a", "ctrl+é"]
PATTERNS = ["/^r/", "/A/i", "/[0-9]+$/", "/(/", "/a|b/s", r"/\d{1,3}\//", "/(a*)*b/"]
NATIVES = ["type", "deleteLeft", "deleteRight", "cursorLeft", "cursorRight", "buffer.clear", "buffer.top"]
NATIVES += ["buffer.bottom", "setContext"]
OPCODES = {
    name: number
    for first, names in {
        0x00: "RETURN TEXT NUM TRUTH ARG DROP DUP SWAP",
        0x10: "ADD SUB LESS SAME NOT JOIN SHOW SIZE ISTRUE NUMBER",
        0x20: "JUMP JFALSE",
        0x30: "CALL",
        0x40: "CONTEXT",
        0x42: "BEFORE AFTER",
        0x50: "REPEAT END",
    }.items()
    for number, name in enumerate(names.split(), first)
}
HANDLER_NAMES = ["x.a", "x.b", "x.c"]


def random_counts():
    """The module of tools/random-counts."""
    loader = importlib.machinery.SourceFileLoader("random_counts", os.path.join(TOP, "tools/random-counts"))
    made = importlib.util.module_from_spec(importlib.util.spec_from_loader("random_counts", loader))
    loader.exec_module(made)
    return made


COUNTS = random_counts()


class Chance(COUNTS.Random):
    """The choices that a seed gives, and what was made by them: the chords of rules, the files of handlers,
    and the parameters of handlers."""

    def __init__(self, seed):
        super().__init__(seed)
        self.chords, self.files, self.params = ["a"], {}, {}

    def one(self, values):
        return values[self.below(len(values))]

    def some(self, least, most, make):
        return [make() for _ in range(least + self.below(most - least + 1))]

    def once_in(self, times):
        return self.below(times) == 0


def value(chance):
    """The value of a context key."""
    return [
        lambda: bool(chance.below(2)),
        lambda: chance.one(TEXTS),
        lambda: chance.one(NUMBERS),
        lambda: chance.some(0, 3, lambda: chance.one(TEXTS)),
        lambda: {chance.one(TEXTS): True},
    ][chance.one([0, 0, 1, 1, 2, 2, 3, 4])]()


def anything(chance, depth=0):
    """Any value of JSON, of which some aren't values of context keys."""
    choice = chance.below(8 if depth < 3 else 5)
    if choice < 4:
        return value(chance)
    if choice == 4:
        return chance.one([None, 1.5, -0.0, 1e30, 2**64])
    if choice < 7:
        return chance.some(0, 3, lambda: anything(chance, depth + 1))
    return {chance.one(TEXTS): anything(chance, depth + 1) for _ in range(chance.below(3))}


def keystroke(chance):
    return chance.one(HELD) + chance.one(KEYS)


def chord(chance):
    if chance.once_in(14):
        return chance.one(WRONG_KEYS)
    made = " ".join(chance.some(1, chance.one([1, 1, 1, 1, 2, 2, 3, 4]), lambda: keystroke(chance)))
    chance.chords.append(made)
    return made


def atom(chance):
    key, other = chance.one(NAMES), chance.one(NAMES)
    word = chance.one(["rust", "a", "12", "'ein Wort'", "true", "false", "''"])
    return chance.one([
        key, key, key, f"{key} == {word}", f"{key} != {word}", f"{key} === {word}", f"{key} in {other}",
        f"{key} not in {other}", f"{key} =~ {chance.one(PATTERNS)}", "true", "false",
        f"{key} {chance.one(['<', '<=', '>', '>='])} {chance.one([0, 3, 12, -1])}",
    ])


def clause(chance, depth=0):
    choice = chance.below(8 if depth < 4 else 3)
    if choice < 3:
        return atom(chance)
    if choice == 3:
        return "!" + clause(chance, depth + 1)
    if choice == 4:
        return f"({clause(chance, depth + 1)})"
    sign = chance.one([" && ", " || ", "&&", "||"])
    return clause(chance, depth + 1) + sign + clause(chance, depth + 1)


def when(chance):
    """A clause, in which a sign is wrong now and then."""
    text = clause(chance)
    if chance.once_in(10):
        at = chance.below(len(text))
        return text[:at] + chance.one(["=", "&", "(", ")", "'", "!", " ", "in"]) + text[at:]
    return "(" * chance.one([64, 65]) + text if chance.once_in(60) else text


def command(chance, depth=0):
    """A command and its arguments, or None without any."""
    choice = chance.below(12)
    if choice < 4:
        return "type", chance.one(TEXTS) if chance.below(6) else anything(chance)
    if choice < 6:
        return "setContext", {"key": chance.one(NAMES), "value": value(chance)}
    if choice == 6 and depth < 2:
        return "runCommands", {"commands": chance.some(0, 4, lambda: step(chance, depth + 1))}
    if choice < 9:
        return chance.one(NATIVES), anything(chance) if chance.once_in(4) else None
    if choice == 9 or not chance.params:
        return chance.one([*HANDLER_NAMES, "my.own", "", "ü", "runCommands"]), anything(chance)
    name = chance.one(list(chance.params))
    return name, {f"p{at}": of_kind(chance, kind) for at, kind in enumerate(chance.params[name])}


def of_kind(chance, kind):
    """A value for a parameter of a handler, which doesn't fit now and then."""
    if chance.once_in(12):
        return anything(chance)
    values = {"text": TEXTS, "number": NUMBERS, "truth": [True, False], "any": [True, "", 12]}
    return chance.one(values[kind])


def step(chance, depth):
    name, given = command(chance, depth)
    if given is None or chance.once_in(4):
        return name
    return {"command": name, "args": given}


def rule(chance):
    """An element of a list of rules."""
    if chance.once_in(20):
        return anything(chance)
    name, given = command(chance)
    made = {"key": chord(chance), "command": name}
    if given is not None:
        made["args"] = given
    if chance.below(2):
        made["when"] = when(chance)
    if chance.once_in(9):
        made = {"command": "-" + name} | ({"key": made["key"]} if chance.below(2) else {})
    if chance.once_in(25):
        made.pop(chance.one(["key", "command"]), None)
    return made


def written(chance, given):
    """A list of rules as a file: with comments and commas behind the last ones, or cut off."""
    text = json.dumps(given, ensure_ascii=bool(chance.below(2)), indent=chance.one([None, None, 2]))
    if chance.once_in(3):
        text = text.replace("{", "/* { */ {").replace("}]", "},] // end\n")
    if chance.once_in(40):
        return text[: chance.below(len(text))]
    return text


def layout(chance):
    scopes = []
    for at, name in enumerate(SCOPES[: 1 + chance.below(len(SCOPES))]):
        keys = {chance.one(NAMES): value(chance) for _ in range(chance.below(5))}
        scopes.append({"name": name, "keys": keys})
        if at:
            scopes[at]["parent"] = chance.one(SCOPES[:at])
    if chance.once_in(40):
        scopes[-1]["parent"] = "nowhere"
    return json.dumps({"scopes": scopes, "focus": chance.one(scopes)["name"]})


def code_of(code):
    return "".join("%02x%04x" % (OPCODES[name], operand) for name, operand in code)


def handlers(chance, letter):
    """A `handlers.json` of handlers that are accepted, but for some. Their names begin with this letter."""
    declared, made = dict(COUNTS.DECLARED), []
    has_blocks = bool(chance.below(2))
    for place in range(COUNTS.HANDLERS):
        draft = COUNTS.Draft(chance, place, declared, has_blocks)
        is_right = COUNTS.fault_of(draft) is None and draft.highest <= COUNTS.START_LIMIT
        if is_right:
            declared[draft.name] = (draft.params, draft.budget, draft.depth)
        if is_right or chance.once_in(30):
            params = [{"name": f"p{at}", "kind": kind} for at, kind in enumerate(draft.params)]
            chance.params[draft.name.replace("x", letter)] = draft.params
            made.append({
                "command": draft.name, "params": params, "budget": draft.budget, "depth": draft.depth,
                "texts": COUNTS.TEXTS, "calls": COUNTS.CALLS, "code": code_of(draft.code),
            })
    text = json.dumps({"version": 2 if has_blocks else 1, "handlers": made})
    return text.replace('"x.', f'"{letter}.')


def changed(chance, text):
    """A file of handlers as it is, with another text, or with another digit of code."""
    if chance.below(2):
        return text.replace('"hi"', '"yo"')
    digits = [at for at in range(len(text) - 1) if text[at].isdigit()]
    if not digits or chance.below(2):
        return text
    at = chance.one(digits)
    return text[:at] + chance.one("0123") + text[at + 1 :]


def manifest(chance, number):
    """The manifest of an extension, which may depend on those before it."""
    before = [f"P.e{it}" for it in range(number) if chance.below(2)]
    commands = [
        {"command": f"{chance.one('xyz')}.{chance.one('abc')}"}
        | {"title": chance.one(["Go", "Größe", "go on", ""])}
        | ({"enablement": when(chance)} if chance.once_in(3) else {})
        | ({"category": "C"} if chance.below(2) else {})
        for _ in range(chance.below(5))
    ]
    keys = chance.some(0, 4, lambda: rule(chance))
    for it in keys:
        if isinstance(it, dict) and chance.once_in(4):
            it[chance.one(["mac", "win", "linux"])] = chord(chance)
    items = [{"command": it["command"], "when": when(chance)} for it in commands if chance.below(2)]
    contributes = {"commands": commands, "keybindings": keys, "menus": {"commandPalette": items}}
    if chance.once_in(40):
        before.append("no.where")
    return {"publisher": "p", "name": f"e{number}", "extensionDependencies": before,
            "contributes": contributes}


def presses(chance):
    """The keys of a chord of a rule, of its beginning, or any key."""
    strokes = chance.one(chance.chords).split()
    if chance.once_in(4) or not strokes:
        strokes = [keystroke(chance)]
    if chance.once_in(5):
        strokes.pop()
    return [f"key {it}" for it in strokes]


def palette(chance):
    """A palette, and a choice from it now and then."""
    choices = ["1", "1", "1", "2", "3", "0", "007", "-1", "99", "4294967296"]
    lines = ["palette" + chance.one(["", "", " ", " go", " ö", " C: g", " x.a"])]
    return lines + [f"choose {chance.one(choices)}" for _ in range(chance.below(3))]


def of_extension(chance, count):
    """An event of an extension."""
    number = chance.below(max(count, 1) + chance.once_in(6))
    name = f"{chance.one('pP')}.e{number}"
    if chance.below(3):
        return [f"{chance.one(['enable', 'disable'])} {name}"]
    text = changed(chance, chance.files[number]) if number in chance.files else "[]"
    return [f"update {name} {text}"]


def of_scope(chance):
    """An event of a scope, which isn't there now and then."""
    scope = chance.one(SCOPES) if chance.below(3) else "window"
    name = chance.one(NAMES)
    return [chance.one([
        f"focus {scope}", f"unset {scope} {name}",
        *[f"set {scope} {name} {json.dumps(value(chance), ensure_ascii=False)}"] * 3,
    ])]


def other_event(chance):
    """An event that is rare, or a line that is none."""
    # (JSON in a script is on one line)
    rules = lambda: json.dumps(chance.some(0, 4, lambda: rule(chance)), ensure_ascii=False)
    return [
        lambda: [f"reload {rules()}"],
        lambda: [f"dispose {1 + chance.below(11)}"],
        lambda: [f"dispose {1 + chance.below(9)}", f"register {chance.one(NATIVES)}"],
        lambda: [chance.one(["", "# no event", "key", "keys a", "KEY a", "set window", "\ufeffkey a"])],
    ][chance.below(4)]()


def events(chance, count):
    """The lines of a script."""
    lines, least = [], 20 + chance.below(40)
    while len(lines) < least:
        choice = chance.below(16)
        if choice < 8:
            lines += presses(chance)
        elif choice < 11:
            lines += of_scope(chance)
        elif choice < 13:
            lines += palette(chance)
        else:
            lines += of_extension(chance, count) if choice < 15 else other_event(chance)
    return lines


def random_run(seed):
    """A run: random files and a random script."""
    chance = Chance(seed + 1)
    count = chance.one([0, 1, 1, 2, 3])
    run = {"platform": chance.one([b"linux", b"mac", b"win"])}
    if chance.below(8):
        run["layout.json"] = layout(chance).encode()
    for number in range(count):
        if chance.below(3):
            chance.files[number] = handlers(chance, "xyz"[number])
            run[f"ext{number}/handlers.json"] = chance.files[number].encode()
        run[f"ext{number}/package.json"] = json.dumps(manifest(chance, number)).encode()
    for name in ["defaults.json", "user.json"]:
        if chance.below(8):
            run[name] = written(chance, chance.some(1, 14, lambda: rule(chance))).encode()
    lines = events(chance, count)
    return run | {"script": chance.one(["\n", "\n", "\r\n"]).join(lines).encode()}
