"""Plain programs for the file formats (docs/FORMATS.md), with which the built programs are compared. They say
with which faults a file may be refused, or that it is accepted. They are written to be read, not to be fast,
and share no code with the sources.
"""

import json
import math
import re

BLANK = " \t\r\n"
MAX_DEPTH = 127
# The faults of a well-formed handlers.json: a handler isn't accepted, or a name is already taken.
OF_HANDLERS = set(range(60, 71))
# The opcodes of each version, and the operands that an opcode allows. Any other opcode allows only 0.
OPCODES = {
    1: {*range(8), *range(0x10, 0x1A), 0x20, 0x21, 0x30, 0x40, 0x42, 0x43},
    2: {*range(8), *range(0x10, 0x1A), 0x20, 0x21, 0x30, 0x40, 0x42, 0x43, 0x50, 0x51},
}
ANY_OPERAND = range(65536)
OPERANDS = {
    **dict.fromkeys((0x01, 0x02, 0x04, 0x20, 0x21, 0x30, 0x40), ANY_OPERAND),
    0x03: range(2),
    0x50: range(1, 65536),
}
RETURN, REPEAT, END = 0x00, 0x50, 0x51
MOST_BLOCKS, MOST_INSTRUCTIONS = 8, 10_000


class Fault(Exception):
    """A file's fault, by its number."""


STRING = re.compile(r'"(?:[^"\\]|\\.)*"', re.S)
LINE_COMMENT = re.compile(r"//[^\r\n]*")
OTHER = re.compile(r'[^"/]+')


def without_comments(text):
    """The text with its comments replaced by spaces, and for each character whether it is in a string."""
    out, inside, at = [], [], 0
    while at < len(text):
        if text[at] == '"':
            found = STRING.match(text, at)
            if not found:
                raise Fault(3)
            piece = shown = found[0]
        elif text.startswith("//", at):
            piece = LINE_COMMENT.match(text, at)[0]
            shown = " " * len(piece)
        elif text.startswith("/*", at):
            end = text.find("*/", at + 2)
            if end < 0:
                raise Fault(2)
            piece = text[at : end + 2]
            shown = " " * len(piece)
        else:
            # (a single slash, or everything up to the next quote or slash)
            piece = shown = text[at] if text[at] == "/" else OTHER.match(text, at)[0]
        out.append(shown)
        inside += [piece[0] == '"'] * len(piece)
        at += len(piece)
    return "".join(out), inside


def plain(text):
    """The text without its comments and trailing commas."""
    text, inside = without_comments(text)
    if "," not in text:
        return text
    solid = [at for at, it in enumerate(text) if inside[at] or it not in BLANK]
    drop = set()
    for before, at, after in zip([None, *solid], solid, solid[1:]):
        if text[at] == "," and not inside[at] and text[after] in "]}" and not inside[after]:
            if before is not None and (inside[before] or text[before] not in "[{,:"):
                drop.add(at)
    return "".join(" " if at in drop else it for at, it in enumerate(text))


def depth(text):
    """The nesting depth of the brackets in a text without comments."""
    level = most = 0
    for it in re.findall(r"[\[\]{}]", STRING.sub("", text)):
        level += 1 if it in "[{" else -1
        most = max(most, level)
    return most


def no_number(word):
    raise ValueError(word)


def number(word):
    """The value of a number's text: an integer of 64 bits, or else a finite fraction."""
    if re.fullmatch("-?[0-9]{1,19}", word) and word != "-0" and is_whole(int(word)):
        return int(word)
    value = float(word)
    if math.isinf(value):
        raise ValueError(word)
    return value


def value_of(content):
    """The value of a file of JSON with comments."""
    try:
        text = content.removeprefix(b"\xef\xbb\xbf").decode()
    except UnicodeDecodeError:
        raise Fault(1) from None
    text = plain(text)
    if not text.strip(BLANK):
        return []
    try:
        if depth(text) > MAX_DEPTH:
            raise ValueError("too deep")
        return json.loads(text, parse_int=number, parse_float=number, parse_constant=no_number)
    except (ValueError, RecursionError):
        raise Fault(4) from None


def is_whole(value):
    return isinstance(value, int) and not isinstance(value, bool) and -(2**63) <= value < 2**63


def is_context(value):
    """Whether a context key may have this value."""
    if isinstance(value, list):
        return all(isinstance(it, str) for it in value)
    return isinstance(value, (bool, str, dict)) or is_whole(value)


def require(holds, number):
    if not holds:
        raise Fault(number)


def rules(value):
    require(isinstance(value, list), 41)


def layout(value):
    require(isinstance(value, dict), 41)
    require("scopes" in value, 40)
    scopes = value["scopes"]
    if isinstance(scopes, list):
        require(all("name" in it for it in scopes if isinstance(it, dict)), 40)
    require(isinstance(scopes, list) and all(isinstance(it, dict) for it in scopes), 41)
    for scope in scopes:
        require(isinstance(scope["name"], str) and isinstance(scope.get("parent", ""), str), 41)
        keys = scope.get("keys", {})
        require(isinstance(keys, dict) and all(map(is_context, keys.values())), 41)
    require(isinstance(value.get("focus", ""), str), 41)
    names = [scope["name"] for scope in scopes]
    require(scopes and len(names) <= 1000 and len(set(names)) == len(names), 21)
    require("parent" not in scopes[0] and value.get("focus", names[0]) in names, 21)
    require(all(scope.get("parent") in names[:at] for at, scope in enumerate(scopes) if at), 21)
    require(sum(len(scope.get("keys", {})) for scope in scopes) <= 10000, 22)


def is_word(value):
    return isinstance(value, str) and value != ""


def manifest(value):
    require(isinstance(value, dict), 41)
    require("name" in value, 40)
    require(is_word(value["name"]) and is_word(value.get("publisher", "x")), 41)
    needed = value.get("extensionDependencies", [])
    require(isinstance(needed, list) and all(isinstance(it, str) for it in needed), 41)
    points = value.get("contributes", {})
    require(isinstance(points, dict), 41)
    menus = points.get("menus", {})
    require(isinstance(menus, dict), 41)
    lists = [points.get("commands", []), points.get("keybindings", []), menus.get("commandPalette", [])]
    require(all(isinstance(it, (list, dict)) for it in lists), 41)
    require(not needed, 90)


def handlers(value):
    require(isinstance(value, dict), 41)
    require("version" in value, 40)
    require(is_whole(value["version"]) and value["version"] in (1, 2), 41)
    require("handlers" in value, 40)
    require(isinstance(value["handlers"], list), 41)
    require(len(value["handlers"]) <= 1000, 44)
    for it in value["handlers"]:
        handler(it, value["version"])
    commands = [it["command"] for it in value["handlers"]]
    require(len(set(commands)) == len(commands), 43)


def handler(value, version):
    require(isinstance(value, dict), 41)
    shapes = {
        "command": is_word,
        "params": are_params,
        "budget": is_whole,
        "depth": is_whole,
        "texts": are_texts,
        "calls": are_texts,
        "code": lambda it: isinstance(it, str),
    }
    for name, has_shape in shapes.items():
        require(name in value or name in ("params", "texts", "calls"), 40)
        require(name not in value or has_shape(value[name]), 41)
    for name, most in (("params", 8), ("texts", 1000), ("calls", 1000)):
        require(len(value.get(name, [])) <= most, 44)
    require(1 <= value["budget"] <= 1_000_000_000 and 1 <= value["depth"] <= 64, 44)
    instructions(value["code"], version)


def are_texts(value):
    return isinstance(value, list) and all(isinstance(it, str) for it in value)


def are_params(value):
    if not isinstance(value, list) or not all(isinstance(it, dict) for it in value):
        return False
    names = [it.get("name") for it in value]
    kinds = [it.get("kind") for it in value]
    has_kinds = all(isinstance(it, str) and it in ("text", "number", "truth", "any") for it in kinds)
    return all(map(is_word, names)) and len(set(names)) == len(names) and has_kinds


def instructions(text, version):
    require(re.fullmatch("([0-9a-fA-F]{2})*", text), 42)
    content = bytes.fromhex(text)
    require(len(content) % 3 == 0, 50)
    code = [(content[at], content[at + 1] << 8 | content[at + 2]) for at in range(0, len(content), 3)]
    require(len(code) <= MOST_INSTRUCTIONS, 44)
    for opcode, operand in code:
        require(opcode in OPCODES[version], 51)
        require(operand in OPERANDS.get(opcode, range(1)), 52)
    blocks([opcode for opcode, _ in code])


def blocks(opcodes):
    count = 0
    for opcode in opcodes:
        require(opcode != END or count > 0, 53)
        require(opcode != REPEAT or count < MOST_BLOCKS, 53)
        require(opcode != RETURN or count == 0, 53)
        count += (opcode == REPEAT) - (opcode == END)
    require(count == 0, 53)


READERS = {"layout": layout, "rules": rules, "manifest": manifest, "handlers": handlers}


def numbers_for(kind, content):
    """The faults with which a file may be refused, and 0 if it may be accepted."""
    try:
        READERS[kind](value_of(content))
    except Fault as fault:
        return {fault.args[0]}
    return {0} | OF_HANDLERS if kind == "handlers" else {0}
