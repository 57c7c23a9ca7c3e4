"""The tables of the sources that the schemas repeat: names of keys, members, limits and opcodes."""

import json
import os
import re

from shared.kit import TOP

TEXT = re.compile(r'"(?:[^"\\]|\\.)*"')


def source(path):
    """The source of a crate."""
    with open(os.path.join(TOP, "crates", path), encoding="utf-8") as text:
        return text.read()


def texts_in(code):
    """The texts in quotes in a piece of code."""
    return [json.loads(it) for it in TEXT.findall(code)]


def found(pattern, path):
    """What a pattern finds in a source, which has to have it."""
    match = re.search(pattern, source(path), re.S)
    if match is None:
        raise SystemExit(f"tools/schemas: crates/{path} has nothing like {pattern}")
    return match


def number(path, name):
    """The number that a constant is."""
    return int(found(rf"\bconst {name}: \w+ = ([\d_]+);", path)[1].replace("_", ""))


def texts(path, name):
    """The texts that a constant lists. A constant gives the length of the list that it has."""
    match = found(rf"\bconst {name}: \[&str; (\w+)\] = \[(.*?)\n?\];", path)
    listed = texts_in(re.sub(r"(?m)^\s*//.*$", "", match[2]))
    count = int(match[1]) if match[1].isdigit() else number(path, match[1])
    if len(listed) != count:
        raise SystemExit(f"tools/schemas: {name} of crates/{path} has {len(listed)} texts, not {count}")
    return listed


def arms(path, function):
    """The texts that the arms of a function's `match` have in front."""
    body = found(rf"\bfn {function}\(.*?\n    ?\}}\n", path)[0]
    return texts_in("\n".join(re.findall(r"(?m)^ +(\".*?) =>", body)))


MEMBER_LINTS = "kb_member_lints/src/"


def entry_members(part):
    """The known members of an entry of a contribution point."""
    body = found(rf"Part::{part} => &\[(.*?)\]", MEMBER_LINTS + "member_lints.rt")[1]
    return texts_in(body)


def file_members(name):
    """The known members of a layout or a file of handlers, or of a part of one."""
    return texts(MEMBER_LINTS + "file_members.rt", name)


def manifest_members(name):
    """The known members of a manifest, or of a part of one."""
    return texts(MEMBER_LINTS + "member_lints.rt", name)


def modifiers():
    """The names of modifiers."""
    return re.findall(r'same_name\(word, "(\w+)"\)', source("kb_keys/src/modifier.rt"))


def opcodes():
    """The opcodes, each with its instruction and with whether the operand may be any."""
    body = found(r"fn of\(opcode: u8.*?\n    \}\n", "kb_code/src/instr.rt")[0]
    rows = re.findall(r"0x(\d\d) => Instr::(\w+)(\(operand\))?", body)
    return [(code, name, bool(operand)) for code, name, operand in rows]


KEYS = texts("kb_keys/src/key_name.rt", "NAMES")
MODIFIERS = modifiers()
PLATFORMS = arms("kb_keys/src/platform.rt", "named")
KINDS = arms("kb_handler_file/src/parameters.rt", "kind_named")
NATIVES = arms("kb_core/src/native.rt", "named")
OPCODES = opcodes()
STROKES = number("kb_keys/src/chord.rt", "LIMIT")
SCOPES = number("kb_context/src/layout.rt", "SCOPE_LIMIT")
CONTEXT_KEYS = number("kb_context/src/scope_tree.rt", "KEY_LIMIT")
HANDLERS = number("kb_handler_file/src/handler_file.rt", "HANDLER_LIMIT")
PARAMS = number("kb_handler_file/src/limits.rt", "PARAM_LIMIT")
TEXTS = number("kb_handler_file/src/limits.rt", "TEXT_LIMIT")
BUDGET = number("kb_handler_file/src/limits.rt", "BUDGET_LIMIT")
DEPTH = number("kb_handler_file/src/limits.rt", "DEPTH_LIMIT")
INSTRUCTIONS = number("kb_handler_file/src/code.rt", "INSTR_LIMIT")
INSTRUCTION_BYTES = number("kb_handler_file/src/code.rt", "INSTR_BYTES")
