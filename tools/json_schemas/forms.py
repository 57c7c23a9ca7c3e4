"""The schemas, by the names of their files. A schema refuses only what a load refuses or drops. Its tables
are those of the sources (tables.py)."""

from json_schemas import tables

# Members that editors offer, and say what they are for. The tool ends where a table has a member without one.
MEANINGS = {
    "rule": {
        "command": "The command's identifier. The empty text takes the key from the rules above, and starts"
        " nothing. A `-` in front makes it a removal: it removes rules of the command behind it.",
        "key": "The keystrokes. A removal without them removes all rules of its command.",
        "when": "A clause, such as `editorFocus && !dirty`. Absent or blank: the rule always applies.",
        "args": "The arguments of the command. Numbers have to be whole.",
        "mac": "The keystrokes on macOS, in place of `key`.",
        "linux": "The keystrokes on Linux, in place of `key`.",
        "win": "The keystrokes on Windows, in place of `key`.",
    },
    "layout": {
        "scopes": "The scopes, from the outermost inward: a scope stands behind its parent.",
        "focus": "The name of the scope that has the focus at first. Without it the first scope has it.",
    },
    "scope": {
        "name": "The name of the scope, which no other one has.",
        "parent": "The name of the scope around it, which stands above. Only the first scope has none.",
        "keys": "The context keys that the scope has at first, with their values.",
    },
    "handlers": {
        "version": "2 for code with repeated blocks, else 1.",
        "handlers": "The handlers. No two have the same command.",
    },
    "handler": {
        "command": "The identifier of the command that the handler is.",
        "params": "The parameters, in order. No two have the same name.",
        "budget": "The most that a start may cost.",
        "depth": "How deep calls may nest.",
        "texts": "The texts that the code uses, by index.",
        "calls": "The commands that the code calls, by index.",
        "code": "The instructions in hexadecimal digits, six for each. `keycheck assemble` writes them.",
        "lines": "The line of each instruction in handlers.asm. Readers ignore this member.",
    },
    "param": {
        "name": "The name, by which `args` of a rule give its value.",
        "kind": "The kind of its values.",
    },
    "manifest": {
        "name": "The second half of the identifier `publisher.name`.",
        "publisher": "The first half of the identifier `publisher.name`.",
        "extensionDependencies": "The identifiers of extensions that have to be loaded earlier.",
        "contributes": "What the extension contributes.",
    },
    "contributes": {
        "commands": "The commands that the palette lists. Of several entries for one the first counts.",
        "keybindings": "The key rules.",
        "menus": "Of the menus only `commandPalette` is read.",
    },
    "menus": {"commandPalette": "When the palette shows a command. A command without an item is shown."},
    "command": {
        "command": "The command's identifier.",
        "title": "Its text in the palette.",
        "category": "The text before the title, and a colon.",
        "enablement": "A clause, without which no rule starts the command.",
        "icon": "It isn't read.",
        "shortTitle": "It isn't read.",
    },
    "item": {
        "command": "The command's identifier.",
        "when": "A clause: when the palette shows the command. Absent or blank: always.",
        "group": "It isn't read.",
        "alt": "It isn't read.",
    },
}

TEXT = {"type": "string"}
WORD = {"type": "string", "minLength": 1}
WHOLE = {"minimum": -(2**63), "maximum": 2**63 - 1}
DIGIT = "[0-9a-fA-F]"
# Editors show this as a warning at a member that no reader reads. Validators pass over it.
UNKNOWN = {"deprecationMessage": "This member isn't read."}
NOT_FOR_USERS = {"deprecationMessage": "It isn't read here: only rules of extensions have it."}


def in_any_case(name):
    """The pattern of a name in any ASCII letter case."""
    return "".join(f"[{it}{it.upper()}]" if it.isalpha() else it for it in name)


def key_pattern():
    """The pattern of a key's name. Names of one character are in one class."""
    short = [it for it in tables.KEYS if len(it) == 1]
    letters = "".join(it + it.upper() if it.isalpha() else it for it in short if it not in "\\]-[")
    words = [in_any_case(it) for it in tables.KEYS if len(it) > 1]
    return "(?:[%s\\[\\\\\\]-]|%s)" % (letters, "|".join(words))


def keys():
    """Keystrokes: their pattern, and what an editor says of them."""
    modifiers = "|".join(map(in_any_case, tables.MODIFIERS))
    stroke = f"(?:(?:{modifiers})[+-])*{key_pattern()}"
    return {
        "type": "string",
        "pattern": "^ *(?:%s(?: +|$)){1,%d}$" % (stroke, tables.STROKES),
        "patternErrorMessage": "These are no keystrokes: 1 to %d with spaces between them, each of modifiers"
        " (%s) with a + behind each, and a key." % (tables.STROKES, ", ".join(tables.MODIFIERS)),
        "description": "Keystrokes, such as `ctrl+k ctrl+t`. Modifiers: %s. Keys: %s."
        % (", ".join(tables.MODIFIERS), " ".join(tables.KEYS)),
    }


def args():
    """Any value whose numbers are whole."""
    of_args = {"$ref": "#/definitions/args"}
    types = ["null", "boolean", "string", "integer", "array", "object"]
    return {"type": types, **WHOLE, "items": of_args, "additionalProperties": of_args}


def members(whose, names, /, **shapes):
    """The members of an object: those of the sources' table, each with its meaning and its shape."""
    meanings = MEANINGS[whose]
    if set(meanings) - {"lines"} != set(names):
        raise SystemExit(f"tools/schemas: the members of a {whose} are {', '.join(names)} in the sources")
    # (a schema beside `$ref` isn't looked at, so the reference is one of a list)
    shaped = {it: shapes.get(it, {}) for it in meanings}
    whole = {it: {"allOf": [shape]} if "$ref" in shape else shape for it, shape in shaped.items()}
    return {it: {"description": meanings[it], **whole[it]} for it in meanings}


def entries(name):
    """The entries of a contribution point: a list, or a lone object."""
    of = {"$ref": f"#/definitions/{name}"}
    return {"type": ["array", "object"], "items": of, "if": {"type": "object"}, "then": of}


def rule(needs, **shapes):
    """A rule or a removal. A rule needs keystrokes by one of some members."""
    of_keys = {"$ref": "#/definitions/keys"}
    by_platform = {it: shapes.get(it, of_keys) for it in tables.PLATFORMS}
    shape = {
        "command": {**TEXT, "examples": [*tables.NATIVES, "runCommands"]},
        "key": of_keys,
        "when": TEXT,
        "args": {"$ref": "#/definitions/args"},
        **by_platform,
    }
    required = [{"required": [it]} for it in needs]
    return {
        "type": "object",
        "required": ["command"],
        "properties": members("rule", tables.entry_members("Keybindings"), **shape),
        "additionalProperties": UNKNOWN,
        "if": {"required": ["command"], "properties": {"command": {"pattern": "^-"}}},
        "else": required[0] if len(required) == 1 else {"anyOf": required},
    }


def schema(title, definitions=None, **shape):
    """A schema with its head."""
    head = {
        "$schema": "http://json-schema.org/draft-07/schema#",
        "$comment": "tools/schemas writes this file from the sources.",
        "title": title,
    }
    return {**head, **shape, **({"definitions": definitions} if definitions else {})}


def keybindings():
    """Default rules and a user's rules."""
    shapes = dict.fromkeys(tables.PLATFORMS, NOT_FOR_USERS)
    definitions = {"rule": rule(["key"], **shapes), "keys": keys(), "args": args()}
    body = {"key": "$1", "command": "$2"}
    snippets = [
        {"label": "rule", "body": body},
        {"label": "rule with a clause", "body": {**body, "when": "$3"}},
        {"label": "removal", "body": {"key": "$1", "command": "-$2"}},
    ]
    items = {"allOf": [{"$ref": "#/definitions/rule"}], "defaultSnippets": snippets}
    return schema("Key rules (keybindings.json)", definitions, type="array", items=items)


def layout():
    """A layout: the first scope has no parent, and each other one has."""
    value = {"type": ["boolean", "integer", "string", "array", "object"], **WHOLE, "items": TEXT}
    values = {"type": "object", "maxProperties": tables.CONTEXT_KEYS, "additionalProperties": value}
    scope = {
        "type": "object",
        "required": ["name"],
        "properties": members("scope", tables.file_members("SCOPE"), name=TEXT, parent=TEXT, keys=values),
        "additionalProperties": UNKNOWN,
    }
    of_scope = [{"$ref": "#/definitions/scope"}]
    scopes = {
        "type": "array",
        "minItems": 1,
        "maxItems": tables.SCOPES,
        "items": [{"allOf": of_scope, "properties": {"parent": False}}],
        "additionalItems": {"allOf": of_scope, "required": ["parent"]},
    }
    properties = members("layout", tables.file_members("LAYOUT"), scopes=scopes, focus=TEXT)
    return schema(
        "The scopes of an editor with their context keys (layout.json)",
        {"scope": scope},
        type="object",
        required=["scopes"],
        properties={"$schema": TEXT, **properties},
        additionalProperties=UNKNOWN,
    )


def code_pattern(version):
    """The pattern of code: for each opcode of the version the operands that it may have."""
    of_two = ("Repeat", "End")
    rows = [it for it in tables.OPCODES if version == 2 or it[1] not in of_two]
    bare = [code for code, name, any_operand in rows if not any_operand and name != "Truth"]
    full = [code for code, name, any_operand in rows if any_operand and name != "Repeat"]
    forms = ["(?:%s)0000" % "|".join(bare), "(?:%s)%s{4}" % ("|".join(full), DIGIT)]
    for code, name, _ in rows:
        if name == "Truth":
            forms.append(f"{code}000[01]")
        if name == "Repeat":
            # (once at least)
            some = (f"{'0' * at}[1-9a-fA-F]{DIGIT * (3 - at)}" for at in range(4))
            forms.append("%s(?:%s)" % (code, "|".join(some)))
    return "^(?:%s)*$" % "|".join(forms)


def code_of(version):
    """What the code of handlers has to be in a file of a version."""
    code = {
        "pattern": code_pattern(version),
        "patternErrorMessage": f"This is no code of version {version}: {2 * tables.INSTRUCTION_BYTES} digits"
        " for each instruction, two of its opcode and four of its operand.",
    }
    of_handlers = {"items": {"properties": {"code": code}}}
    return {"properties": {"handlers": of_handlers}}


def handler():
    """A handler."""
    param = {
        "type": "object",
        "required": ["name", "kind"],
        "properties": members(
            "param", tables.file_members("PARAM"), name=WORD, kind={"enum": list(tables.KINDS)}
        ),
        "additionalProperties": UNKNOWN,
    }
    texts = {"type": "array", "maxItems": tables.TEXTS, "items": TEXT}
    shapes = {
        "command": WORD,
        "params": {"type": "array", "maxItems": tables.PARAMS, "items": param},
        "budget": {"type": "integer", "minimum": 1, "maximum": tables.BUDGET},
        "depth": {"type": "integer", "minimum": 1, "maximum": tables.DEPTH},
        "texts": texts,
        "calls": texts,
        "code": {**TEXT, "maxLength": 2 * tables.INSTRUCTION_BYTES * tables.INSTRUCTIONS},
    }
    return {
        "type": "object",
        "required": ["command", "budget", "depth", "code"],
        "properties": members("handler", tables.file_members("HANDLER"), **shapes),
        "additionalProperties": UNKNOWN,
    }


def handlers():
    """A file of handlers."""
    listed = {"type": "array", "maxItems": tables.HANDLERS, "items": {"$ref": "#/definitions/handler"}}
    shapes = {"version": {"enum": [1, 2]}, "handlers": listed}
    properties = members("handlers", tables.file_members("FILE"), **shapes)
    is_one = {"required": ["version"], "properties": {"version": {"const": 1}}}
    return schema(
        "Commands in bytecode (handlers.json)",
        {"handler": handler()},
        type="object",
        required=["version", "handlers"],
        properties={"$schema": TEXT, **properties},
        additionalProperties=UNKNOWN,
        **{"if": is_one, "then": code_of(1), "else": code_of(2)},
    )


def entry(whose, part, required, read):
    """An entry of `commands` or of `commandPalette`, of which these members are read."""
    properties = members(whose, tables.entry_members(part), **dict.fromkeys(read, TEXT))
    return {"type": "object", "required": required, "properties": properties}


def package():
    """A manifest, as far as it is read. All other members are those of others."""
    texts = ("command", "title", "category", "enablement")
    definitions = {
        "command": entry("command", "Commands", ["command", "title"], texts),
        "rule": rule(["key", *tables.PLATFORMS]),
        "item": entry("item", "Palette", ["command"], ("command", "when")),
        "keys": keys(),
        "args": args(),
    }
    menus = members("menus", tables.manifest_members("MENUS"), commandPalette=entries("item"))
    points = members(
        "contributes",
        tables.manifest_members("POINTS"),
        commands=entries("command"),
        keybindings=entries("rule"),
        menus={"type": "object", "properties": menus},
    )
    properties = members(
        "manifest",
        tables.manifest_members("MEMBERS"),
        name=WORD,
        publisher=WORD,
        extensionDependencies={"type": "array", "items": TEXT},
        contributes={"type": "object", "properties": points},
    )
    title = "What Pafjirn reads of an extension's package.json"
    return schema(title, definitions, type="object", required=["name"], properties=properties)


SCHEMAS = {
    "keybindings.schema.json": keybindings,
    "layout.schema.json": layout,
    "handlers.schema.json": handlers,
    "package.schema.json": package,
}
