"""Files that nest as deep as a load accepts them, for the depth of the stack that an engine needs."""

import json
import os

# How deep JSON, the operators of a clause, and the groups of a pattern may nest. A pattern that would be
# compiled to more than `regex` allows is nested less.
LEVELS, OPERATORS, GROUPS, BRANCHES, REPETITIONS = 127, 64, 249, 100, 12


def nested(levels):
    """A list in a list, so many levels deep."""
    return "[" * levels + "]" * levels


def rule(key, **members):
    return json.dumps({"key": key, "command": "type", "args": key, **members})


def rule_files():
    """The texts of files of rules, each of which binds `a`."""
    tests = ["k =~ /%s/" % pattern for pattern in patterns()]
    turned = OPERATORS // 2
    clauses = ["(" * OPERATORS + "k" + ")" * OPERATORS, "!(" * turned + "k" + ")" * turned]
    clauses += [" && ".join(["k"] * 2000), " || ".join(["n"] * 2000 + ["k"]), *tests]
    # (the list of rules and the rule are two levels)
    yield '[{ "key": "a", "command": "type", "args": %s }]' % nested(LEVELS - 2)
    steps = ", ".join(['{ "command": "type", "args": %s }' % nested(LEVELS - 6)] * 32)
    yield '[{ "key": "a", "command": "runCommands", "args": { "commands": [%s] } }]' % steps
    for clause in clauses:
        yield "[%s]" % rule("a", when=clause)


def patterns():
    """Patterns of nested groups, and such with a branch and a repetition at each level."""
    yield "(" * GROUPS + "x" + ")" * GROUPS
    yield "(a|" * BRANCHES + "x" + ")" * BRANCHES
    yield "(?:b?" * REPETITIONS + "x" + "){0,2}" * REPETITIONS


def write(room, name, text):
    path = os.path.join(room, name)
    os.makedirs(os.path.dirname(path), exist_ok=True)
    with open(path, "w", encoding="utf-8") as file:
        file.write(text)
    return path


def cases(room):
    """The arguments of runs of keyrun over such files, which are written to this folder."""
    presses = "set window k true\nkey a\nset window k \"x\"\nkey a\npalette x\n"
    script = presses + "reload %s\nkey a\n" % nested(LEVELS)
    words = ["--script", write(room, "script", script)]
    for number, text in enumerate(rule_files()):
        yield [*words, "--user", write(room, "user-%d.json" % number, text)]
    deep = '{ "name": "e", "deep": %s, "scopes": [{ "name": "window" }] }' % nested(LEVELS - 1)
    yield [*words, "--layout", write(room, "layout.json", deep)]
    write(room, "e/handlers.json", '{ "version": 1, "handlers": [], "deep": %s }' % nested(LEVELS - 1))
    yield [*words, os.path.dirname(write(room, "e/package.json", deep))]
