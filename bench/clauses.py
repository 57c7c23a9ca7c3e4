"""Measurements of context keys, clauses and enablements."""

import json
import os
import random

from inputs import paths_in, random_keys, random_rules, write
from measuring import TRIES, doubled, measure


# Context keys of VS Code, of 17 to 32 bytes.
EDITOR_KEYS = """
accessibilityModeEnabled activeEditorCanToggleReadonly activeEditorGroupEmpty activeEditorIsPinned
breadcrumbsVisible breakpointWidgetVisible callHierarchyVisible canNavigateForward commentEditorFocused
debugConfigurationType editorHasCodeActionsProvider editorHasDefinitionProvider editorHasFormattingProvider
editorHasMultipleSelections editorHasRenameProvider editorHasSelection explorerResourceIsFolder
explorerViewletFocus explorerViewletVisible findInputFocussed findWidgetVisible foldingRangeProviderEnabled
hasSnippetCompletions inCompositeEditor inlineSuggestionVisible inReferenceSearchEditor
markersNavigationVisible multipleEditorGroups notebookCellEditorFocused notebookEditorFocused
notificationCenterVisible parameterHintsVisible quickInputCursorAtEndOfQuickBox renameInputVisible
searchViewletVisible suggestWidgetHasSelection suggestWidgetVisible terminalHasBeenCreated
terminalProcessSupported
""".split()


def changes(folder):
    """Lines that set a key and press one in turn, over many context keys."""
    layout, user, script, out = paths_in(folder, "layout.json", "user.json", "script", "out")
    scopes = []
    for depth in range(10):
        numbers = range(1_000 * depth, 1_000 * depth + 1_000)
        scopes.append({"name": "scope%d" % depth, "keys": {"key%d" % it: it for it in numbers}})
        if depth:
            scopes[depth]["parent"] = "scope%d" % (depth - 1)
    write(layout, json.dumps({"scopes": scopes, "focus": "scope9"}))
    names = ["key%d" % (it * 37 % 10_000) for it in range(20)]
    write(user, json.dumps([{"key": "a", "command": "cursorLeft", "when": name} for name in names]))
    line = lambda it: "set scope0 key%d %d\n" % (it % 1_000, it) if it % 2 else "key a\n"
    write(script, (line(it) for it in range(50_000)))
    seconds, memory = measure(["--layout", layout, "--user", user, "--script", script], out)
    each = seconds / 50_000 * 1e6
    print(
        f"changes: 50000 lines over 10000 context keys: {each:.2f} microseconds a line, "
        f"{memory / 1e6:6.1f} MB peak"
    )
    return False


def atom(chance, names):
    """An atom of a clause over one of these context keys."""
    name = chance.choice(names)
    forms = ["%s", "!%s", "%s == 3", "%s != text3", "%s < 5", "%s in list", "%s not in list"]
    return chance.choice(forms) % name


def nested_layout(names):
    """Six nested scopes with these context keys spread over them; the innermost has the focus."""
    scopes = []
    for depth in range(6):
        keys = {name: number % 7 for number, name in enumerate(names) if number % 6 == depth}
        if depth == 0:
            keys["list"] = ["text%d" % number for number in range(10)]
        scopes.append({"name": "scope%d" % depth, "keys": keys})
        if depth:
            scopes[depth]["parent"] = "scope%d" % (depth - 1)
    return {"scopes": scopes, "focus": "scope5"}


def clause_lines(chance, names, bound, count):
    """Lines of a script: one in ten sets a key, the others press one."""
    values = ["true", "false", "3", "0", '"text3"', '["a"]']
    for number in range(count):
        if number % 10 == 9:
            yield "set scope%d %s %s\n" % (chance.randrange(6), chance.choice(names), chance.choice(values))
        else:
            yield "key %s\n" % chance.choice(bound)


def measure_clauses(folder, title, names, counts):
    """Presses over rules whose clauses use these context keys, and changes of the keys. True if a limit is
    exceeded."""
    layout, user, script, out = paths_in(folder, "layout.json", "user.json", "script", "out")
    chance = random.Random(4)
    bound = random_keys(chance, 20)
    write(layout, json.dumps(nested_layout(names)))
    made = random_rules(chance, [chance.choice(bound) for _ in range(1_000)])
    for rule in made:
        joint = chance.choice([" && ", " || "])
        rule["when"] = joint.join(atom(chance, names) for _ in range(5))
    write(user, json.dumps(made))
    write(script, "")
    loaded, _ = measure(["--layout", layout, "--user", user, "--script", script], out, 10)
    runs = {}
    for count in counts:
        lines = os.path.join(folder, "lines%d" % count)
        write(lines, clause_lines(random.Random(5), names, bound, count))
        runs[count] = ["--layout", layout, "--user", user, "--script", lines]

    def text(count, seconds):
        each = (seconds - loaded) / count * 1e6
        return f"{title} {count:6d} lines: {seconds:5.2f} s, {each:.2f} microseconds a line"

    return doubled(folder, runs, text, TRIES)


def clauses(folder):
    """Presses over rules with clauses, and changes of context keys."""
    names = ["key%d" % number for number in range(200)]
    return measure_clauses(folder, "clauses", names, (100_000, 200_000, 400_000))


def context(folder):
    """The same as `clauses`, with more context keys."""
    names = ["key%d" % number for number in range(1_000)]
    return measure_clauses(folder, "context", names, (25_000, 50_000, 100_000))


def editor_keys(folder):
    """The same as `clauses`, with context keys of VS Code."""
    return measure_clauses(folder, "editor keys", EDITOR_KEYS, (100_000, 200_000, 400_000))


def long_clause(folder):
    """One rule whose clause has many atoms."""
    layout, script = paths_in(folder, "layout.json", "script")
    names = ["key%d" % number for number in range(100)]
    write(layout, json.dumps({"scopes": [{"name": "window", "keys": {name: 1 for name in names}}]}))
    write(script, ("key a\n" for _ in range(1_000)))
    runs = {}
    for count in (10_000, 20_000, 40_000):
        user = os.path.join(folder, "clause%d.json" % count)
        when = " && ".join(names[number % 100] for number in range(count))
        write(user, json.dumps([{"key": "a", "command": "cursorLeft", "when": when}]))
        runs[count] = ["--layout", layout, "--user", user, "--script", script]

    def text(count, seconds):
        what = f"clause of {count:5d} atoms, evaluated 1,000 times"
        return f"{what}: {seconds:5.2f} s, {seconds / count * 1e3:.3f} microseconds an atom"

    return doubled(folder, runs, text, TRIES)


def enablements(folder):
    """Presses over rules whose commands have enablements. Half of the enablements hold."""
    layout, user, script, out = paths_in(folder, "layout.json", "user.json", "script", "out")
    chance = random.Random(7)
    values = {"key%d" % number: number % 2 for number in range(100)}
    write(layout, json.dumps({"scopes": [{"name": "window", "keys": values}]}))
    path = os.path.join(folder, "enabling")
    os.mkdir(path)
    commands = []
    for number in range(300):
        enablement = "key%d" % (number % 100)
        commands.append({"command": "some.command%d" % number, "title": "T", "enablement": enablement})
    manifest = {"name": "e", "contributes": {"commands": commands}}
    write(os.path.join(path, "package.json"), json.dumps(manifest))
    bound, made = random_keys(chance, 100), []
    for _ in range(1_000):
        made.append({"key": chance.choice(bound), "command": "some.command%d" % chance.randrange(300)})
    write(user, json.dumps(made))
    write(script, ("key %s\n" % chance.choice(bound) for _ in range(100_000)))
    seconds, memory = measure(["--layout", layout, "--user", user, "--script", script, path], out)
    print(
        f"enablements: 100000 presses over 1000 rules of 300 commands: {seconds:5.2f} s, "
        f"{memory / 1e6:6.1f} MB peak"
    )
    return False


def pattern(folder):
    """Presses of a key whose rule has a pattern in its clause."""
    layout, user, script, out = paths_in(folder, "layout.json", "user.json", "script", "out")
    write(layout, json.dumps({"scopes": [{"name": "window", "keys": {"lang": "typescriptreact"}}]}))
    clause = "lang =~ /^(java|type)script(react)?$/i"
    write(user, json.dumps([{"key": "a", "command": "cursorLeft", "when": clause}]))
    write(script, ("key a\n" for _ in range(100_000)))
    seconds, memory = measure(["--layout", layout, "--user", user, "--script", script], out)
    print("pattern: evaluated 100000 times: %5.2f s, %6.1f MB peak" % (seconds, memory / 1e6))
    return False
