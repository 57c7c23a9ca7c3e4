"""Measurements of key presses over rules, and of loads of rules."""

import json
import os
import random
import re

from inputs import LETTERS, MODIFIERS, STROKES, chords, paths_in, random_keys, random_rules, write
from measuring import (
    SHORT_TRIES,
    TOP,
    TRIES,
    counted,
    doubled,
    exceeds_limit,
    measure,
    measure_in_turns,
    peak_when_loaded,
    with_growth,
)

LOAD_TRIES = 60
PRESSES = 350_000
SCRIPT_MEMORY = 24_000_000
TYPED_MEMORY = 32_000_000
SEARCH_GROWTH = 1.2
# How many times the size of a file its load may add to the peak memory.
FILE_MEMORY = 10


def presses(folder):
    """Key presses over 100 rules."""
    user, out = paths_in(folder, "user.json", "out")
    chance = random.Random(1)
    write(user, json.dumps(random_rules(chance, random_keys(chance, 100))))
    scripts = {PRESSES * factor: os.path.join(folder, "presses%d" % factor) for factor in (1, 2, 4)}
    for count, script in scripts.items():
        write(script, ("key %s\n" % chance.choice(LETTERS) for _ in range(count)))
    runs = {count: ["--user", user, "--script", script] for count, script in scripts.items()}
    found = measure_in_turns(runs, out, TRIES)
    failed = False
    for count, seconds, memory, growth in with_growth(found):
        size = os.path.getsize(scripts[count])
        print(
            f"presses {count:8d}: {size / 1e6:5.1f} MB in, {seconds:5.2f} s, "
            f"{seconds / count * 1e6:.2f} microseconds each, {memory / 1e6:6.1f} MB peak, "
            f"{memory / size:.2f} times the script{growth}"
        )
        failed |= memory >= SCRIPT_MEMORY
    return exceeds_limit(folder, runs, found) or failed


def typed_keys(folder):
    """Presses that each type a letter, so that each line of the trace has a longer text."""
    user = os.path.join(folder, "user.json")
    write(user, json.dumps([{"key": key, "command": "type", "args": {"text": key}} for key in LETTERS]))
    failed = False
    for count in (7_500, 15_000, 30_000):
        script = os.path.join(folder, "typed%d" % count)
        write(script, ("key %s\n" % LETTERS[it % len(LETTERS)] for it in range(count)))
        seconds, memory = measure(["--user", user, "--script", script], os.devnull, 3)
        print("typed keys %5d: %5.2f s, %6.1f MB peak" % (count, seconds, memory / 1e6))
        failed |= memory >= TYPED_MEMORY
    return failed


def default_rules(folder):
    """Presses over the default rules of the example."""
    defaults = os.path.join(TOP, "examples/defaults.json")
    script, out = paths_in(folder, "script", "out")
    chance = random.Random(9)
    with open(defaults) as file:
        bound = re.findall(r'"key": "([^" ]+)"', file.read())
    pressed = bound + [chance.choice(MODIFIERS) + chance.choice(LETTERS) for _ in bound]
    write(script, ("key %s\n" % chance.choice(pressed) for _ in range(1_000_000)))
    seconds, memory = measure(["--defaults", defaults, "--script", script], out, 3)
    print("default rules: 1000000 presses: %5.2f s, %6.1f MB peak" % (seconds, memory / 1e6))
    return False


def rule_file(count):
    """The parts of a file of `count` rules in VS Code's layout: one member a line, a comment above each rule,
    and arguments in every fourth rule. A rule takes some 210 bytes."""
    chance = random.Random(2)
    yield "// Key rules, for a measure.\n[\n"
    for number in range(count):
        first, second = random_keys(chance, 2)
        yield "    // What the rule below is for, since when I have it, and who else has it.\n"
        yield '    {\n        "key": "%s %s",\n' % (first, second)
        if number % 4 == 0:
            yield '        "args": { "text": "some text to type" },\n'
        command = "workbench.action.terminal.openSomething%d" % chance.randrange(1000)
        yield '        "command": "%s"\n    },\n' % command
    yield "]\n"


def load(folder):
    """Rule files of 1, 2 and 4 MB."""
    script, out, none = paths_in(folder, "script", "out", "none.json")
    write(script, "")
    write(none, "[]")
    users = {count: os.path.join(folder, "user%d.json" % count) for count in (4_900, 9_800, 19_600)}
    for count, user in users.items():
        write(user, rule_file(count))
    runs = {count: ["--user", user, "--script", script] for count, user in users.items()}
    found = measure_in_turns(runs, out, LOAD_TRIES)
    empty, failed = peak_when_loaded(["--user", none]), False
    for count, seconds, _, growth in with_growth(found):
        memory, size = peak_when_loaded(["--user", users[count]]), os.path.getsize(users[count])
        added = (memory - empty) / size
        print(
            f"load {size / 1e6:4.1f} MB: {count:6d} rules, {seconds:6.4f} s, {memory / 1e6:6.1f} MB peak, "
            f"{added:.2f} times the file in addition to {empty / 1e6:.1f} MB{growth}"
        )
        failed |= added >= FILE_MEMORY
    return exceeds_limit(folder, runs, found) or failed


def measure_search(folder, name, made, pressed, count=200_000):
    """The instructions of a press of one of these keys over these rules. Prints its microseconds too."""
    user, script, none, out = paths_in(folder, "user.json", "script", "none", "out")
    write(user, json.dumps(made))
    write(none, "")
    write(script, ("key %s\n" % pressed[it % len(pressed)] for it in range(count)))
    load, run = (["--user", user, "--script", it] for it in (none, script))
    loaded, _ = measure(load, out, SHORT_TRIES)
    seconds, memory = measure(run, out)
    each = (seconds - loaded) / count * 1e6
    instructions = (counted(run, folder) - counted(load, folder)) / count
    print(
        f"search in {len(made):6d} rules, {name}: {each:5.2f} microseconds, {instructions:.0f} instructions "
        f"a press, {memory / 1e6:6.1f} MB peak"
    )
    return instructions


def search(folder):
    """The same presses over few and over many rules."""
    spread = []
    for count in (1_000, 10_000, 100_000):
        made = [{"key": STROKES[it % len(STROKES)], "command": "cursorLeft"} for it in range(count)]
        spread.append(measure_search(folder, "spread", made, STROKES))
    for count in (1_000, 10_000):
        made = [{"key": "a", "command": "cursorLeft"}]
        made += [{"key": "a", "command": "cursorRight", "when": "never"} for _ in range(count - 1)]
        measure_search(folder, "one keystroke", made, ["a"], 2_000)
    return spread[-1] > SEARCH_GROWTH * spread[0]


def removals(folder):
    """Equal numbers of removals and rules, all of one command with different keys."""
    script = os.path.join(folder, "script")
    write(script, "")
    runs = {}
    for count in (5_000, 10_000, 20_000):
        defaults, user = paths_in(folder, "defaults%d.json" % count, "removals%d.json" % count)
        keys = chords(2 * count)
        write(defaults, json.dumps([{"key": key, "command": "x"} for key in keys[:count]]))
        write(user, json.dumps([{"key": key, "command": "-x"} for key in keys[count:]]))
        runs[count] = ["--defaults", defaults, "--user", user, "--script", script]
    text = lambda count, seconds: f"removals {count:5d} of one command, as many rules: {seconds:6.4f} s"
    return doubled(folder, runs, text)


def same_keys(folder):
    """Rules and removals of one command and one key: each removal is compared with each rule by its
    clause."""
    defaults, user, script, out = paths_in(folder, "defaults.json", "user.json", "script", "out")
    write(script, "")
    for count in (100, 1_000, 3_000):
        for path, command, clause in ((defaults, "x", "k%d && l"), (user, "-x", "k%d && m")):
            made = [{"key": "a", "command": command, "when": clause % number} for number in range(count)]
            write(path, json.dumps(made))
        seconds, memory = measure(["--defaults", defaults, "--user", user, "--script", script], out, 10)
        print(
            f"same keys: {count:4d} rules and as many removals, compared by clauses: {seconds:6.4f} s, "
            f"{memory / 1e6:6.1f} MB peak"
        )
    return False
