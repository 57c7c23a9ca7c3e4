"""Measurements of `keycheck check`."""

import json
import os

from inputs import chords, paths_in, write
from measuring import (
    KEYCHECK,
    KEYRUN,
    TRIES,
    exceeds_limit,
    exceeds_times,
    measure,
    measure_in_turns,
    with_growth,
)

# How many times the instructions of a load of the same files a check may take.
CHECK_TIMES = 3


def checked_rules(commands):
    """A rule for each command, with a chord of its own and a clause."""
    made = enumerate(zip(chords(len(commands)), commands))
    when = lambda it: "key%d && !other" % (it % 100)
    return [{"key": key, "command": command, "when": when(it)} for it, (key, command) in made]


def keycheck(folder):
    """`keycheck check` of rules without problems, and of rules with one problem each."""
    none, out, bad = paths_in(folder, "none", "out", "bad.json")
    write(none, "")
    users = {count: os.path.join(folder, "checked%d.json" % count) for count in (5_000, 10_000, 20_000)}
    for count, user in users.items():
        write(user, json.dumps(checked_rules(["cursorLeft"] * count), indent=4))
    checked = {it: ["check", "--user", user] for it, user in users.items()}
    loaded = {it: ["--user", user, "--script", none] for it, user in users.items()}
    checks = measure_in_turns(checked, out, TRIES, KEYCHECK)
    loads = measure_in_turns(loaded, out, TRIES)
    for count, seconds, memory, growth in with_growth(checks):
        print(
            f"keycheck of {count:5d} rules: {seconds:6.4f} s, {seconds / loads[count][0]:4.2f} times a load "
            f"by keyrun, {memory / 1e6:6.1f} MB peak{growth}"
        )
    write(bad, json.dumps(checked_rules(["no.such%d" % it for it in range(20_000)]), indent=4))
    seconds, memory = measure(["check", "--level", "note", "--user", bad], out, 3, KEYCHECK, 1)
    print(
        f"keycheck of 20000 rules with a problem each: {seconds:6.4f} s, {memory / 1e6:6.1f} MB peak, "
        f"{os.path.getsize(out) / 1e6:.1f} MB out"
    )
    takes_too_long = exceeds_times(folder, checked, loaded, (KEYCHECK, KEYRUN), CHECK_TIMES)
    return exceeds_limit(folder, checked, checks, KEYCHECK) or takes_too_long
