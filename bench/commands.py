"""Measurements of starts of closures and handlers, and of loads that verify handlers."""

import json
import os

from inputs import paths_in, write
from measuring import (
    KEYRUN,
    RAWRUN,
    TRIES,
    doubled,
    exceeds_limit,
    exceeds_times,
    measure_in_turns,
    with_growth,
)

# Instructions in 166 pieces, each of which leaves the stack empty, with two paths to the next one.
VERIFIED_PIECE = "020001" "020002" "120000" "21%04x" "020003" "050000"
VERIFIED_PIECES = "".join(VERIFIED_PIECE % (6 * number + 6) for number in range(166))
# How many times the instructions of a load by rawrun one by keyrun may take, which verifies.
VERIFY_TIMES = 2


def measure_scripts(folder, name, user, lines_of, counts):
    """Runs scripts of these numbers of lines over the user's rules. True if a limit is exceeded."""
    rules = os.path.join(folder, "user.json")
    write(rules, json.dumps(user))
    runs = {}
    for count in counts:
        script = os.path.join(folder, "lines%d" % count)
        write(script, lines_of(count))
        runs[count] = ["--user", rules, "--script", script]

    def text(count, seconds):
        each = seconds / count * 1e6
        return f"{name} {count:6d}: {seconds:6.4f} s, {each:.2f} microseconds each"

    return doubled(folder, runs, text)


def starts(folder):
    """Presses that start closures of cheap commands."""
    commands = {"a": "cursorLeft", "b": "cursorRight", "c": "buffer.top", "d": "buffer.clear"}
    user = [{"key": key, "command": command} for key, command in commands.items()]
    lines = lambda count: ("key %s\n" % "abcd"[it % 4] for it in range(count))
    return measure_scripts(folder, "starts of closures", user, lines, (100_000, 200_000, 400_000))


def registrations(folder):
    """A closure that is disposed of and registered again, in turn."""

    def lines(count):
        for it in range(count):
            ticket = it // 2 + 9 if it else 1
            yield "register type\n" if it % 2 else "dispose %d\n" % ticket

    return measure_scripts(folder, "registrations", [], lines, (25_000, 50_000, 100_000))


def lists(folder):
    """Presses that start `runCommands` with 32 commands."""
    commands = ["cursorLeft", {"command": "type", "args": "x"}, "deleteLeft", "buffer.top"] * 8
    user = [{"key": "a", "command": "runCommands", "args": {"commands": commands}}]
    lines = lambda count: ("key a\n" for _ in range(count))
    return measure_scripts(folder, "lists of 32 commands", user, lines, (5_000, 10_000, 20_000))


def handler_folder(folder, name, handlers, version=1):
    """The folder of an extension with these handlers."""
    path = os.path.join(folder, name)
    os.mkdir(path)
    write(os.path.join(path, "package.json"), json.dumps({"name": name}))
    write(os.path.join(path, "handlers.json"), json.dumps({"version": version, "handlers": handlers}))
    return path


def measure_starts(folder, name, handlers, counts, instructions, program=RAWRUN, version=1):
    """Runs these numbers of presses that start the first handler. True if a limit is exceeded."""
    path = handler_folder(folder, name.replace(" ", "-"), handlers, version)
    rules = os.path.join(folder, "user.json")
    write(rules, json.dumps([{"key": "h", "command": handlers[0]["command"]}]))
    runs = {}
    for count in counts:
        script = os.path.join(folder, "presses%d" % count)
        write(script, ("key h\n" for _ in range(count)))
        runs[count] = ["--user", rules, "--script", script, path]

    def text(count, seconds):
        each = seconds / count
        of_one = f"{each / instructions * 1e9:5.1f} nanoseconds an instruction"
        return f"{name} {count:5d}: {seconds:6.4f} s, {each * 1e6:7.2f} microseconds each, {of_one}"

    return doubled(folder, runs, text, program=program)


def handler(command, code, texts=(), calls=(), budget=1_000_000_000, depth=1):
    """A handler, as a handlers.json has it."""
    pools = {"texts": list(texts), "calls": list(calls)}
    return {"command": command, "budget": budget, "depth": depth, **pools, "code": code}


def handlers(folder):
    """Starts of a handler that adds, compares and jumps, 8,000 instructions long."""
    piece = "020001" + "020002" + "100000" + "060000" + "120000" + "21ffff" + "020003" + "050000"
    # (Each piece leaves the stack empty. Its jump is taken, since a number isn't less than itself, and leads
    # to the next instruction.)
    code = "".join(piece.replace("ffff", "%04x" % (8 * number + 6)) for number in range(999))
    code += "020001050000" * 3 + "020001" + "000000"
    long, counts = [handler("x.long", code)], (500, 1_000, 2_000)
    raw = measure_starts(folder, "starts of 8000 instructions", long, counts, 8_000)
    name = "starts of 8000 verified instructions"
    return measure_starts(folder, name, long, counts, 8_000, KEYRUN) or raw


def blocks(folder):
    """Starts of a block of 60,000 iterations, which compares two numbers."""
    turns = 60_000
    code = "50%04x" % turns + "020001" + "020002" + "120000" + "050000" + "510000" + "000000"
    block = [handler("x.block", code)]
    name, counts = "starts of a block of %d iterations" % turns, (25, 50, 100)
    raw = measure_starts(folder, name, block, counts, 5 * turns + 2, version=2)
    return measure_starts(folder, name + ", verified", block, counts, 5 * turns + 2, KEYRUN, 2) or raw


def calls(folder):
    """Starts of a chain of 64 handlers that call each other."""
    chain = []
    for number in range(63):
        limits = {"depth": 64 - number, "budget": 1_000_000 - 1_000 * number}
        chain.append(handler("x.%d" % number, "300000000000", calls=["x.%d" % (number + 1)], **limits))
    chain.append(handler("x.63", "010000300000000000", ["hi"], ["type"], depth=1, budget=2_000))
    return measure_starts(folder, "chains of 64 calls", chain, (500, 1_000, 2_000), 2 * 63 + 3)


def joins(folder):
    """Starts of a handler that appends to a text 1,000 times."""
    code = "010000" + "010000150000" * 1_000 + "050000000000"
    join = [handler("x.join", code, ["x" * 100])]
    return measure_starts(folder, "starts of 1000 joins", join, (5, 10, 20), 2_003)


def loads_of_handlers(folder):
    """Loads of files of handlers, up to 12 MB."""
    rules, script = paths_in(folder, "user.json", "none")
    write(rules, "[]")
    write(script, "")
    runs = {}
    code = "020001050000" * 1_000 + "000000"
    for count in (250, 500, 1_000):
        made = [handler("x.%d" % number, code) for number in range(count)]
        path = handler_folder(folder, "many%d" % count, made)
        runs[count] = ["--user", rules, "--script", script, path]
    text = lambda count, seconds: f"load of {count:4d} handlers of 2001 instructions: {seconds:6.4f} s"
    return doubled(folder, runs, text, TRIES, RAWRUN)


def updates(folder):
    """Updates of an extension with 100 handlers of 1,000 instructions."""
    code = VERIFIED_PIECES + "010000" + "300000" + "020001" + "000000"
    made = [handler("x.%d" % it, code, ["hi"], ["type"], 5_000) for it in range(100)]
    path = handler_folder(folder, "updated", made)
    line = "update undefined_publisher.updated %s\n" % json.dumps({"version": 1, "handlers": made})
    runs = {}
    for count in (6, 12, 24):
        script = os.path.join(folder, "updates%d" % count)
        write(script, (line for _ in range(count)))
        runs[count] = ["--script", script, path]

    def text(count, seconds):
        each = seconds / count * 1e3
        what = f"{count:2d} updates of 100 handlers of 1000 instructions"
        return f"{what}: {seconds:6.4f} s, {each:.2f} milliseconds each"

    return doubled(folder, runs, text, TRIES)


def verified_loads(folder):
    """Loads of up to 100 extensions with 100 handlers of 1,000 instructions, by keyrun, which verifies them,
    and by rawrun."""
    script, out = paths_in(folder, "none", "out")
    write(script, "")
    code = VERIFIED_PIECES + "010000" + "300000" + "020001" + "000000"
    runs = {}
    for count in (25, 50, 100):
        dirs = []
        for number in range(count):
            names = ["e%d.x%d" % (number, it) for it in range(100)]
            made = [handler(name, code, ["hi"], ["type"], 5_000) for name in names]
            dirs.append(handler_folder(folder, "some%d-%d" % (count, number), made))
        runs[count] = ["--script", script] + dirs
    verified, read = (measure_in_turns(runs, out, 3, program) for program in (KEYRUN, RAWRUN))
    for count, seconds, memory, growth in with_growth(verified):
        print(
            f"{count:3d} extensions with 100 verified handlers of 1000 instructions: {seconds:6.4f} s, "
            f"{seconds / read[count][0]:4.2f} times reading them, {memory / 1e6:6.1f} MB peak{growth}"
        )
    takes_too_long = exceeds_times(folder, runs, runs, (KEYRUN, RAWRUN), VERIFY_TIMES)
    return exceeds_limit(folder, runs, verified) or takes_too_long
