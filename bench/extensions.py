"""Measurements of loads of extensions, of switches between them, and of the palette."""

import json
import os
import random

from inputs import chords, paths_in, write
from measuring import TRIES, doubled

PALETTE_WORDS = ["open", "close", "file", "Editor", "Straße", "toggle", "view"]
PALETTE_WORDS += ["git", "Branch", "search", "Replace", "format", "word", "Line"]


def extension(chance, rules, removals):
    """A manifest with this number of rules, and of removals of similar rules."""
    keys = chords(5_000)
    made = []
    for command, count in (("some.command%d", rules), ("-some.command%d", removals)):
        for _ in range(count):
            made.append({"key": chance.choice(keys), "command": command % chance.randrange(300)})
    return {"contributes": {"keybindings": made}}


def extension_folders(folder, counts):
    """The folders of 100 extensions with these numbers of rules together, and a tenth as many removals."""
    dirs = {}
    for count in counts:
        chance = random.Random(6)
        dirs[count] = [os.path.join(folder, "extension-%d-%d" % (count, number)) for number in range(100)]
        for number, path in enumerate(dirs[count]):
            os.mkdir(path)
            contributed = extension(chance, count // 100, count // 1_000)
            manifest = {"publisher": "p", "name": "e%d" % number, **contributed}
            write(os.path.join(path, "package.json"), json.dumps(manifest, indent=4))
    return dirs


def extensions(folder):
    """Loads of 100 extensions."""
    script = os.path.join(folder, "script")
    write(script, "")
    dirs = extension_folders(folder, (5_000, 10_000, 20_000))
    runs = {count: ["--script", script] + paths for count, paths in dirs.items()}
    counts = lambda count: f"{count:5d} rules, {count // 10:4d} removals"
    return doubled(folder, runs, lambda count, seconds: f"100 extensions, {counts(count)}: {seconds:6.4f} s")


def switches(folder):
    """One of 100 extensions that is disabled and enabled in turn."""
    script, short, room = paths_in(folder, "script", "short", "switched")
    os.mkdir(room)
    write(script, ("%s p.e0\n" % ("enable" if it % 2 else "disable") for it in range(10_000)))
    dirs = extension_folders(room, (5_000, 10_000, 20_000))
    runs = {count: ["--script", script] + paths for count, paths in dirs.items()}
    write(short, ["disable p.e0\n", "enable p.e0\n"] * 50)
    short_runs = {count: ["--script", short] + paths for count, paths in dirs.items()}

    def text(count, seconds):
        each = seconds / 10_000 * 1e6
        return f"switches of one of 100 extensions, {count:5d} rules: {each:.1f} microseconds each"

    return doubled(folder, runs, text, 1, counted_runs=short_runs)


def palette_folder(folder, chance, count):
    """An extension with this many commands, whose titles have three words and a number."""
    made = []
    for number in range(count):
        title = " ".join(chance.choice(PALETTE_WORDS) for _ in range(3)) + " %d" % number
        made.append({"command": "x.c%d" % number, "title": title, "category": chance.choice(PALETTE_WORDS)})
    path = os.path.join(folder, "palette%d" % count)
    os.mkdir(path)
    manifest = {"publisher": "p", "name": "e", "contributes": {"commands": made}}
    write(os.path.join(path, "package.json"), json.dumps(manifest))
    return path


def palettes(folder):
    """Queries of two prefixes of words and a number, with a choice after each third query."""
    chance = random.Random(7)
    script = os.path.join(folder, "queries")
    lines = []
    for number in range(300):
        first, second = (chance.choice(PALETTE_WORDS) for _ in range(2))
        lines.append("palette %s %s %d\n" % (first[:3], second[:2].upper(), chance.randrange(100)))
        if number % 3 == 0:
            lines.append("choose 1\n")
    write(script, lines)
    counts = (1_000, 2_000, 4_000)
    runs = {count: ["--script", script, palette_folder(folder, chance, count)] for count in counts}
    return doubled(folder, runs, lambda it, seconds: f"300 queries over {it:4d} commands: {seconds:6.4f} s")


def lists_of_palettes(folder):
    """Queries that find each command."""
    chance = random.Random(8)
    script = os.path.join(folder, "all")
    write(script, ["palette\n"] * 10)
    counts = (25_000, 50_000, 100_000)
    runs = {count: ["--script", script, palette_folder(folder, chance, count)] for count in counts}
    return doubled(folder, runs, lambda it, seconds: f"10 lists of {it:6d} commands: {seconds:6.4f} s", TRIES)
