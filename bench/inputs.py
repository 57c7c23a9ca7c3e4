"""Inputs of measurements: random keystrokes, rules and scripts, and their files."""

import os

LETTERS = "abcdefghijklmnopqrstuvwxyz0123456789"
COMMANDS = ["deleteLeft", "deleteRight", "cursorLeft", "cursorRight"]
COMMANDS += ["buffer.clear", "buffer.top", "buffer.bottom", "no.such"]
MODIFIERS = ["", "ctrl+", "shift+", "alt+", "ctrl+shift+", "cmd+", "ctrl+alt+"]
STROKES = [modifiers + letter for modifiers in MODIFIERS for letter in LETTERS]


def paths_in(folder, *names):
    """The paths of files with these names in a folder."""
    return [os.path.join(folder, name) for name in names]


def write(path, parts):
    """Writes a file part by part, since the peak memory of this process counts as its children's."""
    with open(path, "w") as file:
        file.writelines(parts)


def random_keys(chance, count):
    """Random keystrokes."""
    return [chance.choice(STROKES) for _ in range(count)]


def random_rules(chance, pressed):
    """A rule for each key; one in eight types a text."""
    made = []
    for key in pressed:
        if chance.randrange(8) == 0:
            made.append({"key": key, "command": "type", "args": {"text": "hi"}})
        else:
            made.append({"key": key, "command": chance.choice(COMMANDS)})
    return made


def chords(count):
    """Different chords of two keystrokes."""
    pairs = (divmod(number, len(STROKES)) for number in range(count))
    return ["%s %s" % (STROKES[first], STROKES[second]) for first, second in pairs]
