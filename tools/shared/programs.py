"""The built programs, and how tools run them."""

import os
import subprocess

from shared.kit import TOP

# The crates of the programs.
CRATES = {"keyrun": "kb_main", "rawrun": "kb_rawrun_main", "keycheck": "kb_keycheck_main"}
# The crate of the program that runs the golden files of the engine, and of hosts that documents show.
GOLDEN = "kb_golden_main"
EXAMPLES = ("kb_example_host", "kb_first_press")
# The programs as rt builds them.
PROGRAMS = {name: os.path.join(TOP, "crates", crate, "out", crate) for name, crate in CRATES.items()}


def chosen_programs(words):
    """The programs, with another build for each word NAME=PATH, and the other words."""
    given = dict(word.split("=", 1) for word in words if "=" in word)
    programs = {**PROGRAMS, **{name: os.path.abspath(path) for name, path in given.items()}}
    return programs, [word for word in words if "=" not in word]


def run_program(words, seconds, **how):
    """The status and both outputs of a run, or status -1 if it takes longer than so many seconds."""
    streams = {"stdout": subprocess.PIPE, "stderr": subprocess.PIPE}
    if "input" not in how:
        streams["stdin"] = subprocess.DEVNULL
    try:
        done = subprocess.run(words, timeout=seconds, check=False, **{**streams, **how})
    except subprocess.TimeoutExpired as late:
        return -1, late.stdout or b"", b"no end within %d seconds" % seconds
    return done.returncode, done.stdout or b"", done.stderr or b""


def write_files(folder, files):
    """Writes these contents below a folder. A path that ends with `/` is a folder."""
    for name, content in files.items():
        path = os.path.join(folder, name)
        os.makedirs(path if name.endswith("/") else os.path.dirname(path), exist_ok=True)
        if not name.endswith("/"):
            with open(path, "wb") as file:
                file.write(content)
