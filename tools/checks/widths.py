"""Finds lines that are longer than 110 columns.

It checks the documents, the tools, the hosts, and the sources and definitions of the crates. It skips rows of
tables, data, golden files, crates.txt, where each crate has one line, and attributes `#[tactic(..)]`, which
`rt fmt` keeps on one line.
"""

import glob
import os

from checks.names import DOCUMENTS

WIDTH = 110
TOOLS = ("tools/*", "tools/*/*", "bench/*", ".ci/run", "keyrun", "rawrun", "keycheck")
HOSTS = ("include/*.h", "hosts/*/*.[chjp]*", "hosts/*/*.ts", "hosts/wasm/*/*.*", "hosts/rust/**/*.rs")
# A table that a tool writes.
WRITTEN = {"hosts/wasm/page/faults.js"}
CRATES = ("crates/*/src/**/*.rt", "crates/*/specs/**/*.antt")


def is_kept(line):
    """Whether a line can't be split: the row of a table, or an attribute."""
    return line.lstrip().startswith(("|", "#[tactic(", "#![tactic("))


def wide(top):
    """A message for each line that is too long."""
    forms = (*DOCUMENTS, *TOOLS, *HOSTS, *CRATES)
    files = {it for form in forms for it in glob.glob(form, root_dir=top, recursive=True)} - WRITTEN
    found = []
    for file in sorted(it for it in files if os.path.isfile(os.path.join(top, it))):
        with open(os.path.join(top, file), encoding="utf-8") as text:
            for number, line in enumerate(text, 1):
                width = len(line.rstrip("\n"))
                if width > WIDTH and not is_kept(line):
                    found.append(f"{file}:{number}: {width} columns, more than {WIDTH}")
    return found
