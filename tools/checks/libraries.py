"""Finds crates of this repository that another one names in a contract, definition or proof, and that
crates.txt doesn't give it. rt ci then stops at that crate; tools/check-over doesn't.
"""

import glob
import os
import re

NAMED = re.compile(r"\bRattle\.(kb_[a-z_]+)\.")


def lacking(crates):
    """A line for each crate that lacks another one."""
    found = []
    for crate in crates:
        uses = {it.name for it in crate.deps} | {crate.name}
        for path in sorted(glob.glob("**/*.*t", root_dir=crate.folder, recursive=True)):
            if not path.endswith((".rt", ".antt")) or path.startswith("out/"):
                continue
            with open(os.path.join(crate.folder, path), encoding="utf-8") as text:
                for name in sorted(set(NAMED.findall(text.read())) - uses):
                    found.append(f"crates/{crate.name}/{path}: crates.txt doesn't give it {name}")
    return found
