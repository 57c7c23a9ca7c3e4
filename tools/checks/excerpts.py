"""Finds code in the documents that has to be a file of a crate, and isn't.

A block of Rattle in a document that begins with a comment on its file (`//!`) shows that file in full.
"""

import glob
import os
import re

BLOCK = re.compile(r"^```rust\n(//!.*?)^```$", re.MULTILINE | re.DOTALL)


def read(path):
    with open(path, encoding="utf-8") as text:
        return text.read()


def differing(top):
    """A line for each block that is no file of a crate."""
    sources = glob.glob("crates/*/src/*.rt", root_dir=top)
    files = {read(os.path.join(top, it)) for it in sources}
    found = []
    for document in sorted(glob.glob("docs/*.md", root_dir=top)):
        for block in BLOCK.finditer(read(os.path.join(top, document))):
            if block[1] not in files:
                first = block[1].partition("\n")[0]
                found.append(f"{document}: no file of a crate is the block that begins with `{first}`")
    return found
