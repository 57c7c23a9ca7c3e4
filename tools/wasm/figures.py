"""The sizes and times of the module and its page, for tools/check-wasm --figures."""

import gzip
import os

from wasm.in_node import node
from wasm.page_times import page_rows


def figures(prefix):
    """Prints the size of the module, and times in Node and of the page."""
    with open(os.path.join(prefix, "pafjirn.wasm"), "rb") as file:
        module = file.read()
    print("| what | figure |")
    print("|---|---|")
    print(f"| `pafjirn.wasm` | {len(module):,} bytes |")
    print(f"| the same with gzip | {len(gzip.compress(module, 9)):,} bytes |", flush=True)
    ran = node(prefix, "figures.js", "examples")
    if ran[0]:
        raise RuntimeError((ran[1] + ran[2]).decode(errors="replace"))
    print(ran[1].decode(), end="")
    for what, figure in page_rows(prefix):
        print(f"| {what} | {figure} |", flush=True)
