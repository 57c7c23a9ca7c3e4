"""The functions that the C library exports, from the sources of crates/kb_c."""

import dataclasses
import glob
import os
import re

from shared.kit import TOP

# The crate of the C library.
LIBRARY = "kb_c"
EXPORT = re.compile(r'#\[unsafe\(no_mangle\)\][^{]*?pub extern "C" fn (\w+)\(([^)]*)\)(?: -> (\w+))?')


@dataclasses.dataclass(frozen=True)
class Export:
    """A function, with the name and the type of each parameter as Rattle has them."""

    module: str
    name: str
    parameters: tuple
    # The type of the result, or an empty text.
    result: str


def split(parameters):
    """The parameters of a list: the name and the type of each."""
    found = [it.partition(": ") for it in re.split(r",\s*", parameters.strip().rstrip(",")) if it]
    return [(name.strip(), kind.strip()) for name, _, kind in found]


def exported():
    """The functions that the library exports."""
    found = []
    for path in sorted(glob.glob(os.path.join(TOP, "crates", LIBRARY, "src/*.rt"))):
        module = os.path.basename(path).removesuffix(".rt")
        with open(path, encoding="utf-8") as text:
            found += [Export(module, it[0], tuple(split(it[1])), it[2]) for it in EXPORT.findall(text.read())]
    return found
