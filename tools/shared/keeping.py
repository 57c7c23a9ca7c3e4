"""Files that tools keep on this machine for later runs in any checkout."""

import contextlib
import os
import tempfile

from shared.checking import rt


def kept_folder():
    """The folder for these files, beside what rt ci keeps, or None if nothing can be kept."""
    store = rt.Kept([]).at
    return store and os.path.join(store, "wrong-bodies")


@contextlib.contextmanager
def whole_file(folder, name):
    """A file to write. It gets its name at the end, so that no other run reads half of it."""
    os.makedirs(folder, mode=0o700, exist_ok=True)
    with tempfile.NamedTemporaryFile(dir=folder, delete=False) as file:
        yield file
    os.replace(file.name, os.path.join(folder, name))
