"""The version of the project, which the programs print, and the other files that have it."""

import os
import re

SOURCE, FORM = "crates/kb_cli/src/given.rt", r'^pub const VERSION: &str = "(.*)";$'
MAN = ("docs/man/keyrun.1", "docs/man/rawrun.1", "docs/man/keycheck.1")
OTHERS = ("hosts/rust/Cargo.toml", "hosts/python/pyproject.toml", "hosts/wasm/package.json")
OTHERS += ("tools/build-library", *MAN)
OTHER_FORM = r'^(?:version = "|  "version": "|Version: |\.TH .* "Pafjirn )([^"\s]*)'


def found(top, file, form):
    with open(os.path.join(top, file), encoding="utf-8") as text:
        return re.search(form, text.read(), re.M)[1]


def version(top):
    return found(top, SOURCE, FORM)


def differing(top):
    """A message for each file that has another version."""
    own = version(top)
    others = [(it, found(top, it, OTHER_FORM)) for it in OTHERS]
    return [f"{it}: the version is {other}, and {own} in {SOURCE}" for it, other in others if other != own]
