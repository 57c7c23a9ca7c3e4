"""The command line of a check, or of a build, over the libraries that tools/take-proved put into a folder."""

import os

from shared.kit import kit_folder, listed, names_below


def library(name, built, sources):
    """The arguments for a library that a crate depends on: its sources, or the one that was built."""
    if name in sources:
        return ["--lib", f"{name}={listed()[name].folder}/src/lib.rt"]
    if name in listed():
        folder = os.path.join(os.path.abspath(built), "crates", name, "out/rlib")
        return ["--extern", f"{name}={folder}/{name}.rlib", "-L", f"dependency={folder}"]
    return ["--extern", f"{name}={kit_folder()}/rlibs/{name}.rlib"]


def rattle(verb, crate, built, sources=()):
    """The words that check or build a crate in its folder. The crates in `sources` are taken as sources."""
    kit, root = kit_folder(), "src/lib.rt"
    if not os.path.exists(os.path.join(crate.folder, root)):
        root = "src/main.rt"
    words = [kit + "/bin/rattle", verb, "--crate-name", crate.name, root, "--links", crate.name + "="]
    words += ["--extern", f"std={kit}/rlibs/std.rlib", "-L", f"dependency={kit}/rlibs"]
    for name in names_below(crate.name):
        words += library(name, built, sources)
    words += ["--antt-project", kit + "/rattle/logic/antt-project.json"]
    return [*words, "--logic-built", kit + "/logic_built"]
