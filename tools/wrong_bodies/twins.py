"""Twins: copies of a function after the function itself, each with one wrong body (README.md)."""

import dataclasses
import os
import re


@dataclasses.dataclass(eq=False)
class Twin:
    """A copy of a function with another name, and with an edit or without one."""

    function: object
    name: str
    edit: object = None

    @property
    def unit(self):
        return "::".join([*self.function.unit.split("::")[:-1], self.name])

    def plain_name(self):
        return "::".join([*self.function.plain_name().split("::")[:-1], self.name])

    def lines(self, texts):
        """The function's lines in these files, with the edit and the name of the twin."""
        it, changed = self.function, self.edit.lines if self.edit else {}
        lines = texts[it.file][it.head - 1 : it.closes]
        lines = [changed.get((it.file, it.head + at), line) for at, line in enumerate(lines)]
        return re.sub(rf"\bfn {it.name}\b", f"fn {self.name}", "\n".join(lines), count=1).split("\n")


def folder_of(function):
    """The folder of proofs of a function or a twin, below the crate."""
    return "/".join(["proofs", *function.unit.split("::")])


def texts_below(folder):
    """The texts of the .antt files below a folder, by their paths in it."""
    found = {}
    for at, _, names in os.walk(folder):
        for name in sorted(it for it in names if it.endswith(".antt")):
            path = os.path.join(at, name)
            with open(path, encoding="utf-8") as text:
                found[os.path.relpath(path, folder)] = text.read()
    return found


def proof_path(function):
    """A pattern of the prefix of the module names of a function's proof."""
    return re.compile(rf"(?<=\.proofs\.){re.escape('.'.join(function.unit.split('::')))}(?=\.(?!Met\b))")


class Proofs:
    """The proof files of a crate."""

    def __init__(self, crate):
        texts = texts_below(os.path.join(crate.folder, "proofs"))
        self.texts = {f"proofs/{path}": text for path, text in texts.items()}

    def of(self, function):
        """The files of a function's proof."""
        return {path: text for path, text in self.texts.items() if path.startswith(f"{folder_of(function)}/")}

    def calls_itself(self, function):
        """Whether the function's proof is that of a cycle with no other function."""
        parts = folder_of(function).rpartition("/")
        return any(path.startswith(f"{parts[0]}/+{parts[2]}/") for path in self.texts)

    def let_twins_of(self, function, functions):
        """Whether a copy has the same proof: the function is not nested, not in a trait or a cycle, and no
        other file names its proof."""
        others = [it for it in functions if it is not function and it.file == function.file]
        is_inner = any(it.spans(function.head) for it in others)
        own, named = self.of(function), proof_path(function)
        is_named = any(named.search(text) for path, text in self.texts.items() if path not in own)
        return not (function.trait or function.cycle or self.calls_itself(function) or is_inner or is_named)

    def of_twin(self, twin):
        """The proof files of a twin: those of its function under its own name."""
        named = ".".join(twin.unit.split("::"))
        start = folder_of(twin.function)
        own = folder_of(twin)
        path = proof_path(twin.function)
        files = self.of(twin.function).items()
        return {f"{own}{at[len(start):]}": path.sub(named, text) for at, text in files}


def with_twins(twins, texts, own):
    """Sources, as lists of lines, with these twins of functions of `own`, each after its function."""
    changed = {path: [*lines] for path, lines in texts.items()}
    for it in sorted(twins, key=lambda it: -it.function.closes):
        at = it.function.closes
        changed[it.function.file][at:at] = it.lines(own)
    return changed
