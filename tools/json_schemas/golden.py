"""The golden files of the engine as cases for the schemas: JSON texts, with what a load says of them."""

import dataclasses
import os
import re

from hostile_files.plain_files import Fault, value_of
from shared.golden_text import BadCase, bytes_of
from shared.kit import TOP

DATA = os.path.join(TOP, "crates/kb_golden_main/data")
RULES, LAYOUT, HANDLERS, PACKAGE = (
    f"{it}.schema.json" for it in ("keybindings", "layout", "handlers", "package")
)
OF_KIND = {"layout": LAYOUT, "handlers": HANDLERS, "manifest": PACKAGE, "chord": RULES}
# The faults that a schema tells, of a file and of an entry. Of a clause and of what is counted over the whole
# file, of names that are repeated, of blocks and of handlers that aren't accepted it tells nothing.
TOLD = {RULES: {41}, LAYOUT: {40, 41}, HANDLERS: {40, 41, 42, 44, 50, 51, 52}, PACKAGE: {40, 41}}
OF_JSON = {1, 2, 3, 4}
OF_ENTRY = {10, 11, 12, 40, 41}
OF_CLAUSE = {30, 31, 32, 33, 34}
WARNING = re.compile(r"warning (\d+)(?: (\S+))? (commands|keybindings|palette) (\d+)$")
REFUSED = re.compile(r"load refused: (?:ext )?(\S+)(?: (\S+\.json))? (\d+) ")


@dataclasses.dataclass
class Case:
    """A file with what a load says of it."""

    where: str
    schema: str
    value: object
    # The number of the fault, 0 where the file is read, and `None` where that isn't known.
    fault: int
    # The warnings of its entries, by part and place: `None` where they aren't known.
    warnings: dict


def case_of(where, schema, content, fault, warnings=None):
    """The case of a file, if it is JSON."""
    try:
        value = value_of(content)
    except Fault:
        return []
    return [Case(where, schema, value, fault, warnings)]


def fault_of(output):
    """The number of the fault that an output is, or 0."""
    found = re.match(r"(\d+) [A-Z]\w+$", output)
    return int(found[1]) if found else 0


def warnings_of(output):
    """The warnings in the output of a manifest: their numbers by part and place."""
    found = [WARNING.match(it) for it in output.split("; ")]
    return {(it[3], int(it[4])): int(it[1]) for it in found if it}


def cases_of_line(where, kind, line):
    """The cases of a line `INPUT => OUTPUT`."""
    text, arrow, output = line.rpartition(" => ")
    if not arrow:
        return []
    content, fault = bytes_of(text), fault_of(output)
    if kind == "chord":
        rule = {"key": content.decode(errors="replace"), "command": "x"}
        return [Case(where, RULES, [rule], 0, {("keybindings", 0): fault} if fault else {})]
    return case_of(where, OF_KIND[kind], content, fault, None if fault else warnings_of(output))


class Session:
    """The files of a session, and what its load says."""

    def __init__(self, lines):
        self.files = {name: None for name in ("layout", "defaults", "user")}
        self.extensions, self.fault, self.warnings = [], None, {}
        for line in lines:
            if not self.read(*line.partition(" ")[::2]):
                break

    def read(self, word, text):
        """Reads a line of the files or of the load's answer. Behind them the script begins."""
        if word in self.files:
            self.files[word] = (self.files[word] or b"") + bytes_of(text) + b"\n"
        elif word == "extension":
            self.extensions += [[bytes_of(it), None] for it in text.split(" ;; ")]
        elif word == "handlers":
            last = self.extensions[-1]
            last[1] = (last[1] or b"") + bytes_of(text) + b"\n"
        elif word == ">":
            return self.read_answer(text)
        else:
            return word in ("platform", "natives", "shelf") or word.startswith("#")
        return True

    def read_answer(self, text):
        if found := WARNING.match(text):
            self.warnings.setdefault(found[2], {})[found[3], int(found[4])] = int(found[1])
        elif found := REFUSED.match(text):
            self.fault = (found[1], found[2], int(found[3]))
        return bool(found)

    def fault_at(self, name, file=None):
        """The fault of a file: only the first of a load is known."""
        if self.fault is None:
            return 0
        return self.fault[2] if self.fault[:2] == (name, file) else None

    def cases(self, where):
        schemas = {"layout": LAYOUT, "defaults": RULES, "user": RULES}
        for name, content in self.files.items():
            if content is not None:
                known = None if self.fault else self.warnings.get(name, {})
                yield from case_of(f"{where}, {name}", schemas[name], content, self.fault_at(name), known)
        for number, (manifest, handlers) in enumerate(self.extensions):
            yield from self.of_extension(f"{where}, extension {number}", str(number), manifest, handlers)

    def of_extension(self, where, number, manifest, handlers):
        for it in case_of(where, PACKAGE, manifest, self.fault_at(number, "package.json")):
            if not self.fault:
                # (a session says the warnings of an extension by its identifier)
                of = f"{it.value.get('publisher', 'undefined_publisher')}.{it.value['name']}"
                it.warnings = self.warnings.get(of, {})
            yield it
        if handlers is not None:
            yield from case_of(where, HANDLERS, handlers, self.fault_at(number, "handlers.json"))


def cases():
    """All cases of the golden files."""
    for name in sorted(os.listdir(DATA)):
        with open(os.path.join(DATA, name), encoding="utf-8") as text:
            blocks = text.read().split("\n\n")
        for block in blocks:
            head, *lines = [it for it in block.strip("\n").split("\n") if not it.startswith("#")] or [""]
            kind, _, subject = head.partition(": ")
            where = f"{name}: {subject}"
            try:
                if kind in OF_KIND:
                    yield from (it for line in lines for it in cases_of_line(where, kind, line))
                elif kind in ("session", "raw"):
                    yield from Session(lines).cases(where)
            except BadCase as fault:
                raise SystemExit(f"{where}: {fault}") from None
