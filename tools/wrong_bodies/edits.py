"""Wrong bodies: the edits of crates/CRATE/must-fail and crates/CRATE/wrong-bodies, and what each changes."""

import dataclasses
import os
import re
import tempfile

from shared.checking import rt

FOLDERS = ("must-fail", "wrong-bodies")


@dataclasses.dataclass(eq=False)
class Edit:
    """An edit of a crate, or the reason why it can't be applied."""

    file: str
    folder: str
    # The promise that it guards, as text.
    guards: str
    # The lines that it changes, by file and number.
    lines: dict
    fault: str
    # The only function that it changes, or None, and whether it changes only the body of that function.
    function: object
    is_of_body: bool
    # Whether a line `within` names its function. Then its texts may occur more than once in the file, so rt
    # can't apply it.
    is_within: bool

    @property
    def name(self):
        return os.path.basename(self.file)

    @property
    def path(self):
        return "/".join(self.file.split("/")[-4:])


def function_alone(file, folder, functions):
    """The function that a line `within: NAME` of an edit names, or None, and whether there is such a line."""
    with open(file, encoding="utf-8") as text:
        named = re.findall(r"(?m)^within: (\S+)$", text.read())
    return next((it for it in functions if named == [it.plain_name()]), None), bool(named)


def applied(file, folder, within):
    """The edited files of a crate, their texts before, and why the edit can't be applied, if it can't.

    Only the lines of the function are compared with an edit that has a line `within`.
    """
    with tempfile.TemporaryDirectory() as room:
        if within:
            with open(os.path.join(folder, within.file), encoding="utf-8") as own:
                lines = own.read().split("\n")
            kept = [line if within.spans(at) else "" for at, line in enumerate(lines, 1)]
            os.makedirs(os.path.dirname(os.path.join(room, within.file)))
            with open(os.path.join(room, within.file), "w", encoding="utf-8") as own:
                own.write("\n".join(kept))
            folder = room
        texts, fault = rt.read_edit(file, folder)
        before = {}
        for path in texts or {}:
            with open(os.path.join(folder, path), encoding="utf-8") as own:
                before[path] = own.read()
    return texts or {}, before, fault or ""


def read_edit(file, folder, functions):
    """An edit of the crate in this folder, which has these functions."""
    with open(file, encoding="utf-8") as text:
        guards = next((it[len("guards:") :].strip() for it in text if it.startswith("guards:")), "")
    within, is_within = function_alone(file, folder, functions)
    texts, before, fault = applied(file, folder, within)
    if is_within and not within:
        texts, fault = {}, "its line `within` names no function"
    if not file.endswith(".edit"):
        texts, fault = {}, "its name doesn't end in .edit"
    changed = []
    for path, text in texts.items():
        pairs = enumerate(zip(before[path].split("\n"), text.split("\n")), 1)
        changed += [(path, number, old, new) for number, (old, new) in pairs if old != new]
    lines = {(path, number): new for path, number, _, new in changed}
    function = function_of(lines, functions)
    is_of_body = function is not None and all(function.has_in_body(*it[1:]) for it in changed)
    folder = os.path.basename(os.path.dirname(file))
    return Edit(file, folder, guards, lines, fault, function, is_of_body, is_within)


def function_of(lines, functions):
    """The innermost function that contains all these lines, or None."""
    at = lambda path, line: next((it for it in functions if it.file == path and it.spans(line)), None)
    found = {at(path, line) for path, line in lines}
    return found.pop() if len(found) == 1 else None


def edits_of(crate, functions, folders=FOLDERS):
    """The edits in these folders of a crate."""
    found = []
    for folder in folders:
        path = os.path.join(crate.folder, folder)
        names = sorted(os.listdir(path)) if os.path.isdir(path) else []
        files = [os.path.join(path, it) for it in names if not it.endswith(".md")]
        found += [read_edit(it, crate.folder, functions) for it in files]
    return found


def sources_of(crate):
    """The sources of a crate as lists of lines, by their paths in it."""
    texts = {}
    for file in rt.rtlib.files_of(crate.folder):
        path = os.path.relpath(file, crate.folder)
        if path.startswith("src/") and path.endswith(".rt"):
            with open(file, encoding="utf-8") as text:
                texts[path] = text.read().split("\n")
    return texts


def with_edits(edits, texts):
    """Sources, as lists of lines, with these edits, which change different lines."""
    changed = {path: [*lines] for path, lines in texts.items()}
    for edit in edits:
        for (path, number), line in edit.lines.items():
            changed[path][number - 1] = line
    return changed
