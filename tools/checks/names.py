"""Finds names in back-ticks in the documents that don't exist in the tree.

It reads back-ticks outside of fenced blocks, the targets of links, and, in fenced blocks, crates and paths. A
path must be the end of the path of a file or folder. For `A::b` the type, module or crate `A` must define
`b`. Any other word must be a word of the code. `known-names.txt` lists words of Rust, Rattle, JSON, VS Code
and the shell. Names of ghost code are only looked up word by word, since they consist of parts. Names with a
hyphen are not looked up.
"""

import collections
import fnmatch
import glob
import os
import pathlib
import re

HERE = os.path.dirname(os.path.abspath(__file__))
DOCUMENTS = ("README.md", "docs/**/*.md", "golden/README.md", "tools/**/README.md", "bench/**/README.md")
CODE = (".rt", ".antt", ".edit", ".json", ".txt", ".py", ".c", ".js", ".ts")
ENDINGS = ("rt", "antt", "edit", "json", "txt", "py", "md", "c")

SPAN = re.compile(r"(`+)(.+?)\1(?!`)")
LINK = re.compile(r"\]\(([^()\s]+)\)")
FOLDERS = r"crates|docs|tools|golden|examples|bench|specs|proofs|src|must-fail|wrong-bodies|data|\.ci|kb_\w+"
FILE = rf"(?:\.{{0,2}}/)?(?:[\w.*+-]+/)*[\w.*+-]+\.(?:{'|'.join(ENDINGS)})(?![\w/-])"
PATH = re.compile(rf"(?<![\w./*-])(?:{FILE}|(?:\./)?(?:{FOLDERS})/[\w./*+-]*)")
TOP_FOLDERS = ("crates/", "docs/", "tools/", "examples/", "golden/", "bench/", "./")
QUALIFIED = re.compile(r"(?<![\w.:])[A-Za-z_]\w*(?:<[^<>]*>)?(?:::[A-Za-z_]\w*)+")
SNAKE = re.compile(r"(?<![\w.:'$\\-])(?:[a-z]\w*_\w+|_[a-z]\w+)(?![\w-])")
WORD = re.compile(r"[A-Za-z_]\w*")
ALONE = re.compile(r"(?:\./)?([A-Za-z_]\w*)(?:<[^<>]*>)?(?:\(.*\)|!|\?)?")

BLOCK = re.compile(r"^\s*(?:pub(?:\([^)]*\))? )?(struct|enum|trait|impl|mod)\b([^{;]*)")
FUNCTION = re.compile(r"\bfn (\w+)")
KEYWORDS = r"const|static|type|struct|enum|trait|mod|fn|macro_rules!"
ITEM = re.compile(rf"^\s*(?:#\[.*\] )?(?:ghost )?(?:pub(?:\([^)]*\))? )?(?:unsafe )?(?:{KEYWORDS}) (\w+)")
MEMBER = re.compile(r"^\s+(?:ghost )?(?:pub(?:\([^)]*\))? )?([A-Za-z_]\w*)(?:\s*[:,({=]|$)")
USE = re.compile(r"\bpub(?:\([^)]*\))? use ([^;]+);")


def known_names():
    """The words of known-names.txt."""
    with open(os.path.join(HERE, "known-names.txt"), encoding="utf-8") as lines:
        return {word for line in lines for word in line.partition("#")[0].split()}


def read(path):
    with open(path, encoding="utf-8", errors="replace") as text:
        return text.read()


def files_below(top):
    """All files of the tree except generated ones, by their paths from the top."""
    found = []
    for at, folders, names in os.walk(top):
        folders[:] = [it for it in folders if it not in ("out", ".git", ".rt", "__pycache__")]
        found += [os.path.relpath(os.path.join(at, it), top) for it in names]
    return found


class Tree:
    """What exists in the tree: paths, words of code, and the names that types, modules and crates define."""

    def __init__(self, top):
        files = files_below(top)
        folders = {os.path.dirname(it) for it in files}
        folders |= {str(above) for it in folders for above in pathlib.PurePath(it).parents}
        self.paths = {*files, *folders} - {"", "."}
        self.ends = {"/".join(it.split("/")[at:]) for it in self.paths for at in range(it.count("/") + 1)}
        self.words, self.members = set(), collections.defaultdict(set)
        for file in files:
            own = file.startswith(("tools/checks/", "docs/")) or file.endswith(".md")
            if not own and (file.endswith(CODE) or "." not in os.path.basename(file)):
                self.read_code(file, read(os.path.join(top, file)))
        self.words |= {os.path.basename(it).partition(".")[0] for it in self.paths}

    def read_code(self, file, text):
        if file.endswith(".rt"):
            text = re.sub(r"(?m)//.*$", "", text)
            self.read_items(file, text)
        elif file.endswith(".antt"):
            text = re.sub(r"(?m)(^|\s)--.*$", "", text)
        elif file.endswith(".py") or file.startswith("tools/"):
            text = re.sub(r"(?m)^\s*#.*$", "", text)
        self.words.update(WORD.findall(text))

    def read_items(self, file, text):
        """Adds each name that a source defines to its type, module and crate."""
        crate, module = file.split("/")[1], os.path.basename(file).removesuffix(".rt")
        homes = [crate, module, os.path.basename(os.path.dirname(file))]
        add = lambda name, *more: [self.members[it].add(name) for it in (*homes, *more)]
        owners = []
        for line in text.split("\n"):
            depth = len(line) - len(line.lstrip())
            while line.strip() and owners and depth <= owners[-1][0]:
                owners.pop()
            inside = [name for _, names in owners for name in names]
            if found := FUNCTION.search(line) or ITEM.match(line):
                add(found[1], *inside)
            elif owners and (found := MEMBER.match(line)) and depth == owners[-1][0] + 4:
                add(found[1], *inside)
            if (found := BLOCK.match(line)) and not line.rstrip().endswith(";"):
                names = WORD.findall(re.sub(r"<[^<>]*>", "", re.sub(r"<[^<>]*>", "", found[2])))
                # (an impl defines methods of its type and of its trait)
                is_impl = found[1] == "impl"
                owners.append((depth, [it for it in names if it != "for"] if is_impl else names[:1]))
        for uses in USE.findall(text):
            for name in WORD.findall(uses):
                add(name)
        for name in re.findall(r"derive\(([^)]*)\)", text):
            self.words.update(WORD.findall(name))

    def has_path(self, path):
        path = re.sub(r"^(?:\.{1,2}/)+", "", path).rstrip("/.")
        # (the reader replaces a part in capitals, such as CRATE)
        path = re.sub(r"(?<![\w.-])[A-Z]{2,}(?![\w-])(?!\.md)", "*", path)
        if "*" in path:
            return any(fnmatch.fnmatch(it, path) or fnmatch.fnmatch(it, f"*/{path}") for it in self.paths)
        return path in self.ends

    def has_qualified(self, name, known):
        """Whether each part of a qualified name is defined in the part before it."""
        parts = re.sub(r"<[^<>]*>", "", name).split("::")
        # (the reader replaces a part in capitals)
        if parts[0] in known or re.fullmatch(r"[A-Z]{2,}", parts[0]):
            return True
        own = ("crate", "self", "Self")
        if parts[0] not in self.members and parts[0] not in own:
            return False
        pairs = [it for it in zip(parts, parts[1:]) if it[1] not in known]
        return all(owner in own or name in self.members[owner] for owner, name in pairs)


def lacking_in(span, tree, known):
    """The names in a text in back-ticks that the tree lacks."""
    if span in known:
        return
    left = span
    for pattern, has in (
        (PATH, tree.has_path),
        (QUALIFIED, lambda it: tree.has_qualified(it, known)),
        (SNAKE, lambda it: it in tree.words or it in known),
    ):
        for it in pattern.findall(left):
            if not has(it) and it not in known:
                yield it
        left = pattern.sub(" ", left)
    if (alone := ALONE.fullmatch(span)) and alone[1] not in tree.words | known:
        yield alone[1]


def lacking_in_block(line, tree, known):
    """The crates and paths in a line of a fenced block that the tree lacks."""
    for it in PATH.findall(line):
        if it.startswith(TOP_FOLDERS) and not tree.has_path(it):
            yield it
    for it in re.findall(r"\bkb_\w+", line):
        if it not in tree.ends and it not in known:
            yield it


def lacking_in_document(top, document, tree, known):
    """The names in a document that the tree lacks, each with the number of its line."""
    is_block = False
    for number, line in enumerate(read(os.path.join(top, document)).split("\n"), 1):
        if line.lstrip().startswith("```"):
            is_block = not is_block
            continue
        if is_block:
            names = [*lacking_in_block(line, tree, known)]
        else:
            names = [name for _, span in SPAN.findall(line) for name in lacking_in(span.strip(), tree, known)]
            for target in LINK.findall(line):
                path = os.path.normpath(os.path.join(os.path.dirname(document), target.partition("#")[0]))
                if "://" not in target and target[0] != "#" and path not in tree.paths:
                    names.append(target)
        for name in dict.fromkeys(names):
            yield number, name


def lacking(top, documents=()):
    """A message for each name that the tree lacks, in these documents or in all."""
    found = [it for form in DOCUMENTS for it in sorted(glob.glob(form, root_dir=top, recursive=True))]
    tree, known = Tree(top), known_names()
    lines = []
    for document in documents or found:
        for number, name in lacking_in_document(top, document, tree, known):
            lines.append(f"{document}:{number}: `{name}` is not in the tree")
    return lines
