"""Finds functions that allocate although their result can't report that memory was refused.

The convention: a function whose result names neither `NoMemory` nor `Failure`, nor a type that can hold one
of them, allocates nothing. In Rattle a call that allocates takes the allocator, or is a method call on a
growable value and returns a `Result`. So a function allocates if its body makes such a call, or calls a
function of the repository that allocates. `X::new(alloc)` of an empty value allocates nothing. Calls are
found by name, so check each finding: it may be a method with the same name of another type. EXCEPTIONS lists
the functions that allocate on purpose.
"""

import collections
import glob
import os
import re

from shared.source import closing, functions_in

# Types that report that memory was refused, or a failure that may be refused memory.
MEMORY = {"NoMemory", "Failure", "AllocError", "Fail", "TryReserveError", "anyhow"}
# Modules whose types report the same, such as io::Result and fmt::Error.
MEMORY_MODULES = {"io", "fmt"}
# Methods of the standard library. A call of one is not regarded as a call of a crate's method.
COMMON = {"parse", "get", "next", "len", "from", "into", "push", "insert", "clone", "write", "read", "call"}
COMMON |= {"fill", "take"}
# Methods that allocate, if the caller checks their result for a failure.
GROWS = {"push", "push_str", "push_back", "insert", "reserve", "sort", "sort_by", "sort_by_key", "extend"}
GROWS |= {"extend_from_slice", "clone", "to_owned", "to_string", "to_vec", "append", "resize", "collect"}
MADE = {("Box", "new"), ("Rc", "new"), ("BufWriter", "new"), ("BufReader", "new")}
# Calls of the standard library that take the allocator and allocate nothing.
FREE = {("Box", "from_raw")}
LANGUAGE = {"let", "if", "match", "while", "for", "in", "return", "fn", "move"}
# The functions that allocate on purpose, by crate.
EXCEPTIONS = {
    # They turn refused memory into an exit status, a number or a text.
    "kb_c": ["pafjirn_new"],
    "kb_keycheck": ["keycheck", "run_line", "run_words", "obey", "obey_command", "obey_check"]
    + ["obey_question", "obey_handlers", "say_stop", "reason_of", "unread_reason"],
    "kb_program": ["run_host", "run_program"],
    "kb_run": ["run_and_report", "run_on_system"],
    **{it: ["main"] for it in ("kb_example_host", "kb_keycheck_main", "kb_main", "kb_rawrun_main")},
    # They do the same in tests.
    "kb_golden_code": ["handlers_in"],
    "kb_refused_calls": ["main", "answer"],
    # They give a value back to the caller.
    "kb_handler_table": ["CodeTable::put", "CodeTable::prepare_exchange"],
    "kb_registry": ["Registry::admit", "Registry::register_allowed"],
    "kb_vm": ["Callers::suspend", "begin"],
    # A chord's keystrokes are inline.
    "kb_keys": ["Chord::copied"],
}
TYPE = re.compile(r"(?ms)^(?:pub(?:\([^)]*\))? )?(?:enum|struct) (\w+)(.*?)(?:^}|;$)")
ALIAS = re.compile(r"(?m)^(?:pub(?:\([^)]*\))? )?type (\w+)([^;]*);")
ASKED = {"map_err", "ok", "is_ok", "is_err", "unwrap_or", "unwrap_or_else", "and_then"}


class Function:
    """A function with a body, its result and body as words, and why it allocates."""

    def __init__(self, crate, file, found):
        self.crate, self.file, self.line = crate, file, found.signature[0][0]
        self.name, self.owner = found.name, found.owner
        signature, self.body = joined(found.signature), joined(found.body)
        self.result = signature[signature.index("->") :] if "->" in signature else []
        self.takes_alloc = "alloc" in signature
        if "where" in self.result:
            self.result = self.result[: self.result.index("where")]
        self.module = found.module.rpartition("::")[2]
        self.why = ""

    def full_name(self):
        return f"{self.owner}::{self.name}" if self.owner else self.name


def joined(words):
    """The words, with `->` as one word."""
    found = []
    for _, word in words:
        if word == ">" and found and found[-1] == "-":
            found[-1] = "->"
        else:
            found.append(word)
    return found


def types_with_memory(texts):
    """The names of the types that contain, at any depth, a type of MEMORY."""
    held = collections.defaultdict(set)
    for text in texts:
        text = re.sub(r"(?m)^\s*//.*$|^\s*ghost .*$", "", text)
        for name, held_by_it in [*TYPE.findall(text), *ALIAS.findall(text)]:
            # (the name of a variant is no type)
            without_others = lambda it: it[1] if it[1] in MEMORY else ""
            types = re.sub(r"(?m)^ {4}(\w+)(?=[,({])", without_others, held_by_it)
            held[name] |= {*re.findall(r"\w+", types)}
    found = {*MEMORY}
    while more := {name for name, words in held.items() if words & found} - found:
        found |= more
    return found


def says_memory(function, types):
    """Whether a function's result can report that memory was refused."""
    words = [function.owner if it == "Self" else it for it in function.result]
    pairs = zip(words, [*words[1:], ""])
    return any(it in types or it in MEMORY_MODULES and after == ":" for it, after in pairs)


def callee_at(words, at):
    """Of the call that has this argument: the name, the type or module before it, and whether it is a method
    call."""
    depth = 0
    while at > 0:
        at -= 1
        depth += {")": 1, "]": 1, "}": 1, "(": -1, "[": -1, "{": -1}.get(words[at], 0)
        if depth < 0:
            break
    if words[at] != "(" or not re.match(r"\w", words[at - 1]):
        return "", "", False
    owner = words[at - 4] if words[at - 3 : at - 1] == [":", ":"] else ""
    return words[at - 1], owner, words[at - 2] == "."


def is_asked(words, at):
    """Whether the caller checks the result of the method call at this place for a failure."""
    end = closing([(0, it) for it in words], at + 1, "(", ")")
    start = at
    while start and words[start - 1] not in ("{", "}", ";", "=", "match", "("):
        start -= 1
    tail = words[end + 1 : end + 3]
    return tail[:1] == ["?"] or tail[:1] == ["."] and tail[1] in ASKED or words[start - 1] == "match"


def own_calls(function, tree):
    """Why the body of a function itself allocates, or an empty text."""
    words = function.body
    for at, word in enumerate(words):
        if word == "alloc" and words[at + 1 : at + 2] not in ([":"], ["("]):
            name, owner, is_method = callee_at(words, at)
            # (an empty value takes no memory; functions of the repository are examined themselves)
            is_free = name in LANGUAGE or name == "new" and (owner, name) not in MADE or (owner, name) in FREE
            is_ours = is_method and name in tree.methods or tree.named(function, name, owner)
            if name and not is_free and name[0].islower() and not is_ours:
                return f"passes the allocator to `{owner and owner + '::'}{name}`"
        if words[at + 1 : at + 2] == ["("] and word in GROWS and words[at - 1] == "." and is_asked(words, at):
            return f"calls `{word}`"
        if word in ("format", "vec") and words[at + 1 : at + 4] == ["!", "(", "in"]:
            return f"calls `{word}!`"
    return ""


class Tree:
    """All functions, by crate and name."""

    def __init__(self, functions, imports):
        self.imports = imports
        self.own, self.all = collections.defaultdict(list), collections.defaultdict(list)
        self.methods = {it.name for it in functions if it.owner}
        for it in functions:
            self.own[it.crate, it.name].append(it)
            self.all[it.name].append(it)

    def named(self, function, name, owner):
        """The functions that a call with this name may mean. The owner is a type, a module or empty."""
        if owner == "Self":
            owner = function.owner
        own, source = self.own[function.crate, name], self.imports[function.file].get(owner or name)
        of_file = [it for it in own if it.file == function.file]
        imported = [it for it in self.all[name] if it.crate == source]
        for named in (of_file, own, imported):
            fits = lambda it: owner in (it.owner, it.crate, it.module) if owner else not it.owner
            found = [*filter(fits, named)]
            if found:
                return found
        return []

    def called(self, function):
        """The functions that a function's body calls, found by name."""
        words = function.body
        for at, word in enumerate(words):
            if words[at + 1 : at + 2] != ["("] or word not in self.all:
                continue
            if words[at - 1] == ".":
                has_alloc = "alloc" in words[at : closing([(0, it) for it in words], at + 1, "(", ")")]
                methods = [it for it in self.own[function.crate, word] if it.owner]
                methods = [it for it in methods if has_alloc or not it.takes_alloc]
                of_self = [it for it in methods if words[at - 2] == "self" and it.owner == function.owner]
                yield from of_self or (methods if len(methods) == 1 and word not in COMMON else [])
            else:
                owner = words[at - 3] if words[at - 2 : at] == [":", ":"] else ""
                yield from self.named(function, word, owner)


def imports_of(text):
    """The crate of the repository from which a source imports each name."""
    uses = re.findall(r"(?m)^\s*(?:pub(?:\([^)]*\))? )?use (kb_\w+)((?:::[^;]*)?);", text)
    return {name: crate for crate, names in uses for name in [crate, *re.findall(r"\w+", names)]}


def mark(functions, imports):
    """Sets for each function that allocates why it does."""
    tree = Tree(functions, imports)
    for it in functions:
        it.why = own_calls(it, tree)
    calls, is_new = {it: [*tree.called(it)] for it in functions}, True
    while is_new:
        is_new = False
        for it in functions:
            callee = next((other for other in calls[it] if other.why and not it.why), None)
            if callee:
                it.why, is_new = f"calls `{callee.full_name()}` of {callee.crate}, which allocates", True


def violations(top):
    """A message for each function that allocates although its result can't report that memory was refused,
    and for each entry of EXCEPTIONS that isn't needed."""
    functions, texts, imports = [], [], {}
    for path in sorted(glob.glob("crates/*/src/**/*.rt", root_dir=top, recursive=True)):
        with open(os.path.join(top, path), encoding="utf-8") as text:
            texts.append(text.read())
        imports[path] = imports_of(texts[-1])
        _, crate, file = path.split("/", 2)
        found = functions_in(file, os.path.join(top, "crates", crate))
        functions += [Function(crate, path, it) for it in sorted(found, key=lambda it: it.head)]
    mark(functions, imports)
    types = types_with_memory(texts)
    found = [it for it in functions if it.why and not says_memory(it, types)]
    known = {(crate, name) for crate, names in EXCEPTIONS.items() for name in names}
    others = [it for it in found if (it.crate, it.full_name()) not in known]
    idle = sorted(known - {(it.crate, it.full_name()) for it in found})
    lines = [f"{it.file}:{it.line}: `{it.full_name()}` {it.why}" for it in others]
    here = "tools/checks/allocates.py"
    return lines + [f"{here}: `{name}` of {crate} needs no exception" for crate, name in idle]
