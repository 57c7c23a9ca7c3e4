"""The functions of a crate's sources: the lines of each body, and the name of the function in a check."""

import dataclasses
import os
import re
import subprocess

from shared.checking import rt

TYPE = re.compile(r"(?m)^\s*(?:pub(?:\([^)]*\))? )?(?:struct|enum|trait) (\w+)")
TOKEN = re.compile(r"^(\d+) \d+ \d+ Code \"(.*)\"$")


@dataclasses.dataclass(eq=False)
class Function:
    """A function with a body. Lines are counted from 1."""

    file: str
    module: str
    # The type of its impl block and the trait that the block implements, or empty texts.
    owner: str
    trait: str
    name: str
    # The lines of its first attribute or word, of its opening brace and of its closing one.
    head: int
    opens: int
    closes: int
    # The name in its attribute `cycle`, or an empty text.
    cycle: str
    is_public: bool
    is_const: bool
    # The words of its code with their lines, before and in its body.
    signature: list
    body: list
    # The path of its proof below the crate. The functions of a cycle share a proof.
    unit: str = ""

    def spans(self, line):
        return self.head <= line <= self.closes

    def has_in_body(self, line, old, new):
        """Whether replacing this line changes only the body."""
        is_behind = line == self.opens and old.endswith("{") and new.startswith(old)
        return is_behind or self.opens < line <= self.closes

    def plain_name(self):
        return "::".join(it for it in (self.module, self.owner + self.trait, self.name) if it)


def words_of(file):
    """The words of a source's code with their lines, without comments, literals, clauses and ghost items."""
    words = [rt.rtlib.RATTLE, "fmt", "--tokens", file]
    ran = subprocess.run(words, capture_output=True, text=True, check=True)
    return [(int(it[1]), it[2]) for it in map(TOKEN.match, ran.stdout.split("\n")) if it]


def closing(words, at, opens="{", closes="}"):
    """The index of the bracket that closes the bracket at this index."""
    depth = 0
    for place in range(at, len(words)):
        depth += {opens: 1, closes: -1}.get(words[place][1], 0)
        if not depth:
            return place
    return len(words) - 1


def body_at(words, at):
    """The index of the brace that opens the body of the function whose name is here, or None."""
    depth = 0
    for place in range(at, len(words)):
        word = words[place][1]
        depth += {"(": 1, "[": 1, ")": -1, "]": -1}.get(word, 0)
        if not depth and word in ("{", ";"):
            return place if word == "{" else None
    return None


def squeezed(words, parameters):
    """A type or a trait as a check spells it: its words, without lifetimes and the parameters of the impl."""
    text = "".join(it for it in words if it[0] != "'")
    paths = re.sub(r"(\w+)::(?=\w)", lambda it: it[1].capitalize(), text)
    return "".join(it for it in re.findall(r"\w+", paths) if it not in parameters)


def impl_at(words, at):
    """The type and the trait of the impl block whose first word is here."""
    head = [it for _, it in words[at + 1 : body_at(words, at + 1)]]
    parameters = []
    if head[0] == "<":
        end = closing([(0, it) for it in head], 0, "<", ">")
        pairs = zip(head[1:end], head[2:])
        parameters = [it for it, after in pairs if re.match(r"\w", it) and after in ",:>"]
        head = head[end + 1 :]
    if "for" not in head:
        # (a block for one instance of a type has a plus sign before the instance's own types)
        end = head.index("<") if "<" in head else len(head)
        of_instance = squeezed(head[end:], parameters)
        return squeezed(head[:end], parameters) + (of_instance and f"+{of_instance}"), ""
    cut = head.index("for")
    trait = head[:cut]
    # A name has only the last word of the trait's own path, but all words of its parameters.
    first = trait.index("<") if "<" in trait else len(trait)
    start = max((i + 1 for i in range(first) if trait[i] == ":"), default=0)
    return squeezed(head[cut + 1 :], parameters), squeezed(trait[start:], parameters)


def attributes(words, at):
    """The words before this index that belong to the same item, and the line where the item begins."""
    start = at
    # (only the first word of a ghost item is code)
    while start and words[start - 1][1] not in ("{", "}", ";", "ghost"):
        start -= 1
    return [it for _, it in words[start:at]], words[start][0]


def module_of(file):
    path = file.removeprefix("src/").removesuffix(".rt")
    return "" if path in ("lib", "main") else path.replace("/", "::")


def function_at(words, place, file, owner, trait):
    """The function whose keyword is here, or None if it has no body."""
    opened = body_at(words, place + 1)
    if opened is None:
        return None
    closed = closing(words, opened)
    before, head = attributes(words, place)
    return Function(
        file=file,
        module=module_of(file),
        owner=owner,
        trait=trait,
        name=words[place + 1][1],
        head=head,
        opens=words[opened][0],
        closes=words[closed][0],
        cycle=before[before.index("cycle") + 2] if "cycle" in before else "",
        # (pub(crate) isn't public)
        is_public="pub" in before and not before[before.index("pub") + 1 :][:1] == ["("],
        is_const="const" in before,
        signature=words[place:opened],
        body=words[opened:closed],
    )


def functions_in(file, folder):
    """The functions of one source. A nested function comes before the function that contains it."""
    words = words_of(os.path.join(folder, file))
    found, blocks = [], [(len(words), "", "")]
    for place, (_, word) in enumerate(words):
        while place > blocks[-1][0]:
            blocks.pop()
        if word == "impl" and (place == 0 or words[place - 1][1] in ("}", ";", "]", "unsafe")):
            blocks.append((closing(words, body_at(words, place)), *impl_at(words, place)))
        # (a function type is no function)
        if word == "fn" and re.match(r"\w", words[place + 1][1]):
            found.append(function_at(words, place, file, *blocks[-1][1:]))
    return sorted(filter(None, found), key=lambda it: it.closes - it.opens)


def homes_of_types(folder, files):
    """The module of each type of the crate. A check names the type's own methods by this module."""
    homes = {}
    for file in files:
        with open(os.path.join(folder, file), encoding="utf-8") as text:
            for name in TYPE.findall(text.read()):
                homes[name] = module_of(file)
    return homes


def functions_of(crate):
    """The functions of a crate, each with its unit."""
    inside = [os.path.relpath(it, crate.folder) for it in rt.rtlib.files_of(crate.folder)]
    files = [it for it in inside if it.startswith("src/") and it.endswith(".rt")]
    homes = homes_of_types(crate.folder, files)
    found = [it for file in files for it in functions_in(file, crate.folder)]
    for it in found:
        if it.owner and not it.trait:
            it.module = homes.get(it.owner, it.module)
        it.unit = f"{it.module}::+{it.cycle}" if it.cycle else it.plain_name()
    return found


CONSTANT = re.compile(r"^(?:pub(?:\([^)]*\))? )?(?:const|static) (\w+):")
SPOKEN = re.compile(r"^\s*(?://|use |pub use )")


def constants_of(lines):
    """For each line, counted from 0, the constant that it defines outside of all blocks, or an empty text."""
    found, name = [], ""
    for line in lines:
        if at := CONSTANT.match(line):
            name = at[1]
        elif line and not line.startswith((" ", "]", "}", ")")):
            name = ""
        found.append(name)
    return found


def users_of(edit, sources, functions):
    """The functions whose bodies use the constant that an edit changes, or none if other code uses it."""
    if edit.function or any(path not in sources for path, _ in edit.lines):
        return []
    names = {constants_of(sources[path])[number - 1] for path, number in edit.lines}
    if len(names) != 1 or names == {""}:
        return []
    word, users = re.compile(rf"\b{names.pop()}\b"), []
    for path, lines in sources.items():
        for at, (line, constant) in enumerate(zip(lines, constants_of(lines)), 1):
            if word.search(line) and not SPOKEN.match(line) and not word.fullmatch(constant):
                inside = [it for it in functions if it.file == path and it.opens < at <= it.closes]
                if not inside:
                    return []
                users.append(inside[0])
    return users
