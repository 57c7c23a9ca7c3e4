"""The large files of `keycheck assemble` and `keycheck disassemble` for tools/hostile-files: their contents,
the expected answers, and what they cost."""

import dataclasses
import os
import re
import tempfile

from hostile_files.large import FILE_LIMIT, LARGEST, LEAST, MIB, growth_fault, longest_handlers, most_handlers
from hostile_files.large import names_of_one_hash, ratio_of, with_member
from hostile_files.measuring import Measurer
from shared.programs import write_files

HEAD = b".handler x.a\n"
END = b"return\n"
# The first bytes of what is written where there is no fault.
ASSEMBLED, DISASSEMBLED = b'{\n    "version": ', b".handler x."
SHOWN = 1_000
TOO_LONG = "44 TooLarge: its handlers.json would have more than 16,777,216 bytes"


@dataclasses.dataclass
class Case:
    """A kind of file. `make` gives the content of about so many bytes."""

    title: str
    make: object
    # The beginning of the first line that it has to have behind the path, and how many more faults than SHOWN
    # the last line counts, by the content. No fault is the empty text.
    fault: str = ""
    more: object = None
    command: str = "assemble"
    # Whether the handlers.json is longer than the text, so that there is none for the longest one.
    is_copied: bool = False

    def fault_of(self, content):
        """The fault of a content, or the empty text."""
        return TOO_LONG if self.is_copied and len(content) + 512 > FILE_LIMIT else self.fault


def filled(before, piece, after=b""):
    """A file of as many pieces as fit between two parts."""
    return lambda n: before + piece * ((n - len(before) - len(after)) // len(piece)) + after


def numbered(before, form, after=b""):
    """The same of pieces that each have a number of eight digits."""

    def made(n):
        count = (n - len(before) - len(after)) // len(form % 0)
        return before + b"".join(form % it for it in range(count)) + after

    return made


def long_labels(n):
    """Eight labels of n/16 bytes, and a jump to each: of 16 MiB each label has 1 MiB."""
    names = [b"%d" % at + b"y" * (n // 16 - 8) for at in range(8)]
    jumps = b"".join(b"jump " + it + b"\n" for it in names)
    return HEAD + jumps + b"".join(it + b":\n" for it in names) + END


def lines_beyond(first):
    """How many lines behind the first ones have a fault, beyond those that are shown."""
    return lambda content: content.count(b"\n") - first - SHOWN


def hashed_labels(n):
    """Labels of one hash, and a jump to each."""
    names = names_of_one_hash(n // 96)
    return HEAD + b"".join(b"jump %s\n" % it for it in names) + b"".join(b"%s:\n" % it for it in names) + END


def instructions(count):
    """A handler of this many instructions, whatever the size."""
    return lambda n: HEAD + b"before\ndrop\n" * ((count - 1) // 2) + END * (1 + (count - 1) % 2)


NO_HANDLER = "1:1: NoHandler: "
TOO_MANY = "44 TooLarge: a handler has at most "
TOO_MANY_HANDLERS = "44 TooLarge: a file has at most 1,000 handlers"
TYPED = b'"\ncall type\nreturn\n'
LONG_TEXT = b'text "%08d' + b"x" * 992 + b'"\n'
CASES = [
    Case("one word", filled(b"", b"x"), NO_HANDLER),
    Case("one word behind a handler's line", filled(HEAD, b"x"), "2:1: UnknownInstruction: "),
    Case("a handler's name", filled(b".handler ", b"x", b"\nreturn\n"), is_copied=True),
    Case("words", filled(b"", b"x "), NO_HANDLER),
    Case("words behind an instruction", filled(HEAD + b"return ", b"x "), "2:8: ExtraWord: "),
    Case("unknown instructions", filled(HEAD, b"x\n"), "2:1: UnknownInstruction: ", lines_beyond(1)),
    Case("a text", filled(HEAD + b'text "', b"x", TYPED), is_copied=True),
    Case("a text of escapes", filled(HEAD + b'text "', b"\\n", TYPED), is_copied=True),
    Case("a text of bytes FF", filled(HEAD + b'text "', b"\xff", b'"\n'), "NotUtf8: "),
    Case("open quotes", filled(HEAD + b'text "', b"x"), "OpenQuotes: "),
    Case("quotes", filled(b"", b'"'), "1:3: MissingBlank: "),
    Case("bytes FF", filled(b"", b"\xff"), "1:1: BadByte: "),
    Case("NUL", filled(b"", b"\0"), "1:1: BadByte: "),
    Case("a number", filled(HEAD + b"num ", b"1", b"\n"), "2:5: BadNumber: "),
    Case("a comment", filled(b";", b"x")),
    Case("comments", filled(b"", b";\n")),
    Case("line ends", filled(b"", b"\n")),
    Case("blanks", filled(b"", b" ")),
    Case("handlers", numbered(b"", b".handler x.%08d\nreturn\n"), TOO_MANY_HANDLERS),
    Case("handlers of one name", filled(b"", HEAD + END), "3:10: 43 DuplicateHandler: "),
    Case("instructions", filled(HEAD, b"before\ndrop\n", END), TOO_MANY + "10,000 instructions"),
    Case("10,000 instructions", instructions(10_000)),
    Case("10,001 instructions", instructions(10_001), TOO_MANY + "10,000 instructions"),
    Case("parameters", numbered(HEAD, b".param p%08d text\n", END), TOO_MANY + "8 parameters"),
    Case("entries of a table", filled(HEAD, b'.text "a"\n', END), TOO_MANY + "1,000 texts"),
    Case("texts of 1,000 bytes", numbered(HEAD, LONG_TEXT, END), TOO_MANY + "1,000 texts"),
    Case("blocks that are opened", filled(HEAD, b"repeat 2\n", END), TOO_MANY + "10,000 instructions"),
    Case("blocks that are closed", filled(HEAD, b"end\n", END), TOO_MANY + "10,000 instructions"),
    Case("long labels, each with a jump", long_labels),
    Case("labels", numbered(HEAD, b"l%08d:\n", END)),
    Case("labels of one name", filled(HEAD, b"a:\n", END), "3:1: DoubleLabel: ", lines_beyond(3)),
    Case("jumps to no label", numbered(HEAD, b"jump q%08d\n", END), "2:6: UnknownName: ", lines_beyond(2)),
    Case("calls", numbered(HEAD, b"call c%08d\n", END), "65538:6: 44 TooLarge: ", lines_beyond(65_538)),
    Case("handlers of 9,999 instructions", longest_handlers, command="disassemble"),
    Case("1,000 handlers", most_handlers, command="disassemble"),
    Case("one text", with_member(b"texts", b'["', b"x", b'"]'), command="disassemble"),
    Case("letters", filled(b"", b"x"), "1:1: 4 Syntax: ", command="disassemble"),
    Case("bytes FF", filled(b"", b"\xff"), "1:1: 1 NotUtf8: ", command="disassemble"),
]
# Cases whose cost isn't linear.
OPEN = [Case("labels of one hash, each with a jump", hashed_labels)]


def ends_of(path):
    """The first and the last line of a file, each with at most so many bytes."""
    with open(path, "rb") as file:
        first = file.read(4096).split(b"\n")[0]
        file.seek(max(os.path.getsize(path) - 4096, 0))
        return first, file.read().removesuffix(b"\n").split(b"\n")[-1]


def fault_of(case, content, status, folder):
    """What is wrong with the answer of a run, or None."""
    out, err = (os.path.join(folder, it) for it in ("out", "err"))
    expected = case.fault_of(content)
    if status != bool(expected):
        return f"status {status}, not {int(bool(expected))}: {ends_of(err)[0][:200]!r}"
    if not expected:
        with open(out, "rb") as text:
            begin = text.read(32)
        is_right = os.path.getsize(err) == 0 and begin.startswith((ASSEMBLED, DISASSEMBLED))
        return None if is_right else f"another output: {begin!r}, {ends_of(err)[0][:200]!r}"
    first, last = ends_of(err)
    if os.path.getsize(out) or not first.startswith(b"f:") or expected.encode() not in first:
        return f"another fault: {first[:200]!r}"
    if case.more and last != b"f: %d more faults" % case.more(content):
        return f"another count of faults: {last!r}"
    return None


def measured(measurer, program, case, content):
    """The least seconds and the peak memory of two runs, and what is wrong with one."""
    with tempfile.TemporaryDirectory(prefix="hostile-assembly-") as folder:
        write_files(folder, {"f": content, "script": b""})
        runs, fault = [], None
        for _ in range(2):
            runs.append(measurer.run([program, case.command, "f"], folder))
            fault = fault or fault_of(case, content, runs[-1][0], folder)
        return min(it[1] for it in runs), max(it[2] for it in runs), fault


def answer_of(fault):
    """A cell of the table: the name of the fault, with its number if it has one."""
    found = re.search(r"(\d+ )?[A-Z]\w+(?=: )", fault)
    return found[0] if found else "read"


def try_case(measurer, program, case, sizes):
    """The row of a case in the table, what is wrong, and what grew beyond its limit."""
    found, faults, title = [], [], f"{case.command}: {case.title}"
    for size in sizes:
        content = case.make(min(size, LARGEST))
        seconds, memory, fault = measured(measurer, program, case, content)
        found.append((seconds, memory))
        faults += [f"{title}, {len(content)} bytes: {fault}"] if fault else []
    grew = [fault for pair in zip(found, found[1:]) if (fault := growth_fault(*pair))]
    ratios = [
        " ".join(ratio_of(after[at], before[at], least) for before, after in zip(found, found[1:]))
        for at, least in enumerate(LEAST)
    ]
    cells = [title, "%g" % round(len(content) / MIB, 2), answer_of(case.fault_of(content))]
    cells += ["%.2f" % found[-1][0], "%.0f" % (found[-1][1] / 1e6), ", ".join(ratios)]
    return "| %s |" % " | ".join(cells), faults, [f"{title}: {it}" for it in grew]


def try_limit(measurer, program):
    """A file of one byte more than a program reads."""
    with tempfile.TemporaryDirectory(prefix="hostile-assembly-") as folder:
        write_files(folder, {"f": b"\n" * (FILE_LIMIT + 1), "script": b""})
        status = measurer.run([program, "assemble", "f"], folder)[0]
        said = ends_of(os.path.join(folder, "err"))[0]
    is_right = status == 3 and said.startswith(b"cannot read f: ")
    return [] if is_right else [f"assemble: {FILE_LIMIT + 1} bytes: status {status}, {said!r}"]


def try_assembly(program, is_all, only=""):
    """The number of files that were tried, and what is wrong. Prints the tables."""
    sizes = [4 * MIB, 8 * MIB, 16 * MIB] if is_all else [MIB, 2 * MIB, 4 * MIB]
    measurer = Measurer()
    total, faults = 1, try_limit(measurer, program)
    names = ["file", "MiB", "answer", "seconds", "MB", "growth of time, of memory"]
    print("| %s |\n|%s" % (" | ".join(names), "---|" * len(names)))
    for case in CASES:
        if only in f"{case.command}: {case.title}":
            line, wrong, grew = try_case(measurer, program, case, sizes)
            print(line, flush=True)
            total, faults = total + len(sizes), faults + wrong + grew
    for case in OPEN if not only else ():
        line, wrong, _ = try_case(measurer, program, case, [MIB // 16, MIB // 8, MIB // 4])
        print(line, flush=True)
        total, faults = total + 3, faults + wrong
    measurer.close()
    return total, faults
