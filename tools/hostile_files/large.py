"""The large files of tools/hostile-files: their contents, the expected answers, and what they cost."""

import collections
import os
import random
import tempfile

from hostile_files.measuring import Measurer
from shared.programs import write_files

MIB = 1 << 20
FILE_LIMIT = 16 * MIB
# The largest file that is tried, so that a script of one event with it is not too long. (try_limits tries the
# others.)
LARGEST = FILE_LIMIT - 128
GROWTH = 2.4
# Times and memory below these are not compared: a program that does nothing uses as much, and a clock can't
# measure shorter times.
LEAST_SECONDS = 0.1
LEAST_MEMORY = 24 * MIB
LEAST = LEAST_SECONDS, LEAST_MEMORY
# The resolution of processor time, in seconds.
LEAST_TICK = 0.01
MARK, MARKED = b"key f19\n", b"key f19: unbound\n"
MANIFEST = b'{"publisher":"p","name":"e"}'
TYPE_HEAD = b'"command":"x.hi","budget":1004,"depth":1'
TYPE_TEXTS, TYPE_CALLS = b',"texts":["hi"]', b',"calls":["type"]'
TYPE_CODE = b',"code":"010000300000000000"'
TYPE = b"{" + TYPE_HEAD + TYPE_TEXTS + TYPE_CALLS + TYPE_CODE + b"}"
ONE_HANDLER = b'{"version":1,"handlers":[' + TYPE + b"]}"

# A run: the files, the arguments of the program, the script, and the expected status and outputs (the ends of
# long outputs).
Job = collections.namedtuple("Job", "files words script status out err")


def filled(size, before, piece, after=b""):
    """A content of at most this size: as many pieces as fit between the two given parts."""
    return before + piece * ((size - len(before) - len(after)) // len(piece)) + after


# ---- how a file is passed to the program


def load_answer(number, named, names):
    """The expected answer to a load: the status, and the ends of both outputs."""
    if number == 5:
        return 4, b"", b"stopped: out of memory\n"
    if number:
        return 3, b"", b"load refused: %s %d %s\n" % (named, number, names[number].encode())
    return 0, MARKED, b""


def by_load(option, named):
    def job(content, number, names):
        return Job({"f": content}, [option, "f"], MARK, *load_answer(number, named, names))

    return job


def by_manifest(content, number, names):
    return Job({"e/package.json": content}, ["e"], MARK, *load_answer(number, b"ext 0 package.json", names))


def by_handlers(content, number, names):
    files = {"e/package.json": MANIFEST, "e/handlers.json": content}
    return Job(files, ["e"], MARK, *load_answer(number, b"ext 0 handlers.json", names))


def event_answer(number, done, names):
    if number == 5:
        return 4, b"", b"stopped: out of memory\n"
    if number == 1:
        return 0, b"unread line 1\n" + MARKED, b""
    return 0, (b"refused %d %s\n" % (number, names[number].encode()) if number else done) + MARKED, b""


def by_reload(content, number, names):
    line = b"reload " + content[: FILE_LIMIT - 64].replace(b"\n", b"\r") + b"\n"
    return Job({}, [], line + MARK, *event_answer(number, b"reloaded\n", names))


def by_update(content, number, names):
    line = b"update p.e " + content[: FILE_LIMIT - 64].replace(b"\n", b"\r") + b"\n"
    files = {"e/package.json": MANIFEST, "e/handlers.json": ONE_HANDLER}
    return Job(files, ["e"], line + MARK, *event_answer(number, b"updated p.e\n", names))


RULES = {"load": by_load("--user", b"user"), "reload": by_reload}
LAYOUT = {"load": by_load("--layout", b"layout")}
UPDATES = {"load": by_handlers, "update": by_update}

# ---- one token


def members(size):
    """Members with different names, of about this size together."""
    return b",".join(b'"k%07d":0' % it for it in range(size // 13))


ARGUMENTS = b'[{"key":"a","command":"x","args":{'
TOKENS = [
    ("`[`", lambda n: b"[" * n, 4),
    ("`]`", lambda n: b"]" * n, 4),
    ("`{`", lambda n: b"{" * n, 4),
    ("`}`", lambda n: b"}" * n, 4),
    ("`:`", lambda n: b":" * n, 4),
    ("`,`", lambda n: b"," * n, 4),
    ("letters", lambda n: b"x" * n, 4),
    ("NUL", lambda n: b"\0" * n, 4),
    ("FF", lambda n: b"\xff" * n, 1),
    ("backslashes", lambda n: b"\\" * n, 4),
    ("an even number of quotes", lambda n: b'"' * (n & ~1), 4),
    ("an odd number of quotes", lambda n: b'"' * ((n & ~1) - 1), 3),
    ("an open string", lambda n: filled(n, b'"', b"x"), 3),
    ("a string", lambda n: filled(n, b'["', b"x", b'"]'), 0),
    ("a string of backslashes", lambda n: filled(n, b'["', b"\\\\", b'"]'), 0),
    ("a string of \\u0000", lambda n: filled(n, b'["', b"\\u0000", b'"]'), 0),
    ("a number", lambda n: filled(n, b"[", b"1", b"]"), 4),
    ("a fraction", lambda n: filled(n, b"[0.", b"0", b"]"), 0),
    ("a negative exponent", lambda n: filled(n, b"[1e-", b"1", b"]"), 0),
    ("numbers", lambda n: filled(n, b"[", b"0,", b"0]"), 0),
    ("truth values", lambda n: filled(n, b"[", b"true,", b"true]"), 0),
    ("strings", lambda n: filled(n, b"[", b'"",', b'""]'), 0),
    ("lists", lambda n: filled(n, b"[", b"[],", b"[]]"), 0),
    ("objects", lambda n: filled(n, b"[", b"{},", b"{}]"), 0),
    ("trailing commas", lambda n: filled(n, b"[", b"[0,],", b"]"), 0),
    ("members of one name", lambda n: filled(n, b"[{", b'"a":0,', b'"a":0}]'), 0),
    ("members of different names", lambda n: ARGUMENTS + members(n - 64) + b"}}]", 0),
    ("blanks", lambda n: b" " * n, 0),
    ("line ends", lambda n: b"\n" * n, 0),
    ("a line comment", lambda n: filled(n, b"//", b"x"), 0),
    ("line comments", lambda n: filled(n, b"", b"//\n"), 0),
    ("a block comment", lambda n: filled(n, b"/*", b"x", b"*/"), 0),
    ("block comments", lambda n: filled(n, b"", b"/**/"), 0),
    ("an open comment", lambda n: filled(n, b"/*", b"x"), 2),
    ("slashes", lambda n: b"/" * n, 0),
    ("stars", lambda n: b"*" * n, 4),
]


# ---- clauses and patterns


def with_clause(before, piece, after=b""):
    return lambda n: filled(n, b'[{"key":"a","command":"x","when":"' + before, piece, after + b'"}]')


CLAUSES = [
    ("atoms and `&&`", with_clause(b"", b"a && ", b"a"), 0),
    ("atoms and `||`", with_clause(b"", b"a || ", b"a"), 0),
    ("comparisons", with_clause(b"", b"a == b || a != 'c' && ", b"a"), 0),
    ("groups", with_clause(b"", b"(a||b)&&", b"a"), 0),
    ("`in` and `not in`", with_clause(b"", b"a in b || a not in b && ", b"a"), 0),
    ("`(`", with_clause(b"", b"("), 0),
    ("`!`", with_clause(b"", b"!", b"a"), 0),
    ("`&`", with_clause(b"", b"&"), 0),
    ("a key", with_clause(b"", b"k"), 0),
    ("a quoted text", with_clause(b"a == '", b"k", b"'"), 0),
    ("an open text", with_clause(b"a == '", b"k"), 0),
    ("a number", with_clause(b"a < ", b"1"), 0),
    ("blanks", with_clause(b"a", b" ", b"&& b"), 0),
    ("a pattern of groups", with_clause(b"a =~ /", b"(", b"/"), 0),
    ("a pattern of classes", with_clause(b"a =~ /", b"[", b"]/"), 0),
    ("short patterns", with_clause(b"", b"a =~ /b/ && ", b"a"), 0),
    # (as long as the file, so that it always exceeds the size limit of `regex`)
    ("a pattern of letters", lambda n: with_clause(b"a =~ /", b"x", b"/")(4 * n), 5),
    # (`regex` turns them into one class)
    ("a pattern of alternatives", lambda n: with_clause(b"a =~ /x", b"|x", b"/")(4 * n), 0),
]


def pressed_job(content, number, names):
    """A load of a rule whose clause doesn't hold, and a press of its key."""
    answer = load_answer(number, b"user", names)
    out = answer[1] and b"key a: unbound\n" + answer[1]
    return Job({"f": content}, ["--user", "f"], b"key a\n" + MARK, answer[0], out, answer[2])


def searched(pattern, letter):
    """A context key with a long text, and a press of a key whose clause searches that text."""

    def job(content, number, names):
        rules = b'[{"key":"a","command":"","when":"t =~ /' + pattern + b'/"}]'
        script = b'set window t "' + letter * (len(content) - 32) + b'"\nkey a\n' + MARK
        return Job({"f": rules}, ["--user", "f"], script, 0, b"set window t\nkey a: unbound\n" + MARKED, b"")

    return job


SEARCHES = [
    ("`(x+x+)+y` over letters x", searched(b"(x+x+)+y", b"x")),
    ("`(x|xx)*y` over letters x", searched(b"(x|xx)*y", b"x")),
    (r"`\\w{20}[0-9]` over letters x", searched(rb"\\w{20}[0-9]", b"x")),
    ("`.*.*.*=.*` over letters x", searched(b".*.*.*=.*", b"x")),
]


def patterns(n):
    """Rules with patterns that compile to much more than their text, one for each 64 KiB of the size."""
    rule = b'{"key":"a","command":"x","when":"t =~ /\\\\w{0,40}y/"},'
    return b"[" + rule * max(n // 65536, 1) + b"]"


# ---- handlers


def code_of(count):
    """Code of this many instructions, which costs the same number."""
    return b"020001050000" * ((count - 1) // 2) + b"000000" + b"000000" * ((count - 1) % 2)


VERSION_1 = b'{"version":1,"handlers":['


def some_handlers(sizes):
    """A handlers.json with a handler of each of these numbers of instructions."""
    form = b'{"command":"x.h%d","budget":20000,"depth":1,"code":"%s"}'
    made = (form % (at, code_of(size)) for at, size in enumerate(sizes))
    return VERSION_1 + b",".join(made) + b"]}"


def longest_handlers(n):
    """As many handlers of 9,999 instructions as fit: 279 into 16 MiB."""
    return some_handlers([9999] * ((n - 64) // 60100))


def most_handlers(n):
    """1,000 handlers with as many instructions as fit."""
    return some_handlers([(n // 1000 - 64) // 6 | 1] * 1000)


def with_member(member, before, piece, after):
    """One handler that has one long member."""
    texts = b"" if member == b"texts" else TYPE_TEXTS
    code = b"" if member == b"code" else TYPE_CODE
    head = VERSION_1 + b"{" + TYPE_HEAD + texts + TYPE_CALLS + code + b',"' + member + b'":'
    return lambda n: filled(n, head + before, piece, after + b"}]}")


TOO_LARGE = {"load": 44, "update": 44}
HANDLERS = [
    ("handlers of 9,999 instructions", longest_handlers, {"load": 0, "update": 95}),
    ("1,000 handlers", most_handlers, {"load": 0, "update": 95}),
    ("one text", with_member(b"texts", b'["', b"x", b'"]'), {"load": 0, "update": 0}),
    ("too many texts", with_member(b"texts", b"[", b'"",', b'""]'), TOO_LARGE),
    ("code that is too long", with_member(b"code", b'"', b"020001050000", b'000000"'), TOO_LARGE),
    ("code that is no hexadecimal text", with_member(b"code", b'"', b"zz", b'"'), {"load": 42, "update": 42}),
    ("an unknown member", with_member(b"more", b"[", b"0,", b"0]"), {"load": 0, "update": 0}),
    ("too many handlers", lambda n: filled(n, VERSION_1, b"0,", b"0]}"), TOO_LARGE),
]

# ---- manifests and layouts

COMMANDS = b'{"name":"e","contributes":{"commands":['
KEYBINDINGS = b'{"name":"e","contributes":{"keybindings":['
PALETTE = b'{"name":"e","contributes":{"menus":{"commandPalette":['
DEPENDENCIES = b'{"name":"e","extensionDependencies":['
MANIFESTS = [
    ("commands", lambda n: filled(n, COMMANDS, b'{"command":"x","title":"y"},', b"]}}"), 0),
    ("dropped entries", lambda n: filled(n, COMMANDS, b"0,", b"0]}}"), 0),
    ("key rules", lambda n: filled(n, KEYBINDINGS, b'{"command":"x","key":"a"},', b"]}}"), 0),
    ("removals", lambda n: filled(n, KEYBINDINGS, b'{"command":"-x"},', b"]}}"), 0),
    ("palette items", lambda n: filled(n, PALETTE, b'{"command":"x"},', b"]}}}"), 0),
    ("dependencies", lambda n: filled(n, DEPENDENCIES, b'"p.x",', b'"p.x"]}'), 90),
    ("a name", lambda n: filled(n, b'{"name":"', b"e", b'"}'), 0),
]
LAYOUTS = [
    ("scopes", lambda n: filled(n, b'{"scopes":[', b'{"name":"a"},', b"]}"), 21),
    ("values of a list", lambda n: filled(n, b'{"scopes":[{"name":"a","keys":{"k":[', b'"",', b'""]}}]}'), 0),
    ("a name", lambda n: filled(n, b'{"scopes":[{"name":"', b"a", b'"}]}'), 0),
    ("keys", lambda n: b'{"scopes":[{"name":"a","keys":{' + members(n - 64) + b"}}]}", 22),
]


# ---- files whose cost grows faster than their size

MASK = (1 << 64) - 1
MULTIPLIER = 0x9E3779B97F4A7C15
FIRST_STATE = 0x243F6A8885A308D3
# Characters that need no escape in a JSON string.
PLAIN = bytes(it for it in range(0x21, 0x7F) if it not in b'"\\')


def multiplied(a, b):
    product = a * b
    return (product & MASK) ^ (product >> 64)


def names_of_one_hash(count):
    """Names that all have the same hash in a `HashMap` whose hasher has no seed: their second block of 16
    bytes begins with the hasher's state, so that it is multiplied by 0."""
    chance = random.Random(1)
    while True:
        block = bytes(chance.choice(PLAIN) for _ in range(16))
        low, high = (int.from_bytes(it, "little") for it in (block[:8], block[8:]))
        state = multiplied(low ^ (FIRST_STATE + 48 & MASK), high ^ MULTIPLIER).to_bytes(8, "little")
        if all(it in PLAIN for it in state):
            return [block + state + b"%08d" % at + b"0123456789abcdef" for at in range(count)]


def listed(size, before, piece, after):
    """A list with one piece for each of some names with the same hash."""
    count = size // (len(piece) + 47)
    return before + b",".join(piece % it for it in names_of_one_hash(count)) + after


def compared(content, number, names):
    """As many default rules as removals by the user, all of one command and one key, with different
    clauses."""
    count = len(content) // 90
    of_each = lambda form: b"[" + b",".join(form % it for it in range(count)) + b"]"
    rules = of_each(b'{"key":"a","command":"x","when":"k%d && l"}')
    removals = of_each(b'{"key":"a","command":"-x","when":"k%d && m"}')
    return Job({"d": rules, "u": removals}, ["--defaults", "d", "--user", "u"], MARK, 0, MARKED, b"")


def commands_of_one_hash(n):
    return listed(n, COMMANDS, b'{"command":"%s","title":"t"}', b"]}}")


def removals_of_one_hash(n):
    return listed(n, b"[", b'{"command":"-%s"}', b"]")


def keys_of_one_hash(n):
    return listed(n, b'{"scopes":[{"name":"a","keys":{', b'"%s":0', b"}}]}")


OPEN = [
    ("manifest: commands of one hash", commands_of_one_hash, by_manifest),
    ("rules, load: removals of one hash", removals_of_one_hash, RULES["load"]),
    ("layout: keys of one hash", keys_of_one_hash, LAYOUT["load"]),
    ("rules and removals of one key", lambda n: b" " * n, compared),
]


def try_open(measurer, programs, names):
    """Prints a table of the cases whose cost is known to grow faster than their size."""
    sizes = [MIB // 16, MIB // 8, MIB // 4]
    faults = []
    for title, make, way in OPEN:
        line, wrong = try_case(measurer, programs, (title, make, 0, way), sizes, names)
        print(line, flush=True)
        faults += [it for it in wrong if " grew " not in it]
    return len(OPEN) * len(sizes), faults


def cases():
    """For each case its title, the function of its content, the expected fault, and how it is passed."""
    for title, make, number in TOKENS:
        for way, job in RULES.items():
            yield f"rules, {way}: {title}", make, number, job
    for title, make, number in CLAUSES:
        yield f"clause: {title}", lambda n, make=make: make(n // 4), number, pressed_job
    for title, job in SEARCHES:
        yield f"search: {title}", lambda n: b" " * (n // 4), 0, job
    yield "rules with patterns, one for each 64 KiB", patterns, 0, RULES["load"]
    for title, make, numbers in HANDLERS:
        for way, job in UPDATES.items():
            yield f"handlers, {way}: {title}", make, numbers[way], job
    for title, make, number in MANIFESTS:
        yield f"manifest: {title}", make, number, by_manifest
    for title, make, number in LAYOUTS:
        yield f"layout: {title}", make, number, LAYOUT["load"]


# ---- measuring


def end_of(path, count):
    with open(path, "rb") as file:
        file.seek(max(os.path.getsize(path) - count, 0))
        return file.read()


def fault_of(job, status, folder):
    """What is wrong with the answer of a run, or None. Standard error may begin with warnings."""
    out, err = (end_of(os.path.join(folder, it), 4096) for it in ("out", "err"))
    # (the first of the last 4096 bytes may be in the middle of a line)
    lines = err.split(b"\n")[1:] if len(err) == 4096 else err.split(b"\n")
    others = [it for it in lines if it and not it.startswith(b"warning ")]
    if status == job.status and out == job.out and b"".join(it + b"\n" for it in others) == job.err:
        return None
    return "status %d, %r, %r" % (status, out[-200:], err[-200:])


def measured(measurer, program, job, tries):
    """The least seconds and the peak memory of a run with these files, and what is wrong with it."""
    with tempfile.TemporaryDirectory(prefix="hostile-large-") as folder:
        write_files(folder, {**job.files, "script": job.script})
        runs, faults = [], []
        for _ in range(tries):
            runs.append(measurer.run([*program, *job.words], folder))
            faults.append(fault_of(job, runs[-1][0], folder))
        fault = next((it for it in faults if it), None)
        return min(it[1] for it in runs), max(it[2] for it in runs), fault


def growth_fault(before, after):
    """What grew beyond its limit when the size doubled, or None."""
    if after[0] > LEAST_SECONDS and after[0] > GROWTH * before[0]:
        return "time grew %.2f times" % (after[0] / before[0])
    if after[1] > LEAST_MEMORY and after[1] > GROWTH * before[1]:
        return "memory grew %.2f times" % (after[1] / before[1])
    return None


def try_case(measurer, programs, case, sizes, names):
    """The row of a case in the table, and what is wrong."""
    title, make, number, way = case
    found, faults, beside = [], [], None
    for size in sizes:
        job = way(make(min(size, LARGEST)), number, names)
        seconds, memory, fault = measured(measurer, programs[0], job, 2)
        found.append((seconds, memory))
        faults += [f"{title}, {size} bytes: {fault}"] if fault else []
    if len(programs) > 1:
        beside = measured(measurer, programs[1], job, 2)
    for before, after in zip(found, found[1:]):
        if fault := growth_fault(before, after):
            faults.append(f"{title}: {fault}")
    return row_of(title, job, number, names, found, beside), faults


# ---- the table


def head_of_table(of, is_beside):
    """The first lines of a Markdown table. Its rows have the figures of the largest size."""
    names = [of, "MiB", "answer", "seconds", "MB"]
    names += ["the other's seconds", "MB", "times as many"] if is_beside else []
    names += ["growth of time, of memory"]
    return "| %s |\n|%s" % (" | ".join(names), "---|" * len(names))


def row_of(title, job, number, names, found, beside):
    """A row of the table: what the largest file cost, and how the cost grew with each doubling."""
    size = sum(map(len, [*job.files.values(), job.script])) / MIB
    is_unread = job.out.startswith(b"unread line")
    answer = "an unread line" if is_unread else f"{number} {names[number]}" if number else "read"
    seconds, memory = found[-1]
    cells = [title.replace("|", "\\|"), "%g" % round(size, 2), answer]
    cells += ["%.2f" % seconds, "%.0f" % (memory / 1e6)]
    if beside:
        same = "" if beside[2] is None else " (another answer)"
        ratios = ratio_of(seconds, beside[0], LEAST_TICK), ratio_of(memory, beside[1], 1)
        cells += ["%.2f%s" % (beside[0], same), "%.0f" % (beside[1] / 1e6), ", ".join(ratios)]
    grown = []
    for at, least in enumerate(LEAST):
        pairs = zip(found, found[1:])
        grown.append(" ".join(ratio_of(after[at], before[at], least) for before, after in pairs))
    return "| %s | %s |" % (" | ".join(cells), ", ".join(grown))


def ratio_of(value, other, least):
    """The ratio of two values, or a dash if the value is too small to be compared."""
    return "%.1f" % (value / other) if other > 0 and value > least else "–"


def try_limits(measurer, program, names):
    """Tries each file with 16 MiB and with one byte more, and scripts too (golden/programs/scripts)."""
    faults = []
    roles = [
        (by_load("--layout", b"layout"), "f", b'{"scopes":[{"name":"window"}]}'),
        (by_load("--defaults", b"defaults"), "f", b"[]"),
        (by_load("--user", b"user"), "f", b"[]"),
        (by_manifest, "e/package.json", MANIFEST),
        (by_handlers, "e/handlers.json", ONE_HANDLER),
    ]
    for job, path, content in roles:
        for more in (0, 1):
            made = job(content + b" " * (FILE_LIMIT + more - len(content)), 0, names)
            if more:
                made = made._replace(status=3, out=b"", err=b"cannot read " + path.encode() + b"\n")
            fault = measured(measurer, program, made, 1)[2]
            faults += [f"{path} with {FILE_LIMIT + more} bytes: {fault}"] if fault else []
    for count, status, err in ((FILE_LIMIT, 0, b""), (FILE_LIMIT + 1, 4, b"script: too long\n")):
        fault = measured(measurer, program, Job({}, [], b"\n" * count, status, b"", err), 1)[2]
        faults += [f"a script of {count} line feeds: {fault}"] if fault else []
    return 2 * len(roles) + 2, faults


def try_large(programs, is_all, names, only=""):
    """The number of large files that were tried, and what is wrong. Prints the tables."""
    sizes = [4 * MIB, 8 * MIB, 16 * MIB] if is_all else [MIB, 2 * MIB, 4 * MIB]
    measurer = Measurer()
    total, faults = (0, []) if only else try_limits(measurer, programs[0], names)
    print(head_of_table("file", len(programs) > 1))
    for case in cases():
        if only in case[0]:
            line, wrong = try_case(measurer, programs, case, sizes, names)
            print(line, flush=True)
            total, faults = total + len(sizes), faults + wrong
    if not only:
        print("\n" + head_of_table("file whose cost isn't linear", len(programs) > 1))
        count, wrong = try_open(measurer, programs, names)
        total, faults = total + count, faults + wrong
    measurer.close()
    return total, faults
