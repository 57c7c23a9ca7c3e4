"""Reads the output of a check for each function: which of its own goals failed, and whether it waits for
another proof.

The line of a function ends in `proved`, or lists what is missing:

    fn kb_jsonc::text::plain: no proof: expected answers in ./proofs/text/plain/Answers.antt;
    `search` did not prove `returns-clause-exact`; it calls `kb_jsonc::scan::make_plain`, which is not proved

If a written answer doesn't prove its goal, the output has an error in the function's folder of proofs/. If
nothing proves a goal, the output has a note at a line of the function.
"""

import dataclasses
import re

FUNCTION = re.compile(r"^fn (\S+): (.*)$")
ITEM = re.compile(r"^(?:impl|enum|struct|trait|type) (\S+): (.*)$")
ERROR = re.compile(r"^(?:\./)?(\S+?):\d+:\d+: error\S*: (?:`([^`]*)`: )?")
GOAL = re.compile(r"^note: (?:\./)?(src/\S+?):(\d+):\d+: it is not proved that .*\(`([^`]*)`\)")
# An error that only says that a proof names what an edit took away, or depends on such a proof.
NAMES = re.compile(r"has no field|is not in scope|has no `|was not admitted")
SEARCHED = re.compile(r"^`search` did not prove (`.*`)$")
WAITS = re.compile(r"^it (?:calls|passes the blocks?|waits for the proof of) `.*`(?:, which .*)?$")
IN_CYCLE = re.compile(r"^in `[^`]*`, of this cycle of calls: ")
LACKS = re.compile(r"^(?:not proved|no proof|expected answers in \S+)$")
# Of a closure with the second text nothing is missing: what it asks is a goal of the function that it is in.
PROVED = {"proved", "proved where its callers give what it asks"}


@dataclasses.dataclass
class Verdict:
    """The result of a check for one function, or for the functions of one cycle."""

    is_proved: bool = True
    # Its own goals that failed.
    goals: list = dataclasses.field(default_factory=list)
    # Whether it needs another proof that is missing.
    waits: bool = False
    # Whether one of its proof files names something that doesn't exist.
    lacks_names: bool = False
    # The part of its line that this tool can't read.
    unread: str = ""

    @property
    def is_broken(self):
        """Whether its proof files have an error."""
        return self.lacks_names or bool(self.goals)


def own_part(name):
    """The function that a closure belongs to, or the name itself. A closure may be in another one:
    `module::fn::function::fn::outer::inner`.
    """
    of_closure = re.compile(r"(^|::)fn::(.*?)(?:::fn::.*|::[^:]*)$")
    return of_closure.sub(r"\1\2", re.sub(r"\+Fn\w*::call\w*$", "", name))


class Said:
    """A check's output, read for the functions of a crate."""

    def __init__(self, text, crate, functions):
        self.crate = crate.name
        self.functions = functions
        self.units = {it.plain_name(): it.unit for it in functions}
        self.found = {it.unit: Verdict() for it in functions}
        self.named = set()
        # The lines that report a failure and belong to no function.
        self.stray = []
        self.folders = {}
        for it in functions:
            path = ["proofs", *it.unit.split("::")]
            self.folders["/".join(path) + "/"] = it.unit
            # (the proof of a function that calls itself)
            self.folders["/".join([*path[:-1], f"+{path[-1]}"]) + "/"] = it.unit
        self.lines = text.rstrip("\n").split("\n")
        for line in self.lines:
            self.read(line)

    def unit_of(self, name):
        part = own_part(name.removeprefix(f"{self.crate}::"))
        return self.units.get(part, part)

    def read(self, line):
        if found := FUNCTION.match(line):
            self.read_function(self.unit_of(found[1]), found[2])
        elif found := ITEM.match(line):
            of_item = Verdict()
            read_parts(found[2], of_item)
            if of_item.unread or not (of_item.is_proved or of_item.waits):
                self.stray.append(line)
        elif found := ERROR.match(line):
            self.read_error(line, found[1], found[2])
        elif found := GOAL.match(line):
            inside = [it for it in self.functions if it.file == found[1] and it.spans(int(found[2]))]
            if inside:
                self.found[inside[0].unit].goals.append(found[3])
            else:
                self.stray.append(line)

    def read_function(self, unit, text):
        self.named.add(unit)
        read_parts(text, self.found.setdefault(unit, Verdict()))

    def read_error(self, line, file, goal):
        unit = next((self.folders[it] for it in self.folders if file.startswith(it)), None)
        if unit is None:
            self.stray.append(line)
        elif NAMES.search(line) or file.endswith("/Invariants.antt"):
            self.found[unit].lacks_names = True
        elif goal:
            # (an error without a name is about something that depends on a failed answer)
            self.found[unit].goals.append(goal)


def read_parts(text, verdict):
    """Adds the text after a function's name to a verdict."""
    if text in PROVED:
        return
    verdict.is_proved = False
    for part in text.removeprefix("no proof: ").split("; "):
        part = IN_CYCLE.sub("", part)
        if found := SEARCHED.match(part):
            verdict.goals += re.findall(r"`([^`]*)`", found[1])
        elif WAITS.match(part):
            verdict.waits = True
        elif not LACKS.match(part):
            verdict.unread = part
