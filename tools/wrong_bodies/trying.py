"""Judges a crate's wrong bodies, many of them by one check (README.md)."""

import dataclasses
import os
import shutil
import subprocess
import tempfile
import threading
import time

from shared.checking import built_libraries, check, room_with, rt
from shared.source import functions_of, users_of
from wrong_bodies.edits import edits_of, sources_of, with_edits
from wrong_bodies.said import Said
from wrong_bodies.stand_ins import proofs_of_stand_ins, stand_ins_of, with_stand_ins
from wrong_bodies.twins import Proofs, Twin, with_twins

FLAGS = ["--jobs", "1"]
# The most edits that one check tries. A check takes 10 to 20 processor seconds in addition to its edits.
MOST = 80
printing = threading.Lock()


def say(line):
    with printing:
        print(line, flush=True)


@dataclasses.dataclass
class Tried:
    """How an edit was judged. `says_little`: it was refused only because a proof names what it took away."""

    edit: object
    is_refused: bool
    text: str
    batch: int = 0
    says_little: bool = False
    # Whether it was tried. If the time was up, it neither counts as refused nor fails the gate.
    is_tried: bool = True


class TimeIsUp(Exception):
    """The time limit is reached: no further check may begin, or a running check was stopped."""


class Limit:
    """For how many seconds from now checks may begin, and how much longer running checks may go on.

    Without a number there is no limit.
    """

    def __init__(self, seconds=None, clock=time.monotonic, grace=900):
        self.clock, self.grace = clock, grace
        self.end = None if seconds is None else clock() + seconds

    def is_past(self):
        return self.end is not None and self.clock() >= self.end

    def seconds_left(self):
        """How many seconds a check that begins now may take, or None without a limit."""
        if self.is_past():
            raise TimeIsUp
        return None if self.end is None else self.end - self.clock() + self.grace


@dataclasses.dataclass(eq=False)
class Trial:
    """An edit as a batch tries it: in a twin, or in place."""

    edit: object
    # The functions that it changes: one, or those that use the constant that it changes.
    functions: list
    twin: object = None

    @property
    def changed(self):
        """The proofs of the functions that it changes in place."""
        return set() if self.twin else {it.unit for it in self.functions}

    @property
    def targets(self):
        """The functions that have the edit: its twin, or the functions that it changes in place."""
        return [self.twin] if self.twin else self.functions

    @property
    def units(self):
        """The proofs in which a failing goal refuses the edit."""
        return {it.unit for it in self.targets}

    def is_beside(self, other):
        """Whether both may be in one batch: neither changes in place what the other changes."""
        own, its = ({it.unit for it in one.functions} for one in (self, other))
        return not (self.changed & its or other.changed & own)


class Crate:
    """A crate whose edits are tried, with a folder of kept work."""

    def __init__(self, crate, functions, edits, kept, say=say, is_proved=False, limit=None):
        self.crate, self.functions, self.kept, self.say = crate, functions, kept, say
        self.edits, self.is_proved, self.limit = edits, is_proved, limit or Limit()
        self.sources, self.proofs = sources_of(crate), Proofs(crate)
        self.results = {}
        self.batches = 0
        self.alone = 0

    def try_all(self):
        """Judges each edit, and returns the results."""
        begun = time.time()
        try:
            self.try_each()
        except TimeIsUp:
            left = [it for it in self.edits if it not in self.results]
            counts = f"{len(left)} of {len(self.edits)} edits not tried"
            self.say(f"{self.crate.name}: {counts}, since the time is up")
            self.results |= {it: Tried(it, False, "not tried", is_tried=False) for it in left}
        counts = f"{len(self.edits)} edits, {self.batches} batches, {self.alone} alone"
        self.say(f"{self.crate.name}: {counts}, {time.time() - begun:.0f} s")
        return list(self.results.values())

    def try_each(self):
        for edit in self.edits:
            if edit.fault:
                self.judged(Tried(edit, False, f"can't be applied: {edit.fault}"))
        self.limit.seconds_left()
        trials = [trial for it in self.edits if not it.fault and (trial := self.trial_of(it))]
        left = trials
        while left:
            batch = []
            for it in left:
                if len(batch) < MOST and all(map(it.is_beside, batch)):
                    batch.append(it)
            left = [it for it in left if it not in batch]
            self.try_batch(batch)
        for it in trials:
            if it.edit not in self.results:
                self.try_batch([it], has_stand_ins=False)
        for edit in self.edits:
            if edit not in self.results:
                self.try_alone(edit)
        if self.edits and not self.is_proved and not self.is_sound(trials):
            self.say(f"{self.crate.name}: NOT REFUSED, any of them: the crate itself is not proved")
            self.results = {it: Tried(it, False, "the crate itself is not proved") for it in self.edits}

    def trial_of(self, edit):
        """How a batch tries an edit, or None if no batch can try it."""
        if not edit.is_of_body:
            users = users_of(edit, self.sources, self.functions)
            return Trial(edit, users) if users else None
        if self.proofs.let_twins_of(edit.function, self.functions):
            name = f"{edit.function.name}_wrong_{self.edits.index(edit) + 1}"
            return Trial(edit, [edit.function], Twin(edit.function, name, edit))
        return None if edit.function.is_const else Trial(edit, [edit.function])

    def is_sound(self, trials):
        """Whether the tried functions, and the crate if it was checked, are proved without edits."""
        in_batches = [it for it in trials if self.results[it.edit].batch]
        names = {function.plain_name() for it in in_batches for function in it.functions}
        is_proved = lambda these: self.checked({}, sorted(these))[0].returncode == 0
        # (a check without names checks the whole crate)
        return (not names or is_proved(names)) and (not self.alone or is_proved(()))

    def checked(self, texts, names):
        """Checks these functions, or all, of a copy of the crate with these files. Returns the check and the
        functions of the copy."""
        with room_with(self.crate, texts) as room:
            words = [word for it in names for word in ("--only", it)]
            try:
                ran = check(self.crate, room.folder, [*FLAGS, *words], self.kept, self.limit.seconds_left())
            except subprocess.TimeoutExpired:
                raise TimeIsUp from None
            return ran, functions_of(room)

    def texts_of(self, twins, in_place, stand_ins):
        """The sources with these twins, edits in place and stand-ins, and the files of their proofs."""
        sources = with_edits(in_place, self.sources)
        changed = with_twins(twins, with_stand_ins(stand_ins, sources), sources)
        texts = {path: "\n".join(lines) for path, lines in changed.items()}
        texts |= proofs_of_stand_ins(stand_ins, self.proofs, self.crate)
        return texts | {path: text for it in twins for path, text in self.proofs.of_twin(it).items()}

    def judged(self, tried):
        self.results[tried.edit] = tried
        self.say(f"{self.crate.name}/{tried.edit.name}: {tried.text}")

    def try_batch(self, batch, has_stand_ins=True):
        """Tries edits by one check of the functions that have them, with stand-ins or the real functions."""
        begun, changed = time.time(), {unit for it in batch for unit in it.changed}
        may_be = stand_ins_of(self.functions, self.proofs) if has_stand_ins else []
        stand_ins = [it for it in may_be if it.unit not in changed]
        twins, in_place = [it.twin for it in batch if it.twin], [it.edit for it in batch if not it.twin]
        names = [target.plain_name() for it in batch for target in it.targets]
        ran, functions = self.checked(self.texts_of(twins, in_place, stand_ins), names)
        self.batches += 1
        said = Said(ran.stdout, self.crate, functions)
        trouble = trouble_in(ran, said, {unit for it in batch for unit in it.units}, stand_ins)
        over = " over stand-ins" if has_stand_ins else ""
        took = f"took {time.time() - begun:.0f} s{trouble and f', not judged: {trouble}'}"
        self.say(f"{self.crate.name}: batch {self.batches} of {len(batch)} edits{over} {took}")
        if trouble:
            half = len(batch) // 2
            for part in (batch[:half], batch[half:]) if half else ():
                self.try_batch(part, has_stand_ins)
            return
        for it in batch:
            refusing = refusing_in(it, said)
            if refusing:
                self.judged(refused_at(it, *refusing[0], self.batches))

    def try_alone(self, edit):
        """Judges an edit as rt judges a must-fail edit: with the kept work, and then from nothing."""
        begun = time.time()
        if edit.is_within:
            self.judged(Tried(edit, False, "NOT REFUSED in a batch, and rt can't apply it alone"))
            return
        for kept in ([self.kept], []):
            self.limit.seconds_left()
            verdict, text = rt.must_fail(self.crate, edit.file, FLAGS, *kept)
            if is_refusal(verdict):
                break
        self.alone += 1
        text = text.partition(f"/{edit.name}: ")[2]
        says_little = "says little" in text
        text = text.replace("refused, as it must be", "refused alone")
        text += f" ({time.time() - begun:.0f} s)"
        self.judged(Tried(edit, is_refusal(verdict), text, says_little=says_little))


def refusing_in(trial, said):
    """The proofs of a trial that have their own failed goal in a check, each with its verdict."""
    found = [(unit, said.found[unit]) for unit in sorted(trial.units) if unit in said.named]
    return [(unit, it) for unit, it in found if it.goals and not it.unread and not it.is_proved]


def refused_at(trial, unit, verdict, number):
    """The result of an edit that a batch refuses because of a goal."""
    less = " (a proof file also names what the edit took away)" if verdict.lacks_names else ""
    where = trial.edit.function.unit if trial.twin else unit
    text = f"refused in batch {number}: `{verdict.goals[0]}` of {where}{less}"
    return Tried(trial.edit, True, text, number)


def is_refusal(verdict):
    """Whether rt's verdict on an edit counts as refused for rt ci."""
    return verdict in (rt.REFUSED, rt.AT_LIMIT)


def trouble_in(ran, said, changed, stand_ins=()):
    """Why a check of edits of these units doesn't judge them, or an empty text."""
    if rt.rtlib.STALE.search(ran.stdout):
        return "the kept work of a library could not be used"
    if not said.lines[-1].startswith("only="):
        return f"it did not reach the prover: {next(iter(said.lines), '')[:120]}"
    if bad := next((it for it in said.lines if rt.unread(it, ())), ""):
        return f"the prover cannot read an edited text: {bad[:120]}"
    if said.stray:
        return f"a failure belongs to no function: {said.stray[0][:120]}"
    of_stand_ins = {it.unit for it in stand_ins}
    for unit, verdict in said.found.items():
        if unit in of_stand_ins and verdict.is_broken:
            return f"the hole of `{unit}` is not accepted"
        if unit not in changed | of_stand_ins and (verdict.is_broken or verdict.unread):
            return f"`{unit}` fails, but no edit changes it"
    return ""


def crates_with_edits(crates):
    """The crates that have wrong bodies, each with its functions and edits."""
    for crate in crates:
        functions = functions_of(crate)
        edits = edits_of(crate, functions, ["wrong-bodies"])
        if edits:
            yield crate, functions, edits


def try_crate(crate, functions, edits, is_kept=False, is_proved=False, limit=None):
    """Tries a crate's edits with a folder of kept work."""
    with tempfile.TemporaryDirectory(prefix="wrong-bodies-", ignore_cleanup_errors=True) as folder:
        if is_kept:
            checked, folder = (os.path.join(crate.folder, "out", it) for it in ("incremental", "edits"))
            if os.path.isdir(checked) and not os.path.isdir(folder):
                shutil.copytree(checked, folder)
            os.makedirs(folder, exist_ok=True)
        return Crate(crate, functions, edits, folder, is_proved=is_proved, limit=limit).try_all()


def try_crates(crates, is_kept=False):
    """Tries the wrong bodies of these crates in parallel. Returns whether all are refused."""
    tasks, chosen = {}, []
    for crate, functions, edits in crates_with_edits(crates):
        chosen.append(crate)
        call = lambda given, jobs, it=(crate, functions, edits): try_crate(*it, is_kept)
        tasks[crate.name, "edits"] = ([], work_of(crate, edits), rt.need(crate), call)
    if not built_libraries(chosen):
        say("a library was not built")
        return False
    return are_refused([it for results in rt.in_lanes(tasks).values() for it in results])


def work_of(crate, edits):
    """An estimate of the cost of trying a crate's edits."""
    return len(edits) * crate.count(rb"\n")


def are_refused(found):
    """Prints which edits were not refused, and the counts. Returns whether all tried edits are refused."""
    tried = []
    for it in found:
        if it.is_tried:
            tried.append(it)
            if not it.is_refused or it.says_little:
                say(f"{'says little' if it.is_refused else 'NOT REFUSED'}: {it.edit.path}: {it.text}")
    not_tried = len(found) - len(tried)
    if not_tried:
        say(f"{not_tried} not tried")
    refused = sum(it.is_refused for it in tried)
    say(f"{refused} refused, {len(tried) - refused} not")
    return refused == len(tried)
