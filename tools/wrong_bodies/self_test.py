"""Tests of tools/wrong-bodies: how it reads the output of a check, and judges the edits of a small crate."""

import collections
import contextlib
import io
import os
import tempfile
import types
import unittest

from shared.checking import crates_of
from shared.source import functions_of
from wrong_bodies.edits import edits_of
from wrong_bodies.kept import TRYING, WHOLE, Kept, files_of
from wrong_bodies.said import Said
from wrong_bodies.stand_ins import stand_ins_of
from wrong_bodies.trying import Crate, Limit, Tried, are_refused, trouble_in
from wrong_bodies.turns import PROVED, changed_crates, try_as_proved, try_or_name_the_fault, turns_of
from wrong_bodies.twins import Proofs, Twin

SOURCE = """\
//! A crate on which wrong bodies are tried.
#![tactic(auto)]

ghost use Rattle.std.specs.Prelude.{◌≡◌, ◌≤◌, ◌<◌, ◌+◌};
ghost use Rattle.std.specs.Option.{option_map};

const LIMIT: u8 = 3;

fn next(number: u8) -> u8
    requires { number < 200 }
    ensures { result ≡ number + 1 }
{
    number + 1
}

pub fn second_next(number: u8) -> u8
    requires { number < 100 }
    ensures { result ≡ number + 2 }
{
    next(next(number))
}

pub fn limit() -> u8
    ensures { result ≡ 3 }
{
    LIMIT
}

pub fn same(given: u8) -> u8
    ensures { result ≡ given }
{
    given
}

#[derive(Drop)]
pub struct Given {
    pub number: u8,
}

pub struct Count {
    pub number: u8,
}

impl From<Given> for Count {
    ghost from_gives = { λ given made. made.number ≡ given.number };

    fn from(given: Given) -> Count {
        Count { number: given.number }
    }
}

#[derive(Clone, Copy)]
pub struct Held<T> {
    pub held: T,
}

impl Held<u8> {
    pub fn number(self) -> u8
        ensures { result ≡ self.held }
    {
        self.held
    }
}

pub fn counted(number: u8) -> Count
    ensures { result.number ≡ number }
{
    Count::from(Given { number })
}

pub fn replaced(nested: Option<Option<u8>>, number: u8) -> Option<Option<u8>>
    ensures { result ≡ option_map (option_map (λ _. number)) nested }
{
    nested.map(|inner| inner.map(|_| number))
}

pub fn climbed(height: u8) -> u8
    ensures { result ≡ height }
{
    let mut at: u8 = 0;
    while at < height {
        at += 1;
    }
    at
}
"""
# The files below proofs/, for the loop.
PROOFS = {
    "climbed/Invariants.antt": """\
use Rattle.std.proofs.Common.{◌≡◌, ◌≤◌, ◌-◌}
use Rattle.tiny.proofs.climbed.Given as goal

abbrev pub invariant-loop-at : goal.invariant-loop-at
invariant-loop-at l = (l.height ≡ l.fn.height) × (l.at ≤ l.height)

abbrev pub decreases-loop-at : goal.decreases-loop-at
decreases-loop-at l = l.height - l.at
"""
}
# What each edit replaces, and how it must be judged.
EDITS = {
    "callee_adds_two": ("    number + 1", "    number + 2", "in a batch"),
    "callee_adds_none": ("    number + 1", "    number", "in a batch"),
    "caller_by_other_words": ("next(next(number))", "next(number) + 1", "not refused"),
    "number_is_lost": ("    given", "    0", "in a batch"),
    "inner_closure_gives_none": ("inner.map(|_| number)", "inner.map(|_| 0)", "in a batch"),
    "constant_is_four": ("LIMIT: u8 = 3", "LIMIT: u8 = 4", "in a batch"),
    "instance_gives_none": ("        self.held", "        0", "in a batch"),
    "trait_counts_none": ("number: given.number", "number: 0", "in a batch"),
    "trait_counts_one": ("number: given.number", "number: 1", "in a batch"),
    "caller_counts_none": ("Given { number })", "Given { number: 0 })", "in a batch"),
    "climbs_by_other_words": ("        at += 1;", "        at = at + 1;", "not refused"),
    "climbs_no_step": ("    while at < height", "    while at > height", "in a batch"),
    "text_is_not_there": ("LIMIT: u9", "LIMIT: u8", "not refused"),
}
FUNCTIONS = {"callee": 8, "caller": 16, "other": 24, "one_of_ring": 32, "two_of_ring": 40}


def function(name, head):
    cycle = "ring" if name.endswith("ring") else ""
    made = types.SimpleNamespace(file="src/a.rt", unit=f"a::+{cycle}" if cycle else f"a::{name}")
    made.plain_name = lambda: f"a::{name}"
    made.spans = lambda line: head <= line < head + 8
    return made


def said(*lines):
    functions = [function(*it) for it in FUNCTIONS.items()]
    return Said("\n".join([*lines, "only=5 proved=4", ""]), types.SimpleNamespace(name="tiny"), functions)


def trouble(found, *units):
    return trouble_in(types.SimpleNamespace(stdout="\n".join(found.lines)), found, {*units})


class Reading(unittest.TestCase):
    def test_a_goal_in_the_line_is_the_functions_own(self):
        line = "expected answers in ./proofs/a/callee/Answers.antt; `search` did not prove `returns`, `holds`"
        found = said(f"fn tiny::a::callee: no proof: {line}")
        self.assertEqual(found.found["a::callee"].goals, ["returns", "holds"])
        self.assertFalse(found.found["a::callee"].waits or found.found["a::callee"].unread)
        self.assertEqual(trouble(found, "a::callee"), "")

    def test_a_caller_waits_for_what_it_calls(self):
        found = said(
            "./proofs/a/other/Answers.antt:3:5: error: `returns`: the two types differ",
            "fn tiny::a::caller: no proof: it calls `tiny::a::ring` and `tiny::other`, which are not proved",
            "fn tiny::a::other: not proved; it passes the block `tiny::a::Block`, which is not proved",
        )
        self.assertEqual((found.found["a::caller"].waits, found.found["a::caller"].goals), (True, []))
        self.assertEqual((found.found["a::other"].waits, found.found["a::other"].goals), (True, ["returns"]))

    def test_a_name_that_was_taken_away_is_no_goal(self):
        error = "./proofs/a/callee/Answers.antt:3:5: error: `returns`: record `R` has no field `other`"
        found = said(error, "fn tiny::a::callee: not proved")
        self.assertTrue(found.found["a::callee"].lacks_names)
        self.assertEqual(found.found["a::callee"].goals, [])

    def test_what_rests_on_a_refused_proof_is_no_goal(self):
        found = said("./proofs/a/callee/Answers.antt:3:5: error: `returns`: `lemma` was not admitted")
        self.assertEqual(found.found["a::callee"].goals, [])

    def test_a_lemma_that_fails_judges_nothing(self):
        error = "./proofs/Lemmas.antt:3:5: error: `lemma`: the two types differ"
        found = said(error, "fn tiny::a::callee: not proved")
        self.assertTrue(trouble(found, "a::callee"))

    def test_a_function_that_fails_and_no_edit_changes_judges_nothing(self):
        note = "note: src/a.rt:25:1: it is not proved that the index is in range (`index`)"
        found = said(note, "fn tiny::a::other: not proved")
        self.assertTrue(trouble(found, "a::callee"))
        self.assertEqual(trouble(found, "a::other"), "")

    def test_a_line_that_nobody_knows_judges_nothing(self):
        self.assertTrue(trouble(said("fn tiny::a::other: could not tell"), "a::callee"))
        self.assertTrue(said("fn tiny::a::callee: could not tell").found["a::callee"].unread)

    def test_closures_and_rings_are_one_with_their_functions(self):
        line = "no proof: `search` did not prove `returns`"
        found = said(f"fn tiny::a::fn::callee::all+FnMut::call_mut: {line}")
        self.assertEqual(found.found["a::callee"].goals, ["returns"])
        found = said(f"fn tiny::a::fn::callee::fn::all::any+FnOnce::call_once: {line}")
        self.assertEqual(found.found["a::callee"].goals, ["returns"])
        ring = "fn tiny::a::one_of_ring: not proved; it calls `tiny::a::two_of_ring`, which is not proved"
        found = said("./proofs/a/+ring/Answers.antt:3:5: error: `returns`: the two types differ", ring)
        self.assertEqual(found.found["a::+ring"].goals, ["returns"])
        line = "in `tiny::a::two_of_ring`, of this cycle of calls: it calls `tiny::it`, which is not proved"
        found = said(f"fn tiny::a::one_of_ring: no proof: {line}")
        self.assertTrue(found.found["a::+ring"].waits)
        self.assertEqual(trouble(found, "a::callee"), "")

    def test_a_closure_whose_caller_gives_what_it_asks_lacks_nothing(self):
        line = "proved where its callers give what it asks"
        failed = "fn tiny::a::callee: no proof: `search` did not prove `it`"
        verdict = said(f"fn tiny::a::fn::callee::all: {line}", failed).found["a::callee"]
        self.assertEqual((verdict.goals, verdict.unread, verdict.is_proved), (["it"], "", False))
        self.assertTrue(said(f"fn tiny::a::fn::callee::all: {line}").found["a::callee"].is_proved)


def write(path, text):
    os.makedirs(os.path.dirname(path), exist_ok=True)
    with open(path, "w", encoding="utf-8") as file:
        file.write(text)


def made_crate(top):
    """A repository of one crate, with its edits."""
    write(f"{top}/crates.txt", "tiny:\n")
    write(f"{top}/crates/tiny/src/lib.rt", SOURCE)
    for path, text in PROOFS.items():
        write(f"{top}/crates/tiny/proofs/{path}", text)
    for name, (old, new, _) in EDITS.items():
        lines = ["guards: a test", "file: src/lib.rt", f"old: {old.rstrip()}", f"new: {new.rstrip()}", ""]
        write(f"{top}/crates/tiny/wrong-bodies/{name}.edit", "\n".join(lines))
    return crates_of(top)[0]


class Following(unittest.TestCase):
    def test_a_crate_is_proved_by_this_run_or_by_an_earlier_one(self):
        said = {
            "rt: tiny proved": ["tiny"],
            "rt: tiny is kept: an earlier run on this machine proved the same files": ["tiny"],
            "rt: tiny NOT PROVED": [],
            "rt: tiny: its tests are proved": [],
        }
        for line, names in said.items():
            self.assertEqual(PROVED.findall(line), names)

    def test_a_crate_that_is_not_proved_has_no_edit_refused(self):
        with tempfile.TemporaryDirectory() as top:
            lines = ["rt: tiny NOT PROVED\n", "0 passed, 1 failed\n"]
            said = io.StringIO()
            with contextlib.redirect_stdout(said):
                self.assertFalse(try_as_proved([made_crate(top)], lines))
            self.assertTrue(said.getvalue().startswith("".join(lines)))
            self.assertTrue(said.getvalue().endswith(f"0 refused, {len(EDITS)} not\n"))


class Keeping(unittest.TestCase):
    def setUp(self):
        self.top, self.at = (self.enterContext(tempfile.TemporaryDirectory()) for _ in range(2))
        self.crate = made_crate(self.top)
        self.edits = edits_of(self.crate, functions_of(self.crate), ["wrong-bodies"])

    def kept(self):
        return Kept(self.crate, self.edits, self.at)

    def names(self):
        return {it.name for it in self.kept().refused()}

    def keep_all(self):
        self.kept().keep([Tried(it, True, "refused") for it in self.edits])

    def test_what_was_refused_is_kept_and_nothing_else(self):
        passed, little, refused, *_ = self.edits
        says_little = Tried(little, True, "refused alone", says_little=True)
        self.kept().keep([Tried(passed, False, "not refused"), says_little, Tried(refused, True, "refused")])
        self.assertEqual(self.kept().refused(), {refused: "refused"})

    def test_nothing_is_taken_of_a_crate_or_an_edit_that_changed(self):
        self.keep_all()
        self.assertEqual(self.names(), {it.name for it in self.edits})
        write(self.edits[0].file, "guards: another promise\n")
        self.assertEqual(self.names(), {it.name for it in self.edits[1:]})
        write(f"{self.top}/crates/tiny/src/lib.rt", SOURCE + "\n")
        self.assertEqual(self.names(), set())

    def test_nothing_is_kept_of_a_crate_that_changed_meanwhile(self):
        before = self.kept()
        write(f"{self.top}/crates/tiny/proofs/Lemmas.antt", "")
        before.keep([Tried(it, True, "refused") for it in self.edits])
        os.remove(f"{self.top}/crates/tiny/proofs/Lemmas.antt")
        self.assertEqual(self.names(), set())

    def test_results_depend_on_all_modules_that_judge_and_not_on_these_tests(self):
        judging, whole = ({os.path.basename(it) for it in files_of(start)} for start in (TRYING, WHOLE))
        modules = {"edits.py", "kept.py", "said.py", "stand_ins.py", "trying.py", "turns.py", "twins.py"}
        modules |= {"checking.py", "keeping.py", "kit.py", "source.py"}
        self.assertEqual(judging - {"__init__.py"}, modules)
        self.assertEqual(whole - judging, {"wrong-bodies", "self_test.py"})

    def test_what_is_kept_is_not_tried_and_counts(self):
        self.keep_all()
        said = io.StringIO()
        with contextlib.redirect_stdout(said):
            self.assertTrue(try_as_proved([self.crate], ["rt: tiny proved\n"], self.at))
        self.assertNotIn("batch", said.getvalue())
        self.assertTrue(said.getvalue().endswith(f"{len(EDITS)} refused, 0 not\n"))

    def test_what_is_kept_counts_for_nothing_where_the_crate_is_not_proved(self):
        self.keep_all()
        with contextlib.redirect_stdout(io.StringIO()):
            self.assertFalse(try_as_proved([self.crate], ["rt: tiny NOT PROVED\n"], self.at))


class Turns(unittest.TestCase):
    def setUp(self):
        below = {"low": [], "middle": ["low"], "high": ["low", "middle"], "aside": []}
        made = {name: types.SimpleNamespace(name=name) for name in below}
        for name, it in made.items():
            it.below = lambda name=name: [made[lower] for lower in below[name]]
        self.crates = [*made.values()]

    def test_what_changed_comes_first_then_what_is_above_it_then_others(self):
        turns = turns_of(self.crates, {"middle"}, "00000000")
        self.assertEqual((turns["middle"], turns["high"]), (0, 1))
        self.assertTrue(turns["low"] > 1 and turns["aside"] > 1)

    def test_each_crate_comes_first_at_some_commit(self):
        orders = [turns_of(self.crates, set(), f"{commit:08x}") for commit in range(4)]
        self.assertEqual({min(it, key=it.get) for it in orders}, {it.name for it in self.crates})
        self.assertEqual({*turns_of(self.crates, set(), "").values()}, {2, 3, 4, 5})

    def test_changes_are_those_since_the_main_line_or_the_parent(self):
        said = {"rev-parse HEAD": "c", "merge-base HEAD origin/main": "a"}
        said["rev-parse -q --verify HEAD~1"] = "b"
        said |= {f"diff --name-only {it} -- crates": f"crates/{it}/src/lib.rt\ncrates.txt" for it in "ab"}
        git = lambda *words: said.get(" ".join(words), "")
        self.assertEqual(changed_crates(git), {"a"})
        said["merge-base HEAD origin/main"] = "c"
        self.assertEqual(changed_crates(git), {"b"})
        said["rev-parse -q --verify HEAD~1"] = ""
        self.assertEqual(changed_crates(git), set())


class Stopping(unittest.TestCase):
    def test_no_check_begins_past_the_limit_and_those_that_run_may_end(self):
        now = [0]
        limit = Limit(100, clock=lambda: now[0], grace=20)
        self.assertEqual(limit.seconds_left(), 120)
        now[0] = 100
        self.assertRaises(Exception, limit.seconds_left)
        self.assertIsNone(Limit().seconds_left())

    def run_past(self, kept_edits):
        """The result and the output for a proved crate after the time limit. These edits are kept as
        refused."""
        with tempfile.TemporaryDirectory() as top, tempfile.TemporaryDirectory() as at:
            crate = made_crate(top)
            edits = edits_of(crate, functions_of(crate), ["wrong-bodies"])
            refused = [it for it in edits if it.name.removesuffix(".edit") in kept_edits]
            Kept(crate, edits, at).keep([Tried(it, True, "refused") for it in refused])
            said = io.StringIO()
            with contextlib.redirect_stdout(said):
                passes = try_as_proved([crate], ["rt: tiny proved\n"], at, Limit(0))
            return passes, said.getvalue()

    def test_what_is_not_tried_is_counted_and_does_not_fail(self):
        passes, said = self.run_past({"callee_adds_two", "text_is_not_there"})
        self.assertTrue(passes)
        self.assertIn(f"tiny: {len(EDITS) - 2} of {len(EDITS) - 2} edits not tried", said)
        self.assertTrue(said.endswith(f"\n{len(EDITS) - 2} not tried\n2 refused, 0 not\n"))

    def test_what_was_judged_and_not_refused_fails_past_the_limit_too(self):
        passes, said = self.run_past(set())
        self.assertFalse(passes)
        self.assertTrue(said.endswith(f"\n{len(EDITS) - 1} not tried\n0 refused, 1 not\n"))


Named = collections.namedtuple("Named", "path name")


class Faults(unittest.TestCase):
    def tried_with(self, *faults):
        """The result and the output for two edits if the calls meet these faults in turn, and how many faults
        are left."""
        answers = iter(faults)

        def refused():
            if fault := next(answers, None):
                raise fault
            return {it: "refused" for it in edits}

        edits = [Named(it, it) for it in ("one", "other")]
        crate, before = types.SimpleNamespace(name="tiny"), types.SimpleNamespace(refused=refused)
        said = io.StringIO()
        with contextlib.redirect_stdout(said):
            found = try_or_name_the_fault(crate, [], edits, before, Limit(), pause=0)
            passes = are_refused(found)
        return passes, said.getvalue(), len([*answers])

    def test_what_the_machine_refuses_once_is_tried_again(self):
        passes, said, _ = self.tried_with(OSError("no room"))
        self.assertTrue(passes)
        self.assertTrue(said.endswith("\n2 refused, 0 not\n"))

    def test_what_the_machine_refuses_twice_fails_by_its_name(self):
        passes, said, _ = self.tried_with(OSError("no room"), OSError("no room"))
        self.assertFalse(passes)
        self.assertIn("NOT REFUSED: one: OSError at refused, line ", said)
        self.assertTrue(said.endswith("\n0 refused, 2 not\n"))

    def test_a_fault_of_the_tool_fails_by_its_name_and_at_once(self):
        passes, said, left = self.tried_with(KeyError("text"), OSError("no room"))
        self.assertFalse(passes)
        self.assertIn("NOT REFUSED: one: KeyError at refused, line ", said)
        self.assertEqual(left, 1)


class Trying(unittest.TestCase):
    def test_each_edit_is_judged_by_itself(self):
        with tempfile.TemporaryDirectory() as top, tempfile.TemporaryDirectory() as kept:
            crate = made_crate(top)
            functions = functions_of(crate)
            lines = []
            trial = Crate(crate, functions, edits_of(crate, functions, ["wrong-bodies"]), kept, lines.append)
            for it in trial.try_all():
                with self.subTest(it.edit.name, lines="\n".join(lines)):
                    how = ("in a batch" if it.batch else "alone") if it.is_refused else "not refused"
                    self.assertEqual(how, EDITS[it.edit.name.removesuffix(".edit")][2])
            self.assertFalse([it for it in lines if "over stand-ins" in it and "not judged" in it])
            # Twins of one function are in the same batch. Two edits of a trait's function are in different
            # batches.
            batch_of = {it.edit.name.removesuffix(".edit"): it.batch for it in trial.results.values()}
            self.assertEqual(batch_of["callee_adds_two"], batch_of["callee_adds_none"])
            self.assertNotEqual(batch_of["trait_counts_none"], batch_of["trait_counts_one"])

    def test_a_copy_without_an_edit_has_no_failing_goal_over_stand_ins(self):
        with tempfile.TemporaryDirectory() as top, tempfile.TemporaryDirectory() as kept:
            crate = made_crate(top)
            functions = functions_of(crate)
            trial = Crate(crate, functions, [], kept)
            may_be_copied = [it for it in functions if trial.proofs.let_twins_of(it, functions)]
            copies = [Twin(it, f"{it.name}_wrong_0") for it in may_be_copied]
            stand_ins = stand_ins_of(functions, trial.proofs)
            texts = trial.texts_of(copies, [], stand_ins)
            ran, found = trial.checked(texts, [it.plain_name() for it in copies])
            said = Said(ran.stdout, crate, found)
            self.assertEqual(trouble_in(ran, said, set(), stand_ins), "", ran.stdout)
            self.assertEqual({it.unit for it in copies} - said.named, set())

    def test_a_function_has_no_twin_where_another_file_names_its_proof(self):
        with tempfile.TemporaryDirectory() as top:
            crate = made_crate(top)
            functions = functions_of(crate)
            climbed = next(it for it in functions if it.name == "climbed")
            self.assertTrue(Proofs(crate).let_twins_of(climbed, functions))
            write(f"{top}/crates/tiny/proofs/Lemmas.antt", "use Rattle.tiny.proofs.climbed.Goals as goal\n")
            self.assertFalse(Proofs(crate).let_twins_of(climbed, functions))


def main():
    loaded = unittest.defaultTestLoader
    tests = (Reading, Following, Keeping, Faults, Turns, Stopping, Trying)
    suite = unittest.TestSuite(loaded.loadTestsFromTestCase(it) for it in tests)
    return 0 if unittest.TextTestRunner(verbosity=1).run(suite).wasSuccessful() else 1
