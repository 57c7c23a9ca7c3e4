//! The rules in force, by their first keystroke, and the search for the rule that a press takes.

use std::cell::OnceCell;

use rustc_hash::{FxHashMap, FxHashSet};

use crate::context::Scopes;
use crate::keys::{Chord, Keystroke};
use crate::rules::{Removal, Rule, RuleList};
use crate::when::{ClauseId, Clauses};

/// The enablement of each command. Commands past the end have none.
#[derive(Default)]
pub struct Enablements(Vec<Option<ClauseId>>);

impl Enablements {
    pub fn set(&mut self, command: u32, clause: Option<ClauseId>) {
        let at = command as usize;
        if at >= self.0.len() {
            self.0.resize(at + 1, None);
        }
        self.0[at] = clause;
    }

    pub fn of(&self, command: u32) -> Option<ClauseId> {
        self.0.get(command as usize).copied().flatten()
    }
}

/// Removals by command, chord and clause: a removal without a chord or a clause stands for all of them.
#[derive(Default)]
struct Removals {
    all: FxHashSet<(u32, Option<Chord>, Option<ClauseId>)>,
    commands: FxHashSet<u32>,
}

impl Removals {
    fn add(&mut self, removal: &Removal) {
        self.all.insert((removal.command, removal.chord, removal.when));
        self.commands.insert(removal.command);
    }

    fn take(&self, rule: &Rule) -> bool {
        let has = |chord, when| self.all.contains(&(rule.command, chord, when));
        self.commands.contains(&rule.command)
            && (has(None, None)
                || has(Some(rule.chord), None)
                || rule.when.is_some() && (has(None, rule.when) || has(Some(rule.chord), rule.when)))
    }
}

/// The rules in force.
pub struct Resolver {
    /// Sorted by their first keystroke, then in the order of the search from its end.
    rules: Vec<Rule>,
    /// For each keystroke, where its rules begin.
    starts: Vec<u32>,
    /// The rules by their first two keystrokes, made when they are first asked for.
    by_two: OnceCell<FxHashMap<u32, Vec<u32>>>,
}

/// What the rules in force say of the keystrokes that are pressed.
pub enum Resolved<'r> {
    Start(&'r Rule),
    More,
    Nothing,
}

impl Resolver {
    /// The default rules, those of enabled extensions in load order, and the user's. All but the user's may be
    /// removed by each of these lists.
    pub fn new(defaults: &RuleList, extensions: &[&RuleList], user: &RuleList) -> Resolver {
        let mut removals = Removals::default();
        let removable = || std::iter::once(defaults).chain(extensions.iter().copied());
        for list in removable().chain([user]) {
            list.removals.iter().for_each(|it| removals.add(it));
        }
        let mut rules: Vec<&Rule> = Vec::new();
        for list in removable() {
            rules.extend(list.rules.iter().filter(|it| !removals.take(it)));
        }
        rules.extend(&user.rules);
        let (order, starts) = by_first(&rules);
        let rules = order.into_iter().map(|it| rules[it as usize].clone()).collect();
        Resolver { rules, starts, by_two: OnceCell::new() }
    }

    /// Searches from the bottom for the first rule that begins with these keystrokes, and holds.
    pub fn resolve(
        &self,
        pressed: Chord,
        clauses: &Clauses,
        enablements: &Enablements,
        scopes: &Scopes,
    ) -> Resolved<'_> {
        let holds = |clause: Option<ClauseId>| clause.map_or(true, |it| clauses.holds(it, scopes));
        let applies = |rule: &Rule| holds(rule.when) && holds(enablements.of(rule.command));
        let length = pressed.len();
        let found = if length == 1 {
            let first = pressed.first();
            let group = &self.rules[self.starts[first] as usize..self.starts[first + 1] as usize];
            group.iter().rev().find(|it| applies(it))
        } else {
            let places = self.by_two().get(&pressed.first_two());
            let group = places.map_or(&[][..], |it| it);
            let begins = |rule: &Rule| length == 2 || rule.chord.starts_with(pressed);
            group.iter().rev().map(|it| &self.rules[*it as usize]).find(|it| begins(it) && applies(it))
        };
        match found {
            Some(rule) if rule.chord.len() == length => Resolved::Start(rule),
            Some(_) => Resolved::More,
            None => Resolved::Nothing,
        }
    }

    fn by_two(&self) -> &FxHashMap<u32, Vec<u32>> {
        self.by_two.get_or_init(|| {
            let mut by_two: FxHashMap<u32, Vec<u32>> = FxHashMap::default();
            for (at, rule) in self.rules.iter().enumerate() {
                if rule.chord.len() > 1 {
                    by_two.entry(rule.chord.first_two()).or_default().push(at as u32);
                }
            }
            by_two
        })
    }
}

/// The places of rules sorted by their first keystroke, and for each keystroke where its rules begin.
fn by_first(rules: &[&Rule]) -> (Vec<u32>, Vec<u32>) {
    let mut starts = vec![0; Keystroke::COUNT + 1];
    for rule in rules {
        starts[rule.chord.first() + 1] += 1;
    }
    for at in 1..starts.len() {
        starts[at] += starts[at - 1];
    }
    let (mut order, mut next) = (vec![0; rules.len()], starts.clone());
    for (place, rule) in (0..).zip(rules) {
        let at = &mut next[rule.chord.first()];
        order[*at as usize] = place;
        *at += 1;
    }
    (order, starts)
}
