//! When clauses: each is read once, shared by all rules that have it, and evaluated as a flat list of atoms.

mod flat;
mod parse;
mod pattern;
mod tokens;
mod tree;

use rustc_hash::FxHashMap;

use crate::context::Scopes;
use crate::fault::{Fault, OutOfMemory};
use crate::names::Names;
use flat::{Flat, Place};
use tree::Tree;

/// A clause in the table. Clauses with the same tree have the same number.
#[derive(Clone, Copy, PartialEq, Eq, Hash)]
pub struct ClauseId(u32);

struct Clause {
    start: Place,
    has_unread_pattern: bool,
}

/// All clauses that were read.
#[derive(Default)]
pub struct Clauses {
    flat: Flat,
    clauses: Vec<Clause>,
    by_tree: FxHashMap<Tree, ClauseId>,
    by_text: FxHashMap<Box<str>, Result<ClauseId, Fault>>,
    /// Whether a pattern was too large to compile.
    is_out_of_memory: bool,
}

impl Clauses {
    pub fn read(&mut self, text: &str, keys: &mut Names) -> Result<ClauseId, Fault> {
        if let Some(&known) = self.by_text.get(text) {
            return known;
        }
        let found = parse::parse(text, keys).map(|tree| self.add(tree));
        self.by_text.insert(text.into(), found);
        found
    }

    /// The clause that never holds.
    pub fn never(&mut self) -> ClauseId {
        self.add(Tree::False)
    }

    fn add(&mut self, tree: Tree) -> ClauseId {
        if let Some(&known) = self.by_tree.get(&tree) {
            return known;
        }
        let mut patterns = flat::Patterns::default();
        let start = self.flat.add(&tree, &mut patterns);
        self.is_out_of_memory |= patterns.is_one_too_large;
        let added = ClauseId(self.clauses.len() as u32);
        self.clauses.push(Clause { start, has_unread_pattern: patterns.is_one_unread });
        self.by_tree.insert(tree, added);
        added
    }

    pub fn has_unread_pattern(&self, clause: ClauseId) -> bool {
        self.clauses[clause.0 as usize].has_unread_pattern
    }

    pub fn holds(&self, clause: ClauseId, scopes: &Scopes) -> bool {
        self.flat.holds(self.clauses[clause.0 as usize].start, scopes)
    }

    /// Whether memory was enough for all patterns so far.
    pub fn check_memory(&self) -> Result<(), OutOfMemory> {
        if self.is_out_of_memory {
            Err(OutOfMemory)
        } else {
            Ok(())
        }
    }
}
