//! The tree of a clause. Two clauses are the same if their trees are.

use std::rc::Rc;

use super::tokens::{Flags, Order};

#[derive(PartialEq, Eq, Hash)]
pub enum Tree {
    True,
    False,
    Key(u32),
    Equals(u32, Rc<str>),
    Compare(u32, Order, i64),
    Matches(u32, Rc<str>, Flags),
    Member(u32, u32),
    Not(Box<Tree>),
    And(Vec<Tree>),
    Or(Vec<Tree>),
}

impl Tree {
    pub fn negated(self) -> Tree {
        Tree::Not(Box::new(self))
    }
}
