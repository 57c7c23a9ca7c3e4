//! Clauses as lists of atoms, each with the places to go on at if it holds and if it doesn't.

use std::rc::Rc;

use super::parse::whole_number;
use super::pattern::{Pattern, Unread};
use super::tokens::Order;
use super::tree::Tree;
use crate::context::{ContextValue, Scopes};

/// The place of an atom, or of one of the two ends.
pub type Place = u32;

const HOLDS: Place = u32::MAX;
const FAILS: Place = u32::MAX - 1;

struct Atom {
    key: u32,
    if_holds: Place,
    if_fails: Place,
    test: Test,
}

enum Test {
    Holds,
    /// A text, and the number that it is the decimal spelling of.
    Equals(Rc<str>, Option<i64>),
    Compare(Order, i64),
    Matches(Box<Pattern>),
    In(u32),
}

/// What is said of the patterns of a clause.
#[derive(Default)]
pub struct Patterns {
    pub is_one_unread: bool,
    pub is_one_too_large: bool,
}

/// The atoms of all clauses.
#[derive(Default)]
pub struct Flat(Vec<Atom>);

impl Flat {
    /// Adds a clause, and gives the place where it begins.
    pub fn add(&mut self, tree: &Tree, patterns: &mut Patterns) -> Place {
        self.lay_out(tree, HOLDS, FAILS, patterns)
    }

    /// Adds a part of a clause. It is made from its end, so that each place to go on at is known.
    fn lay_out(&mut self, tree: &Tree, yes: Place, no: Place, patterns: &mut Patterns) -> Place {
        let (key, test) = match tree {
            Tree::True => return yes,
            Tree::False => return no,
            Tree::Not(negated) => return self.lay_out(negated, no, yes, patterns),
            Tree::And(list) => {
                return list.iter().rev().fold(yes, |next, it| self.lay_out(it, next, no, patterns));
            }
            Tree::Or(list) => {
                return list.iter().rev().fold(no, |next, it| self.lay_out(it, yes, next, patterns));
            }
            Tree::Key(key) => (*key, Test::Holds),
            Tree::Equals(key, text) => (*key, Test::Equals(text.clone(), spelled_number(text))),
            Tree::Compare(key, order, number) => (*key, Test::Compare(*order, *number)),
            Tree::Member(key, list) => (*key, Test::In(*list)),
            Tree::Matches(key, text, flags) => match Pattern::read(text.clone(), *flags) {
                Ok(pattern) => (*key, Test::Matches(Box::new(pattern))),
                Err(unread) => {
                    match unread {
                        Unread::Syntax => patterns.is_one_unread = true,
                        Unread::TooLarge => patterns.is_one_too_large = true,
                    }
                    return no;
                }
            },
        };
        self.0.push(Atom { key, if_holds: yes, if_fails: no, test });
        self.0.len() as Place - 1
    }

    pub fn holds(&self, start: Place, scopes: &Scopes) -> bool {
        let mut at = start;
        while let Some(atom) = self.0.get(at as usize) {
            at = if atom.holds(scopes) { atom.if_holds } else { atom.if_fails };
        }
        at == HOLDS
    }
}

impl Atom {
    #[inline]
    fn holds(&self, scopes: &Scopes) -> bool {
        let Some(value) = scopes.get(self.key) else { return false };
        match &self.test {
            Test::Holds => value.holds(),
            Test::Equals(wanted, number) => match value {
                ContextValue::Text(text) => **text == **wanted,
                ContextValue::Number(value) => *number == Some(*value),
                _ => false,
            },
            Test::Compare(order, number) => numeric(value).map_or(false, |it| order.holds(it, *number)),
            Test::Matches(pattern) => match value {
                ContextValue::Text(text) => pattern.is_in(text),
                ContextValue::Number(number) => pattern.is_in(itoa::Buffer::new().format(*number)),
                ContextValue::Truth(truth) => pattern.is_in(if *truth { "true" } else { "false" }),
                ContextValue::Members(_) => false,
            },
            Test::In(list) => match (value, scopes.get(*list)) {
                (ContextValue::Text(text), Some(ContextValue::Members(members))) => members.contains(text),
                _ => false,
            },
        }
    }
}

impl Order {
    fn holds(self, left: i64, right: i64) -> bool {
        match self {
            Order::Less => left < right,
            Order::LessOrEqual => left <= right,
            Order::Greater => left > right,
            Order::GreaterOrEqual => left >= right,
        }
    }
}

/// A number, or one that a text spells.
fn numeric(value: &ContextValue) -> Option<i64> {
    match value {
        ContextValue::Number(number) => Some(*number),
        ContextValue::Text(text) => whole_number(text),
        _ => None,
    }
}

/// The number whose decimal spelling is this text.
fn spelled_number(text: &str) -> Option<i64> {
    whole_number(text).filter(|it| itoa::Buffer::new().format(*it) == text)
}
