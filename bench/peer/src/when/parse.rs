//! The grammar of clauses: one pass over the tokens makes the tree and finds the leftmost fault.

use std::mem;

use super::tokens::{tokens, Order, Token};
use super::tree::Tree;
use crate::fault::Fault;
use crate::names::Names;

/// The most `(` and `!` that may enclose a part of a clause.
const ENCLOSING: usize = 64;

pub fn parse(text: &str, keys: &mut Names) -> Result<Tree, Fault> {
    let tokens = tokens(text)?;
    let mut parser = Parser { groups: vec![Group::default()], enclosing: 0, keys };
    let mut state = State::Start;
    for token in tokens {
        state = parser.next(state, token)?;
    }
    parser.finish(state)
}

/// What was read last.
enum State {
    Start,
    Key(u32),
    /// A key and `==`, or `!=` if the flag is not set.
    Equality(u32, bool),
    Comparison(u32, Order),
    Matches(u32),
    In(u32),
    Not(u32),
    NotIn(u32),
    End,
}

/// A part of a clause between parentheses, or the whole.
#[derive(Default)]
struct Group {
    /// The `!` before the operand that is read next.
    nots: usize,
    ands: Vec<Tree>,
    ors: Vec<Tree>,
}

impl Group {
    fn close_and(&mut self) {
        let ands = mem::take(&mut self.ands);
        self.ors.push(alone_or(ands, Tree::And));
    }

    fn close(mut self) -> Tree {
        self.close_and();
        alone_or(self.ors, Tree::Or)
    }
}

fn alone_or(mut list: Vec<Tree>, join: fn(Vec<Tree>) -> Tree) -> Tree {
    match list.pop() {
        Some(alone) if list.is_empty() => alone,
        Some(last) => {
            list.push(last);
            join(list)
        }
        None => join(list),
    }
}

struct Parser<'k> {
    groups: Vec<Group>,
    enclosing: usize,
    keys: &'k mut Names,
}

impl Parser<'_> {
    fn next(&mut self, state: State, token: Token) -> Result<State, Fault> {
        match (state, token) {
            (State::Start, token) => self.start(token),
            (State::Key(key), token) => self.after_key(key, token),
            (State::Equality(key, is_equal), Token::Word(word)) => {
                Ok(self.operand(equality(key, is_equal, word, false)))
            }
            (State::Equality(key, is_equal), Token::Quoted(text)) => {
                Ok(self.operand(equality(key, is_equal, text, true)))
            }
            (State::Comparison(key, order), Token::Word(word)) => {
                let number = whole_number(word).ok_or(Fault::BadNumber)?;
                Ok(self.operand(Tree::Compare(key, order, number)))
            }
            (State::Comparison(..), Token::Quoted(_)) => Err(Fault::BadNumber),
            (State::Matches(key), Token::Pattern(text, flags)) => {
                Ok(self.operand(Tree::Matches(key, text.as_ref().into(), flags)))
            }
            (State::Not(key), Token::Word("in")) => Ok(State::NotIn(key)),
            (State::In(key), Token::Word(word)) => {
                let list = self.key(word)?;
                Ok(self.operand(Tree::Member(key, list)))
            }
            (State::NotIn(key), Token::Word(word)) => {
                let list = self.key(word)?;
                Ok(self.operand(Tree::Member(key, list).negated()))
            }
            (State::End, token) => self.after_operand(token),
            _ => Err(Fault::Unexpected),
        }
    }

    fn start(&mut self, token: Token) -> Result<State, Fault> {
        match token {
            Token::Open | Token::Not if self.enclosing == ENCLOSING => Err(Fault::TooDeep),
            Token::Open => {
                self.enclosing += 1;
                self.groups.push(Group::default());
                Ok(State::Start)
            }
            Token::Not => {
                self.enclosing += 1;
                self.group().nots += 1;
                Ok(State::Start)
            }
            Token::Word(word @ ("true" | "false")) => {
                self.leave_nots();
                Ok(self.operand(if word == "true" { Tree::True } else { Tree::False }))
            }
            Token::Word(word) => {
                let key = self.key(word)?;
                self.leave_nots();
                Ok(State::Key(key))
            }
            _ => Err(Fault::Unexpected),
        }
    }

    fn after_key(&mut self, key: u32, token: Token) -> Result<State, Fault> {
        match token {
            Token::Equal => Ok(State::Equality(key, true)),
            Token::Unequal => Ok(State::Equality(key, false)),
            Token::Compare(order) => Ok(State::Comparison(key, order)),
            Token::Matches => Ok(State::Matches(key)),
            Token::Word("in") => Ok(State::In(key)),
            Token::Word("not") => Ok(State::Not(key)),
            token => {
                self.add(Tree::Key(key));
                self.after_operand(token)
            }
        }
    }

    fn after_operand(&mut self, token: Token) -> Result<State, Fault> {
        match token {
            Token::And => Ok(State::Start),
            Token::Or => {
                self.group().close_and();
                Ok(State::Start)
            }
            Token::Close if self.groups.len() > 1 => {
                let group = self.groups.pop().unwrap_or_default();
                self.enclosing -= 1;
                self.leave_nots();
                Ok(self.operand(group.close()))
            }
            _ => Err(Fault::Unexpected),
        }
    }

    fn finish(mut self, state: State) -> Result<Tree, Fault> {
        match state {
            State::Key(key) => self.add(Tree::Key(key)),
            State::End => {}
            _ => return Err(Fault::Unexpected),
        }
        match self.groups.pop() {
            Some(whole) if self.groups.is_empty() => Ok(whole.close()),
            _ => Err(Fault::Unexpected),
        }
    }

    fn group(&mut self) -> &mut Group {
        self.groups.last_mut().expect("the whole clause is a group")
    }

    fn key(&mut self, word: &str) -> Result<u32, Fault> {
        match word {
            "true" | "false" | "in" | "not" => Err(Fault::Unexpected),
            _ => Ok(self.keys.add(word)),
        }
    }

    /// From here on the `!` before an operand don't count as enclosing.
    fn leave_nots(&mut self) {
        self.enclosing -= self.group().nots;
    }

    fn operand(&mut self, tree: Tree) -> State {
        self.add(tree);
        State::End
    }

    fn add(&mut self, mut tree: Tree) {
        let group = self.group();
        for _ in 0..mem::take(&mut group.nots) {
            tree = tree.negated();
        }
        group.ands.push(tree);
    }
}

fn equality(key: u32, is_equal: bool, text: &str, is_quoted: bool) -> Tree {
    let (tree, is_plain) = match text {
        "true" if !is_quoted => (Tree::Key(key), is_equal),
        "false" if !is_quoted => (Tree::Key(key), !is_equal),
        _ => (Tree::Equals(key, text.into()), is_equal),
    };
    if is_plain {
        tree
    } else {
        tree.negated()
    }
}

/// The number that a text spells: digits, perhaps after a `-`, within 64 signed bits.
pub fn whole_number(text: &str) -> Option<i64> {
    if text.starts_with('+') {
        return None;
    }
    text.parse().ok()
}
