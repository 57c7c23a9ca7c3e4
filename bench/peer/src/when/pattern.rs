//! Patterns of clauses. Their syntax is checked when they are read. They are compiled when they are first
//! searched, unless they could be too large: that has to be known at once. Which patterns of hundreds of
//! kilobytes are too large depends on the version of `regex`; here keyrun may answer otherwise.

use std::cell::OnceCell;
use std::rc::Rc;

use regex::{Regex, RegexBuilder};
use regex_syntax::hir::{Class, Hir, HirKind, RepetitionKind, RepetitionRange};
use regex_syntax::ParserBuilder;

use super::tokens::Flags;

pub struct Pattern {
    text: Rc<str>,
    flags: Flags,
    compiled: OnceCell<Regex>,
}

pub enum Unread {
    Syntax,
    TooLarge,
}

/// A pattern of at most so many instructions is far from the 10 MB that `regex` allows.
const SMALL: usize = 50_000;

impl Pattern {
    pub fn read(text: Rc<str>, flags: Flags) -> Result<Pattern, Unread> {
        let pattern = Pattern { text, flags, compiled: OnceCell::new() };
        if pattern.text.len() > SMALL || most_instructions(&pattern.parse()?) > SMALL {
            pattern.compile()?;
        }
        Ok(pattern)
    }

    fn parse(&self) -> Result<Hir, Unread> {
        ParserBuilder::new()
            .case_insensitive(self.flags.ignores_case)
            .multi_line(self.flags.is_multi_line)
            .dot_matches_new_line(self.flags.dot_is_any)
            .build()
            .parse(&self.text)
            .map_err(|_| Unread::Syntax)
    }

    fn compile(&self) -> Result<&Regex, Unread> {
        if let Some(compiled) = self.compiled.get() {
            return Ok(compiled);
        }
        let compiled = RegexBuilder::new(&self.text)
            .case_insensitive(self.flags.ignores_case)
            .multi_line(self.flags.is_multi_line)
            .dot_matches_new_line(self.flags.dot_is_any)
            .build()
            .map_err(|fault| match fault {
                regex::Error::Syntax(_) => Unread::Syntax,
                _ => Unread::TooLarge,
            })?;
        Ok(self.compiled.get_or_init(|| compiled))
    }

    pub fn is_in(&self, text: &str) -> bool {
        self.compile().map_or(false, |it| it.is_match(text))
    }
}

/// More instructions than a pattern is compiled to.
fn most_instructions(hir: &Hir) -> usize {
    match hir.kind() {
        HirKind::Empty | HirKind::Anchor(_) | HirKind::WordBoundary(_) => 2,
        HirKind::Literal(_) => 4,
        HirKind::Class(Class::Unicode(class)) => 16 * class.ranges().len() + 2,
        HirKind::Class(Class::Bytes(class)) => class.ranges().len() + 2,
        HirKind::Group(group) => most_instructions(&group.hir) + 2,
        HirKind::Concat(list) | HirKind::Alternation(list) => {
            list.iter().fold(2, |sum, it| sum.saturating_add(most_instructions(it) + 2))
        }
        HirKind::Repetition(repetition) => {
            let times = match repetition.kind {
                RepetitionKind::ZeroOrOne | RepetitionKind::ZeroOrMore | RepetitionKind::OneOrMore => 1,
                RepetitionKind::Range(RepetitionRange::Exactly(times)) => times,
                RepetitionKind::Range(RepetitionRange::AtLeast(times)) => times.saturating_add(1),
                RepetitionKind::Range(RepetitionRange::Bounded(_, times)) => times,
            };
            (most_instructions(&repetition.hir) + 2).saturating_mul(times.max(1) as usize)
        }
    }
}
