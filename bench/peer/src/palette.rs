//! The command palette.

use rustc_hash::FxHashMap;

use crate::context::Scopes;
use crate::fold::fold_into;
use crate::manifest::Manifest;
use crate::names::Names;
use crate::when::{ClauseId, Clauses};

/// How many distinct choices are remembered.
const CHOICES: usize = 50;

/// A command that an enabled extension contributes.
pub struct Entry {
    pub command: u32,
    pub label: String,
    enablement: Option<ClauseId>,
    /// The clauses of the items that name it, if one does.
    items: Option<Vec<Option<ClauseId>>>,
    /// The folded label.
    folded: String,
}

/// A word of a folded label.
struct Word {
    entry: u32,
    start: u32,
    end: u32,
}

/// The commands of the enabled extensions, by label and identifier, with their words in alphabetical order.
pub struct Index {
    entries: Vec<Entry>,
    words: Vec<Word>,
    by_command: FxHashMap<u32, usize>,
}

impl Index {
    pub fn new<'m>(manifests: impl Iterator<Item = &'m Manifest> + Clone, commands: &Names) -> Index {
        let mut items: FxHashMap<u32, Vec<Option<ClauseId>>> = FxHashMap::default();
        for item in manifests.clone().flat_map(|it| &it.palette) {
            items.entry(item.command).or_default().push(item.when);
        }
        let mut by_command = FxHashMap::default();
        let mut entries = Vec::new();
        for contribution in manifests.flat_map(|it| &it.commands) {
            let command = contribution.command;
            if by_command.insert(command, 0).is_some() {
                continue;
            }
            let mut folded = String::with_capacity(contribution.label.len());
            fold_into(&mut folded, &contribution.label);
            entries.push(Entry {
                command,
                label: contribution.label.clone(),
                enablement: contribution.enablement,
                items: items.get(&command).cloned(),
                folded,
            });
        }
        entries.sort_unstable_by(|a, b| {
            a.label.cmp(&b.label).then_with(|| commands.text(a.command).cmp(commands.text(b.command)))
        });
        for (at, entry) in entries.iter().enumerate() {
            by_command.insert(entry.command, at);
        }
        let words = words_of(&entries);
        Index { entries, words, by_command }
    }

    /// The entries with a word that begins with this one, in order.
    fn with_word(&self, wanted: &str) -> &[Word] {
        let text = |it: &Word| self.text_of(it);
        let start = self.words.partition_point(|it| text(it) < wanted);
        let length = self.words[start..].partition_point(|it| text(it).starts_with(wanted));
        &self.words[start..start + length]
    }

    fn text_of(&self, word: &Word) -> &str {
        &self.entries[word.entry as usize].folded[word.start as usize..word.end as usize]
    }

    /// The places of the entries that a query finds, in order.
    fn found(&self, query: &str) -> Vec<usize> {
        let mut folded = String::with_capacity(query.len());
        fold_into(&mut folded, query);
        let wanted: Vec<&str> = folded.split_whitespace().collect();
        let Some(rarest) = wanted.iter().map(|it| self.with_word(it)).min_by_key(|it| it.len()) else {
            return (0..self.entries.len()).collect();
        };
        let mut found: Vec<usize> = rarest.iter().map(|it| it.entry as usize).collect();
        found.sort_unstable();
        found.dedup();
        found.retain(|&at| {
            let words = || self.entries[at].folded.split_whitespace();
            wanted.iter().all(|wanted| words().any(|it| it.starts_with(wanted)))
        });
        found
    }
}

fn words_of(entries: &[Entry]) -> Vec<Word> {
    let mut words = Vec::new();
    for (at, entry) in entries.iter().enumerate() {
        let mut start = 0;
        for piece in entry.folded.split(char::is_whitespace) {
            if !piece.is_empty() {
                words.push(Word { entry: at as u32, start: start as u32, end: (start + piece.len()) as u32 });
            }
            let blank = entry.folded[start + piece.len()..].chars().next().map_or(0, char::len_utf8);
            start += piece.len() + blank;
        }
    }
    let text = |it: &Word| &entries[it.entry as usize].folded[it.start as usize..it.end as usize];
    words.sort_unstable_by(|a, b| text(a).cmp(text(b)));
    words
}

/// The last palette and the choices made.
#[derive(Default)]
pub struct Palette {
    /// The commands that were chosen, the last choice first.
    choices: Vec<u32>,
    /// The commands of the last palette, until one is chosen.
    listed: Option<Vec<u32>>,
}

impl Palette {
    /// Lists the commands that a query finds, and gives their entries.
    pub fn list<'i>(
        &mut self,
        query: &str,
        index: &'i Index,
        clauses: &Clauses,
        scopes: &Scopes,
    ) -> Vec<&'i Entry> {
        let holds = |clause: Option<ClauseId>| clause.map_or(true, |it| clauses.holds(it, scopes));
        let is_shown = |entry: &Entry| {
            let is_visible = |items: &Vec<Option<ClauseId>>| items.iter().any(|it| holds(*it));
            holds(entry.enablement) && entry.items.as_ref().map_or(true, is_visible)
        };
        let mut found = index.found(query);
        found.retain(|&at| is_shown(&index.entries[at]));
        let chosen: Vec<usize> = self
            .choices
            .iter()
            .filter_map(|it| index.by_command.get(it).copied())
            .filter(|at| found.binary_search(at).is_ok())
            .collect();
        let others = found.into_iter().filter(|at| !chosen.contains(at));
        let listed: Vec<&Entry> = chosen.iter().copied().chain(others).map(|at| &index.entries[at]).collect();
        self.listed = Some(listed.iter().map(|it| it.command).collect());
        listed
    }

    /// Chooses an entry by its number, from 1. `None` if the list has none, or isn't open.
    pub fn choose(&mut self, number: u32) -> Option<u32> {
        let at = number.checked_sub(1)? as usize;
        let command = *self.listed.as_ref()?.get(at)?;
        self.listed = None;
        self.choices.retain(|it| *it != command);
        self.choices.insert(0, command);
        self.choices.truncate(CHOICES);
        Some(command)
    }
}
