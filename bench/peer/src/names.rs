//! Names as numbers: commands and context keys are told apart by the place of their text in a table.

use std::hash::BuildHasherDefault;

use indexmap::IndexSet;
use rustc_hash::FxHasher;

/// A table of texts.
#[derive(Default)]
pub struct Names(IndexSet<Box<str>, BuildHasherDefault<FxHasher>>);

impl Names {
    /// The number of a text, which is added if it is new.
    pub fn add(&mut self, text: &str) -> u32 {
        let at = match self.0.get_index_of(text) {
            Some(at) => at,
            None => self.0.insert_full(text.into()).0,
        };
        u32::try_from(at).expect("files and scripts have fewer than 2^32 names")
    }

    pub fn find(&self, text: &str) -> Option<u32> {
        self.0.get_index_of(text).and_then(|at| u32::try_from(at).ok())
    }

    pub fn text(&self, number: u32) -> &str {
        &self.0[number as usize]
    }
}
