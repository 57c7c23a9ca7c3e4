//! Nested scopes with context keys, and a flat table of what the focus sees.

use rustc_hash::{FxHashMap, FxHashSet};

use crate::fault::Fault;
use crate::json::Json;

/// The value of a context key.
pub enum ContextValue {
    Truth(bool),
    Number(i64),
    Text(Box<str>),
    /// The texts of a list, or the names of an object's members.
    Members(Box<FxHashSet<Box<str>>>),
}

impl ContextValue {
    pub fn of_json(json: &Json) -> Result<ContextValue, Fault> {
        Ok(match json {
            Json::Truth(truth) => ContextValue::Truth(*truth),
            Json::Number(number) => ContextValue::Number(*number),
            Json::Text(text) => ContextValue::Text(text.as_ref().into()),
            Json::List(_) => {
                let texts = json.as_texts().ok_or(Fault::WrongShape)?;
                ContextValue::Members(Box::new(texts.into_iter().map(Box::from).collect()))
            }
            Json::Object(object) => {
                let names = object.0.iter().map(|(name, _)| name.as_ref().into()).collect();
                ContextValue::Members(Box::new(names))
            }
            Json::Null | Json::Fraction => return Err(Fault::WrongShape),
        })
    }

    /// Whether it isn't `false`, 0 or the empty text.
    pub fn holds(&self) -> bool {
        match self {
            ContextValue::Truth(truth) => *truth,
            ContextValue::Number(number) => *number != 0,
            ContextValue::Text(text) => !text.is_empty(),
            ContextValue::Members(_) => true,
        }
    }
}

/// The most context keys that all scopes may hold.
const KEYS: usize = 10_000;

/// No slot in the table of what the focus sees.
const UNSEEN: u32 = u32::MAX;

struct Scope {
    parent: Option<usize>,
    depth: u32,
    /// The slot of each key.
    keys: FxHashMap<u32, u32>,
    /// Whether the focus is in this scope or in one inside it.
    is_around_focus: bool,
}

struct Slot {
    value: ContextValue,
    depth: u32,
}

/// The scopes of an editor. Context keys are numbers.
pub struct Scopes {
    scopes: Vec<Scope>,
    by_name: FxHashMap<Box<str>, usize>,
    focus: usize,
    slots: Vec<Slot>,
    free: Vec<u32>,
    /// The slot of the innermost value of each key, seen from the focus.
    seen: Vec<u32>,
    /// Whether the focus changed since the table was made.
    is_stale: bool,
}

/// A scope of a layout file. Its parent is the place of another scope.
pub struct LayoutScope {
    pub name: String,
    pub parent: Option<usize>,
    pub keys: Vec<(u32, ContextValue)>,
}

impl Scopes {
    /// Scopes with distinct names, of which each parent stands before its children. The focus is one of them.
    pub fn new(layout: Vec<LayoutScope>, focus: usize) -> Result<Scopes, Fault> {
        if layout.iter().map(|it| it.keys.len()).sum::<usize>() > KEYS {
            return Err(Fault::TooManyKeys);
        }
        let mut made = Scopes {
            scopes: Vec::with_capacity(layout.len()),
            by_name: FxHashMap::default(),
            focus,
            slots: Vec::new(),
            free: Vec::new(),
            seen: Vec::new(),
            is_stale: true,
        };
        for (at, scope) in layout.into_iter().enumerate() {
            let depth = scope.parent.map_or(0, |it| made.scopes[it].depth + 1);
            made.by_name.insert(scope.name.into(), at);
            let keys = FxHashMap::default();
            made.scopes.push(Scope { parent: scope.parent, depth, keys, is_around_focus: false });
            for (key, value) in scope.keys {
                let slot = made.slot_for(value, depth);
                made.scopes[at].keys.insert(key, slot);
            }
        }
        Ok(made)
    }

    pub fn named(&self, name: &str) -> Result<usize, Fault> {
        self.by_name.get(name).copied().ok_or(Fault::UnknownScope)
    }

    pub fn focus(&mut self, scope: usize) {
        self.focus = scope;
        self.is_stale = true;
    }

    /// Makes the table of what the focus sees, if the focus changed.
    pub fn refresh(&mut self) {
        if !self.is_stale {
            return;
        }
        self.is_stale = false;
        self.seen.fill(UNSEEN);
        self.scopes.iter_mut().for_each(|it| it.is_around_focus = false);
        let mut next = Some(self.focus);
        while let Some(scope) = next {
            self.scopes[scope].is_around_focus = true;
            for (&key, &slot) in &self.scopes[scope].keys {
                let seen = seen_of(&mut self.seen, key);
                if *seen == UNSEEN {
                    *seen = slot;
                }
            }
            next = self.scopes[scope].parent;
        }
    }

    /// The value that the focus sees. The table of what it sees is up to date.
    pub fn get(&self, key: u32) -> Option<&ContextValue> {
        let slot = *self.seen.get(key as usize)?;
        self.slots.get(slot as usize).map(|it| &it.value)
    }

    pub fn set(&mut self, scope: usize, key: u32, value: ContextValue) -> Result<(), Fault> {
        if let Some(&slot) = self.scopes[scope].keys.get(&key) {
            self.slots[slot as usize].value = value;
            return Ok(());
        }
        if self.slots.len() - self.free.len() >= KEYS {
            return Err(Fault::TooManyKeys);
        }
        let depth = self.scopes[scope].depth;
        let slot = self.slot_for(value, depth);
        self.scopes[scope].keys.insert(key, slot);
        if self.scopes[scope].is_around_focus && !self.is_stale {
            let seen = seen_of(&mut self.seen, key);
            if self.slots.get(*seen as usize).map_or(true, |it| it.depth < depth) {
                *seen = slot;
            }
        }
        Ok(())
    }

    pub fn set_outermost(&mut self, key: u32, value: ContextValue) -> Result<(), Fault> {
        self.set(0, key, value)
    }

    pub fn unset(&mut self, scope: usize, key: u32) {
        let Some(slot) = self.scopes[scope].keys.remove(&key) else { return };
        self.slots[slot as usize].value = ContextValue::Truth(false);
        self.free.push(slot);
        if !self.is_stale && self.seen.get(key as usize) == Some(&slot) {
            self.seen[key as usize] = self.seen_outward(self.scopes[scope].parent, key);
        }
    }

    /// The slot of a key in the nearest scope that has it, from a scope outward.
    fn seen_outward(&self, mut next: Option<usize>, key: u32) -> u32 {
        while let Some(scope) = next {
            if let Some(&slot) = self.scopes[scope].keys.get(&key) {
                return slot;
            }
            next = self.scopes[scope].parent;
        }
        UNSEEN
    }

    fn slot_for(&mut self, value: ContextValue, depth: u32) -> u32 {
        let slot = Slot { value, depth };
        match self.free.pop() {
            Some(at) => {
                self.slots[at as usize] = slot;
                at
            }
            None => {
                self.slots.push(slot);
                self.slots.len() as u32 - 1
            }
        }
    }
}

fn seen_of(seen: &mut Vec<u32>, key: u32) -> &mut u32 {
    let at = key as usize;
    if at >= seen.len() {
        seen.resize(at + 1, UNSEEN);
    }
    &mut seen[at]
}
