//! Lists of key rules and removals.

use std::fmt;
use std::rc::Rc;

use serde::de::{DeserializeSeed, Deserializer, MapAccess, SeqAccess, Visitor};

use crate::arguments::Value;
use crate::fault::{Fault, OutOfMemory};
use crate::json::{Json, Object};
use crate::jsonc;
use crate::keys::Chord;
use crate::names::Names;
use crate::when::{ClauseId, Clauses};

/// The names and clauses that all files share.
#[derive(Default)]
pub struct Tables {
    pub commands: Names,
    pub keys: Names,
    pub clauses: Clauses,
}

#[derive(Clone)]
pub struct Rule {
    pub chord: Chord,
    pub command: u32,
    pub when: Option<ClauseId>,
    pub args: Option<Rc<Value>>,
}

/// A removal of rules of a command: of those with this chord if it has one, and with this clause if it has one.
pub struct Removal {
    pub command: u32,
    pub chord: Option<Chord>,
    pub when: Option<ClauseId>,
}

/// A fault of an entry of a list, by the place of the entry.
pub struct Warning {
    pub fault: Fault,
    pub place: usize,
}

#[derive(Clone, Copy, Debug, PartialEq, Eq)]
pub enum Platform {
    Mac,
    Linux,
    Windows,
}

impl Platform {
    /// The member of a manifest's rule that replaces `key`.
    fn member(self) -> &'static str {
        match self {
            Platform::Mac => "mac",
            Platform::Linux => "linux",
            Platform::Windows => "win",
        }
    }
}

#[derive(Default)]
pub struct RuleList {
    pub rules: Vec<Rule>,
    pub removals: Vec<Removal>,
    pub warnings: Vec<Warning>,
    /// How many entries were read.
    count: usize,
}

/// Why a rule file can't be read.
pub enum Unreadable {
    Fault(Fault),
    OutOfMemory,
}

impl From<Fault> for Unreadable {
    fn from(fault: Fault) -> Unreadable {
        Unreadable::Fault(fault)
    }
}

impl From<OutOfMemory> for Unreadable {
    fn from(_: OutOfMemory) -> Unreadable {
        Unreadable::OutOfMemory
    }
}

impl RuleList {
    /// Reads a rule file. Its elements are read one by one, so that none is kept as JSON.
    pub fn read(bytes: &mut [u8], tables: &mut Tables) -> Result<RuleList, Unreadable> {
        let text = jsonc::plain(bytes)?;
        let mut list = RuleList::default();
        let mut deserializer = serde_json::Deserializer::from_str(text);
        let reader = FileReader { list: &mut list, tables };
        let is_list = reader.deserialize(&mut deserializer).map_err(|_| Fault::Syntax)?;
        deserializer.end().map_err(|_| Fault::Syntax)?;
        tables.clauses.check_memory()?;
        if is_list {
            Ok(list)
        } else {
            Err(Fault::WrongShape.into())
        }
    }

    /// Reads an entry. The platform is given for the rules of a manifest.
    pub fn add(&mut self, entry: &Json, platform: Option<Platform>, tables: &mut Tables) {
        let place = self.count;
        self.count += 1;
        let warned = match self.read_entry(entry, platform, tables) {
            Ok(when) => {
                let is_unread = when.map_or(false, |it| tables.clauses.has_unread_pattern(it));
                is_unread.then_some(Fault::UnreadPattern)
            }
            Err(fault) => Some(fault),
        };
        self.warnings.extend(warned.map(|fault| Warning { fault, place }));
    }

    /// Reads an entry and gives its clause.
    fn read_entry(
        &mut self,
        entry: &Json,
        platform: Option<Platform>,
        tables: &mut Tables,
    ) -> Result<Option<ClauseId>, Fault> {
        let Json::Object(members) = entry else { return Err(Fault::WrongShape) };
        let command = text_of(members, "command")?.ok_or(Fault::MissingMember)?;
        let removed = command.strip_prefix('-');
        let key = match platform.and_then(|it| members.get(it.member())) {
            Some(key) => Some(key.as_text().ok_or(Fault::WrongShape)?),
            None => text_of(members, "key")?,
        };
        let chord = match key {
            Some(key) => Some(Chord::parse(key)?),
            None if removed.is_some() => None,
            None => return Err(Fault::MissingMember),
        };
        let when = text_of(members, "when")?.filter(|it| !it.bytes().all(jsonc::is_blank));
        let when = when.map(|it| tables.clauses.read(it, &mut tables.keys)).transpose()?;
        let args = match members.get("args") {
            None | Some(Json::Null) => None,
            Some(args) => Some(Value::of_json(args).ok_or(Fault::WrongShape)?),
        };
        let command = tables.commands.add(removed.unwrap_or(command));
        match (removed, chord) {
            (None, Some(chord)) => self.rules.push(Rule { chord, command, when, args: args.map(Rc::new) }),
            _ => self.removals.push(Removal { command, chord, when }),
        }
        Ok(when)
    }
}

/// A member that has to be a text if it is present.
pub fn text_of<'m>(members: &'m Object, name: &str) -> Result<Option<&'m str>, Fault> {
    members.get(name).map(|it| it.as_text().ok_or(Fault::WrongShape)).transpose()
}

/// Reads a rule file, and answers whether it is a list.
struct FileReader<'r> {
    list: &'r mut RuleList,
    tables: &'r mut Tables,
}

impl<'de> DeserializeSeed<'de> for FileReader<'_> {
    type Value = bool;

    fn deserialize<D: Deserializer<'de>>(self, deserializer: D) -> Result<bool, D::Error> {
        deserializer.deserialize_any(self)
    }
}

impl<'de> Visitor<'de> for FileReader<'_> {
    type Value = bool;

    fn expecting(&self, f: &mut fmt::Formatter<'_>) -> fmt::Result {
        f.write_str("a list of rules")
    }

    fn visit_seq<A: SeqAccess<'de>>(self, mut access: A) -> Result<bool, A::Error> {
        while let Some(entry) = access.next_element::<Json>()? {
            self.list.add(&entry, None, self.tables);
        }
        Ok(true)
    }

    fn visit_map<A: MapAccess<'de>>(self, mut access: A) -> Result<bool, A::Error> {
        while access.next_entry::<Json, Json>()?.is_some() {}
        Ok(false)
    }

    fn visit_unit<E>(self) -> Result<bool, E> {
        Ok(false)
    }

    fn visit_bool<E>(self, _: bool) -> Result<bool, E> {
        Ok(false)
    }

    fn visit_i64<E>(self, _: i64) -> Result<bool, E> {
        Ok(false)
    }

    fn visit_u64<E>(self, _: u64) -> Result<bool, E> {
        Ok(false)
    }

    fn visit_f64<E>(self, _: f64) -> Result<bool, E> {
        Ok(false)
    }

    fn visit_str<E>(self, _: &str) -> Result<bool, E> {
        Ok(false)
    }
}
