//! The handlers of a `handlers.json`.

use rustc_hash::FxHashSet;

use crate::arguments::Kind;
use crate::code::{decode, Instr, Version};
use crate::fault::Fault;
use crate::json::{Json, Object};
use crate::jsonc;
use crate::rules::{text_of, Tables};

const HANDLERS: usize = 1_000;
const PARAMS: usize = 8;
const TEXTS: usize = 1_000;
const CALLS: usize = 1_000;
const BUDGET: i64 = 1_000_000_000;
const DEPTH: i64 = 64;

#[derive(PartialEq, Eq)]
pub struct Param {
    pub name: Box<str>,
    pub kind: Kind,
}

#[derive(PartialEq, Eq)]
pub struct Signature {
    pub params: Vec<Param>,
    pub budget: u32,
    pub depth: u32,
}

/// A command in bytecode.
pub struct Handler {
    pub command: u32,
    pub signature: Signature,
    pub texts: Vec<Box<str>>,
    /// The context keys that the texts name, if the code asks for a key.
    pub keys: Vec<u32>,
    pub calls: Vec<u32>,
    pub code: Vec<Instr>,
    /// The commands that reachable places call, in order of place. The verifier finds them.
    pub callees: Vec<u32>,
}

/// The handlers of a file.
pub fn read(bytes: &mut [u8], tables: &mut Tables) -> Result<Vec<Handler>, Fault> {
    let json = jsonc::read(bytes)?;
    let Json::Object(members) = &json else { return Err(Fault::WrongShape) };
    let version = match members.get("version").ok_or(Fault::MissingMember)? {
        Json::Number(1) => Version::One,
        Json::Number(2) => Version::Two,
        _ => return Err(Fault::WrongShape),
    };
    let list = members.get("handlers").ok_or(Fault::MissingMember)?;
    let Json::List(list) = list else { return Err(Fault::WrongShape) };
    if list.len() > HANDLERS {
        return Err(Fault::TooLarge);
    }
    let mut handlers = Vec::with_capacity(list.len());
    for json in list {
        handlers.push(handler(json, version, tables)?);
    }
    let mut commands = FxHashSet::default();
    if handlers.iter().all(|it| commands.insert(it.command)) {
        Ok(handlers)
    } else {
        Err(Fault::DuplicateHandler)
    }
}

fn handler(json: &Json, version: Version, tables: &mut Tables) -> Result<Handler, Fault> {
    let Json::Object(members) = json else { return Err(Fault::WrongShape) };
    let command = text_of(members, "command")?.ok_or(Fault::MissingMember)?;
    if command.is_empty() {
        return Err(Fault::WrongShape);
    }
    let params = members.get("params").map_or(Ok(Vec::new()), params)?;
    let budget = number(members, "budget")?;
    let depth = number(members, "depth")?;
    let texts = self::texts(members, "texts")?;
    let calls = self::texts(members, "calls")?;
    let code = text_of(members, "code")?.ok_or(Fault::MissingMember)?;
    let is_within = params.len() <= PARAMS
        && texts.len() <= TEXTS
        && calls.len() <= CALLS
        && (1..=BUDGET).contains(&budget)
        && (1..=DEPTH).contains(&depth);
    if !is_within {
        return Err(Fault::TooLarge);
    }
    let code = decode(code, version)?;
    let has_keys = code.iter().any(|it| matches!(it, Instr::Context(_)));
    let keys = texts.iter().filter(|_| has_keys).map(|it| tables.keys.add(it)).collect();
    Ok(Handler {
        command: tables.commands.add(command),
        signature: Signature { params, budget: budget as u32, depth: depth as u32 },
        texts: texts.into_iter().map(Box::from).collect(),
        keys,
        calls: calls.into_iter().map(|it| tables.commands.add(it)).collect(),
        code,
        callees: Vec::new(),
    })
}

fn texts<'j>(members: &'j Object, name: &str) -> Result<Vec<&'j str>, Fault> {
    members.get(name).map_or(Ok(Vec::new()), |it| it.as_texts().ok_or(Fault::WrongShape))
}

fn number(members: &Object, name: &str) -> Result<i64, Fault> {
    match members.get(name).ok_or(Fault::MissingMember)? {
        Json::Number(number) => Ok(*number),
        _ => Err(Fault::WrongShape),
    }
}

fn params(json: &Json) -> Result<Vec<Param>, Fault> {
    let Json::List(list) = json else { return Err(Fault::WrongShape) };
    let params = list.iter().map(param).collect::<Option<Vec<_>>>().ok_or(Fault::WrongShape)?;
    let mut names = FxHashSet::default();
    if params.iter().all(|it| names.insert(&it.name)) {
        Ok(params)
    } else {
        Err(Fault::WrongShape)
    }
}

/// A parameter with a name that isn't empty, and a kind.
fn param(json: &Json) -> Option<Param> {
    let Json::Object(members) = json else { return None };
    let name = members.get("name")?.as_text().filter(|it| !it.is_empty())?;
    let kind = match members.get("kind")?.as_text()? {
        "text" => Kind::Text,
        "number" => Kind::Number,
        "truth" => Kind::Truth,
        "any" => Kind::Any,
        _ => return None,
    };
    Some(Param { name: name.into(), kind })
}

/// Whether two lists of handlers declare the same commands, each with the same parameters, budget and depth.
pub fn have_same_face(before: &[Handler], after: &[Handler]) -> bool {
    let declared =
        |it: &Handler| after.iter().any(|new| new.command == it.command && new.signature == it.signature);
    before.len() == after.len() && before.iter().all(declared)
}
