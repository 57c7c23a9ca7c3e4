//! The layout of the scopes.

use rustc_hash::FxHashMap;

use crate::context::{ContextValue, LayoutScope, Scopes};
use crate::fault::Fault;
use crate::json::{Json, Object};
use crate::jsonc;
use crate::names::Names;
use crate::rules::text_of;

const SCOPES: usize = 1_000;

/// The scopes of a layout file.
pub fn read(bytes: &mut [u8], keys: &mut Names) -> Result<Scopes, Fault> {
    let json = jsonc::read(bytes)?;
    let Json::Object(members) = &json else { return Err(Fault::WrongShape) };
    let scopes = members.get("scopes").ok_or(Fault::MissingMember)?;
    let Json::List(scopes) = scopes else { return Err(Fault::WrongShape) };
    let lacks_name = |it: &Json| matches!(it, Json::Object(scope) if scope.get("name").is_none());
    if scopes.iter().any(lacks_name) {
        return Err(Fault::MissingMember);
    }
    let scopes: Vec<Entry> = scopes.iter().map(|it| Entry::read(it, keys)).collect::<Result<_, _>>()?;
    let focus = text_of(members, "focus")?;
    in_order(scopes, focus)
}

/// One scope, `window`, without keys.
pub fn without_file() -> Scopes {
    let window = LayoutScope { name: "window".to_owned(), parent: None, keys: Vec::new() };
    Scopes::new(vec![window], 0).expect("a scope without keys is a layout")
}

/// A scope as it is in a file.
struct Entry<'j> {
    name: &'j str,
    parent: Option<&'j str>,
    keys: Vec<(u32, ContextValue)>,
}

impl<'j> Entry<'j> {
    fn read(json: &'j Json<'j>, keys: &mut Names) -> Result<Entry<'j>, Fault> {
        let Json::Object(members) = json else { return Err(Fault::WrongShape) };
        let name = text_of(members, "name")?.ok_or(Fault::MissingMember)?;
        let parent = text_of(members, "parent")?;
        let keys = match members.get("keys") {
            None => Vec::new(),
            Some(Json::Object(values)) => context_keys(values, keys)?,
            Some(_) => return Err(Fault::WrongShape),
        };
        Ok(Entry { name, parent, keys })
    }
}

fn context_keys(values: &Object, keys: &mut Names) -> Result<Vec<(u32, ContextValue)>, Fault> {
    values.0.iter().map(|(name, json)| Ok((keys.add(name), ContextValue::of_json(json)?))).collect()
}

/// Makes the scopes, if each but the first has a parent before it, names are distinct, and the focus is one.
fn in_order(entries: Vec<Entry>, focus: Option<&str>) -> Result<Scopes, Fault> {
    if entries.is_empty() || entries.len() > SCOPES {
        return Err(Fault::BadLayout);
    }
    let mut places = FxHashMap::default();
    let mut scopes = Vec::with_capacity(entries.len());
    for (at, entry) in entries.into_iter().enumerate() {
        let parent = match entry.parent {
            None if at == 0 => None,
            Some(name) if at > 0 => Some(*places.get(name).ok_or(Fault::BadLayout)?),
            _ => return Err(Fault::BadLayout),
        };
        if places.insert(entry.name, at).is_some() {
            return Err(Fault::BadLayout);
        }
        scopes.push(LayoutScope { name: entry.name.to_owned(), parent, keys: entry.keys });
    }
    let focus = match focus {
        Some(name) => *places.get(name).ok_or(Fault::BadLayout)?,
        None => 0,
    };
    Scopes::new(scopes, focus)
}
