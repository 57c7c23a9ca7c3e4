//! The arguments of rules, and how the parameters of a command read them.

use crate::json::Json;

/// The kinds of values.
#[derive(Clone, Copy, Debug, PartialEq, Eq)]
#[repr(u8)]
pub enum Kind {
    Text = 0,
    Number = 1,
    Truth = 2,
    Any = 3,
}

/// An argument, lent. Two are the same if they have one kind and are equal.
#[derive(Clone, Copy, PartialEq, Eq)]
pub enum Arg<'a> {
    Text(&'a str),
    Number(i64),
    Truth(bool),
}

/// JSON in which each number is whole.
pub enum Value {
    Null,
    Truth(bool),
    Number(i64),
    Text(Box<str>),
    List(Box<[Value]>),
    Object(Box<[(Box<str>, Value)]>),
}

impl Value {
    /// `None` if a number isn't whole, at any depth.
    pub fn of_json(json: &Json) -> Option<Value> {
        Some(match json {
            Json::Null => Value::Null,
            Json::Truth(truth) => Value::Truth(*truth),
            Json::Number(number) => Value::Number(*number),
            Json::Fraction => return None,
            Json::Text(text) => Value::Text(text.as_ref().into()),
            Json::List(list) => {
                let mut values = Vec::with_capacity(list.len());
                for element in list {
                    values.push(Value::of_json(element)?);
                }
                Value::List(values.into())
            }
            Json::Object(object) => {
                let mut members = Vec::with_capacity(object.0.len());
                for (name, value) in &object.0 {
                    members.push((name.as_ref().into(), Value::of_json(value)?));
                }
                Value::Object(members.into())
            }
        })
    }

    pub fn member(&self, name: &str) -> Option<&Value> {
        match self {
            Value::Object(members) => members.iter().find(|it| *it.0 == *name).map(|it| &it.1),
            _ => None,
        }
    }
}

impl Kind {
    fn empty(self) -> Arg<'static> {
        match self {
            Kind::Text => Arg::Text(""),
            Kind::Number => Arg::Number(0),
            Kind::Truth | Kind::Any => Arg::Truth(false),
        }
    }

    /// Reads a value of this kind. An absent one and `null` give the empty value.
    pub fn read(self, value: Option<&Value>) -> Option<Arg<'_>> {
        match (self, value) {
            (_, None | Some(Value::Null)) => Some(self.empty()),
            (Kind::Text | Kind::Any, Some(Value::Text(text))) => Some(Arg::Text(text)),
            (Kind::Number | Kind::Any, Some(Value::Number(number))) => Some(Arg::Number(*number)),
            (Kind::Truth | Kind::Any, Some(Value::Truth(truth))) => Some(Arg::Truth(*truth)),
            _ => None,
        }
    }
}

/// Which part of the arguments of a rule a parameter reads: `None` if they can't fit.
pub fn part_for<'a>(args: Option<&'a Value>, name: &str, parameters: usize) -> Option<Option<&'a Value>> {
    match args {
        None | Some(Value::Null) => Some(None),
        Some(object @ Value::Object(_)) => Some(object.member(name)),
        Some(Value::List(_)) => None,
        alone if parameters == 1 => Some(alone),
        _ => None,
    }
}
