//! The native commands.

use crate::arguments::{Arg, Kind};
use crate::buffer::Buffer;
use crate::context::{ContextValue, Scopes};
use crate::names::Names;

/// What commands act on: the text, the context, and the names of context keys.
pub struct Core<'s> {
    pub buffer: &'s mut Buffer,
    pub scopes: &'s mut Scopes,
    pub keys: &'s mut Names,
}

#[derive(Clone, Copy, PartialEq, Eq)]
pub enum Native {
    Type,
    DeleteLeft,
    DeleteRight,
    CursorLeft,
    CursorRight,
    Clear,
    Top,
    Bottom,
    SetContext,
}

impl Native {
    /// All native commands, in the order of their first tickets.
    pub const ALL: [Native; 9] = [
        Native::Type,
        Native::DeleteLeft,
        Native::DeleteRight,
        Native::CursorLeft,
        Native::CursorRight,
        Native::Clear,
        Native::Top,
        Native::Bottom,
        Native::SetContext,
    ];

    pub fn named(name: &str) -> Option<Native> {
        Native::ALL.into_iter().find(|it| it.name() == name)
    }

    pub fn name(self) -> &'static str {
        match self {
            Native::Type => "type",
            Native::DeleteLeft => "deleteLeft",
            Native::DeleteRight => "deleteRight",
            Native::CursorLeft => "cursorLeft",
            Native::CursorRight => "cursorRight",
            Native::Clear => "buffer.clear",
            Native::Top => "buffer.top",
            Native::Bottom => "buffer.bottom",
            Native::SetContext => "setContext",
        }
    }

    /// The parameters, with their kinds.
    pub fn params(self) -> &'static [(&'static str, Kind)] {
        match self {
            Native::Type => &[("text", Kind::Text)],
            Native::SetContext => &[("key", Kind::Text), ("value", Kind::Any)],
            _ => &[],
        }
    }

    /// The most that a call costs a handler.
    pub fn budget(self) -> u32 {
        match self {
            Native::Type | Native::DeleteLeft | Native::DeleteRight => 1_001,
            Native::SetContext => 101,
            _ => 11,
        }
    }

    /// Runs the command. Its arguments fit.
    pub fn run(self, args: &[Arg], core: &mut Core) {
        match (self, args) {
            (Native::Type, [Arg::Text(text)]) => core.buffer.insert(text),
            (Native::DeleteLeft, _) => core.buffer.delete_left(),
            (Native::DeleteRight, _) => core.buffer.delete_right(),
            (Native::CursorLeft, _) => core.buffer.left(),
            (Native::CursorRight, _) => core.buffer.right(),
            (Native::Clear, _) => core.buffer.clear(),
            (Native::Top, _) => core.buffer.top(),
            (Native::Bottom, _) => core.buffer.bottom(),
            (Native::SetContext, [Arg::Text(key), value]) => {
                let key = core.keys.add(key);
                let value = match *value {
                    Arg::Text(text) => ContextValue::Text(text.into()),
                    Arg::Number(number) => ContextValue::Number(number),
                    Arg::Truth(truth) => ContextValue::Truth(truth),
                };
                // A key that is one too many changes nothing, and is no fault of the command.
                let _ = core.scopes.set_outermost(key, value);
            }
            _ => unreachable!("arguments are read by the parameters"),
        }
    }
}
