//! Scripts: each line is an event.

use std::io::{self, Read, Write};

use memchr::memchr;

use crate::context::ContextValue;
use crate::fault::OutOfMemory;
use crate::jsonc;
use crate::keys::Keystroke;
use crate::native::Native;
use crate::session::Session;

/// The most bytes of a script, and of each file.
pub const LIMIT: u64 = 16_777_216;

/// The trace is written when so many bytes are waiting.
const WAITING: usize = 1 << 16;

/// Why a script stopped.
pub enum ScriptFault {
    TooLong,
    ReadFailed,
    WriteFailed,
    OutOfMemory,
}

impl ScriptFault {
    pub fn text(&self) -> &'static str {
        match self {
            ScriptFault::TooLong => "script: too long",
            ScriptFault::ReadFailed => "script: read failed",
            ScriptFault::WriteFailed => "script: write failed",
            ScriptFault::OutOfMemory => "stopped: out of memory",
        }
    }
}

impl From<OutOfMemory> for ScriptFault {
    fn from(_: OutOfMemory) -> ScriptFault {
        ScriptFault::OutOfMemory
    }
}

/// Reads everything, unless there is more than the limit.
pub fn read_within(reader: impl Read) -> io::Result<Option<Vec<u8>>> {
    let mut bytes = Vec::new();
    reader.take(LIMIT + 1).read_to_end(&mut bytes)?;
    Ok((bytes.len() as u64 <= LIMIT).then_some(bytes))
}

pub fn run(reader: impl Read, out: &mut impl Write, session: &mut Session) -> Result<(), ScriptFault> {
    let read = read_within(reader).map_err(|_| ScriptFault::ReadFailed)?;
    let mut script = read.ok_or(ScriptFault::TooLong)?;
    let ran = run_lines(&mut script, out, session);
    write(out, session)?;
    ran
}

fn write(out: &mut impl Write, session: &mut Session) -> Result<(), ScriptFault> {
    out.write_all(&session.trace).map_err(|_| ScriptFault::WriteFailed)?;
    session.trace.clear();
    Ok(())
}

fn run_lines(script: &mut [u8], out: &mut impl Write, session: &mut Session) -> Result<(), ScriptFault> {
    let is_utf8 = simdutf8::basic::from_utf8(script).is_ok();
    let mut rest = script;
    let mut number = 0;
    while !rest.is_empty() {
        number += 1;
        let (line, left) = match memchr(b'\n', rest) {
            Some(end) => {
                let (line, left) = rest.split_at_mut(end + 1);
                let length = if line[..end].ends_with(b"\r") { end - 1 } else { end };
                (&mut line[..length], left)
            }
            None => (rest, &mut [][..]),
        };
        rest = left;
        if matches!(line.first(), None | Some(b'#')) {
            continue;
        }
        let is_text = is_utf8 || simdutf8::basic::from_utf8(line).is_ok();
        if !is_text || obey(line, session)?.is_none() {
            session.unread(number);
        }
        if session.trace.len() > WAITING {
            write(out, session)?;
        }
    }
    Ok(())
}

/// Tells the session a line. `None` if it can't be read.
fn obey(line: &mut [u8], session: &mut Session) -> Result<Option<()>, OutOfMemory> {
    if let [b'k', b'e', b'y', b' ', key @ ..] = line {
        return Ok(Keystroke::parse(key).ok().map(|it| session.press(it)));
    }
    let (event, rest) = first_word(line);
    Ok(match (event, rest) {
        (b"set", Some(rest)) => set(rest, session),
        (b"focus", Some(scope)) => word(scope).map(|it| session.focus(it)),
        (b"unset", Some(rest)) => unset(rest, session),
        (b"palette", query) => text(query.unwrap_or_default()).map(|it| session.list_palette(it)),
        (b"choose", Some(number)) => {
            let number = digits(number).and_then(|it| u32::try_from(it).ok());
            number.map(|it| session.choose(it))
        }
        (b"enable", Some(id)) => word(id).map(|it| session.enable(it)),
        (b"disable", Some(id)) => word(id).map(|it| session.disable(it)),
        (b"update", Some(rest)) => update(rest, session),
        (b"register", Some(name)) => word(name).and_then(Native::named).map(|it| session.register(it)),
        (b"dispose", Some(ticket)) => digits(ticket).map(|it| session.dispose(it)),
        (b"reload", rules) => {
            session.reload(rules.unwrap_or_default())?;
            Some(())
        }
        _ => None,
    })
}

/// The first word, and what follows the space after it.
fn first_word(line: &mut [u8]) -> (&[u8], Option<&mut [u8]>) {
    match memchr(b' ', line) {
        Some(end) => {
            let (word, rest) = line.split_at_mut(end);
            (word, Some(&mut rest[1..]))
        }
        None => (line, None),
    }
}

/// The bytes of a line that is known to be text.
fn text(bytes: &[u8]) -> Option<&str> {
    std::str::from_utf8(bytes).ok()
}

/// A word that isn't empty.
fn word(bytes: &[u8]) -> Option<&str> {
    text(bytes).filter(|it| !it.is_empty() && !it.contains(' '))
}

fn digits(bytes: &[u8]) -> Option<u64> {
    let is_number = !bytes.is_empty() && bytes.iter().all(u8::is_ascii_digit);
    text(bytes).filter(|_| is_number)?.parse().ok()
}

fn set(rest: &mut [u8], session: &mut Session) -> Option<()> {
    let (scope, rest) = first_word(rest);
    let (key, json) = first_word(rest?);
    let value = context_value(json?)?;
    session.set(word(scope)?, word(key)?, value);
    Some(())
}

/// The value of JSON with comments that isn't blank.
fn context_value(json: &mut [u8]) -> Option<ContextValue> {
    match &*json {
        b"true" => return Some(ContextValue::Truth(true)),
        b"false" => return Some(ContextValue::Truth(false)),
        blank if blank.iter().all(|it| jsonc::is_blank(*it)) => return None,
        _ => {}
    }
    ContextValue::of_json(&jsonc::read(json).ok()?).ok()
}

fn unset(rest: &mut [u8], session: &mut Session) -> Option<()> {
    let (scope, key) = first_word(rest);
    session.unset(word(scope)?, word(key?)?);
    Some(())
}

fn update(rest: &mut [u8], session: &mut Session) -> Option<()> {
    let (id, json) = first_word(rest);
    session.update(word(id)?, json.unwrap_or_default());
    Some(())
}
