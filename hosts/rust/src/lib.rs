#![doc = include_str!("../README.md")]
#![deny(missing_docs)]
#![deny(unsafe_code)]
#![deny(unsafe_op_in_unsafe_fn)]

use std::fmt;

mod keycheck;
#[allow(unsafe_code)]
mod sys;

pub use keycheck::{Checked, Keycheck};

/// A file that an engine is loaded from.
#[derive(Clone, Copy, Debug, PartialEq, Eq)]
pub enum File {
    /// The layout of the scopes.
    Layout = 0,
    /// The default rules.
    Defaults = 1,
    /// The user's rules.
    User = 2,
}

/// The platform for which the keys of extensions are chosen.
#[derive(Clone, Copy, Debug, PartialEq, Eq)]
pub enum Platform {
    /// Linux, the default.
    Linux = 0,
    /// macOS.
    Mac = 1,
    /// Windows.
    Windows = 2,
}

/// A value of a context key. A list and an object are set by a line: `set SCOPE KEY JSON`.
#[derive(Clone, Copy, Debug, PartialEq, Eq)]
pub enum Value<'a> {
    /// `true` or `false`.
    Truth(bool),
    /// A number.
    Number(i64),
    /// A text.
    Text(&'a str),
}

/// How an event that the session accepted ended.
#[derive(Clone, Copy, Debug, PartialEq, Eq)]
pub enum Ending {
    /// The event was done.
    Done,
    /// The event was refused. The trace says why.
    Refused,
    /// The engine doesn't have the command. The host runs it: the [`Record`] has its name and arguments.
    NotFound,
    /// The arguments don't fit the command, which didn't run.
    BadArguments,
}

/// Why a call did nothing, or stopped the session.
#[derive(Clone, Debug, PartialEq, Eq)]
#[non_exhaustive]
pub enum Error {
    /// Files come before the load, and events after it.
    OutOfOrder,
    /// The load was refused, with the line that says why. Files can be replaced and loaded again. An
    /// extension can't be removed: make a new engine.
    Refused(String),
    /// A key's text is no key.
    NoKey,
    /// Memory was refused. In an event this stops the session; any other call changes nothing.
    NoMemory,
    /// An earlier event stopped the session.
    Stopped,
    /// A handler couldn't go on, which stopped the session. No verified handler does this.
    Trapped {
        /// The lines that the event added to the trace up to there, each with its line feed.
        trace: String,
    },
    /// The library gave an answer that this crate doesn't know.
    Unknown(u32),
}

impl fmt::Display for Error {
    fn fmt(&self, f: &mut fmt::Formatter<'_>) -> fmt::Result {
        match self {
            Error::OutOfOrder => f.write_str("files come before the load, and events after it"),
            Error::Refused(why) => f.write_str(why.trim_end()),
            Error::NoKey => {
                f.write_str("the text is no key: docs/FORMATS.md lists them, such as ctrl+s")
            }
            Error::NoMemory => f.write_str("stopped: out of memory"),
            Error::Stopped => {
                f.write_str("stopped: an event before stopped the session; make a new engine")
            }
            Error::Trapped { .. } => f.write_str("trapped"),
            Error::Unknown(answer) => {
                write!(f, "the answer {answer}, which include/pafjirn.h explains")
            }
        }
    }
}

impl std::error::Error for Error {}

/// What an event did about commands, or what a press that is looked up would do.
#[derive(Clone, Copy, Debug, PartialEq, Eq)]
pub enum Kind {
    /// No command started.
    Nothing,
    /// The press opened or continued a chord.
    Chording,
    /// The command of a rule or of an entry started. The empty command starts nothing.
    Started,
}

/// What a press of a key would take ([`Engine::look_up`]).
#[derive(Clone, Debug, PartialEq, Eq)]
#[non_exhaustive]
pub struct Found {
    /// What the press would do about commands.
    pub kind: Kind,
    /// The keystrokes of the open chord and of the key.
    pub chord: String,
    /// The command that would start.
    pub command: Option<String>,
    /// The arguments of the rule, as JSON.
    pub arguments: Option<String>,
    /// The rule that would be taken.
    pub rule: Option<Place>,
}

/// What an event did. Only key presses and choices start commands. The trace has everything else.
#[derive(Clone, Debug, PartialEq, Eq)]
#[non_exhaustive]
pub struct Record {
    /// How the event ended.
    pub ending: Ending,
    /// What it did about commands.
    pub kind: Kind,
    /// The keystrokes of the open chord and of the key press.
    pub chord: Option<String>,
    /// The command that started.
    pub command: Option<String>,
    /// The arguments of the rule, as JSON.
    pub arguments: Option<String>,
    /// The rule that was taken.
    pub rule: Option<Place>,
    /// The last step of `runCommands` that began. Those above it ran, and those below it didn't.
    pub step: Option<Step>,
    /// The lines that the event added to the trace, each with its line feed.
    pub trace: String,
}

/// A step of `runCommands`.
#[derive(Clone, Debug, PartialEq, Eq)]
#[non_exhaustive]
pub struct Step {
    /// Its number in the list, from 1.
    pub number: usize,
    /// Its command.
    pub command: String,
}

/// Where a rule is.
#[derive(Clone, Debug, PartialEq, Eq)]
pub struct Place {
    /// The file of the rule: `defaults`, `user`, or the identifier of an extension.
    pub source: String,
    /// The number of elements above it in its file.
    pub above: usize,
}

/// An entry of the palette.
#[derive(Clone, Debug, PartialEq, Eq)]
pub struct Entry {
    /// The text that the palette shows.
    pub label: String,
    /// The identifier of the command.
    pub command: String,
}

/// An engine. Only the thread that made it can use it.
pub struct Engine {
    handle: sys::Handle,
}

impl fmt::Debug for Engine {
    fn fmt(&self, f: &mut fmt::Formatter<'_>) -> fmt::Result {
        f.debug_struct("Engine").finish_non_exhaustive()
    }
}

impl Engine {
    /// Makes an engine without files.
    ///
    /// # Errors
    ///
    /// [`Error::NoMemory`].
    pub fn new() -> Result<Engine, Error> {
        let mut engine = Engine {
            handle: sys::Handle::new(),
        };
        let answer = engine.handle.make();
        engine.only_done(answer)?;
        Ok(engine)
    }

    /// Sets the platform, before the load.
    ///
    /// # Errors
    ///
    /// [`Error::OutOfOrder`] after the load.
    pub fn platform(&mut self, platform: Platform) -> Result<(), Error> {
        let answer = self.handle.platform(platform as u32);
        self.only_done(answer)
    }

    /// Passes the bytes of a file, before the load. They replace those of an earlier call.
    ///
    /// # Errors
    ///
    /// [`Error::OutOfOrder`] after the load, and [`Error::NoMemory`].
    pub fn file(&mut self, file: File, bytes: &[u8]) -> Result<(), Error> {
        let answer = self.handle.file(file as u32, bytes);
        self.only_done(answer)
    }

    /// Passes the bytes of an extension's `package.json` and, if it has one, its `handlers.json`. The
    /// extension can't be removed again.
    ///
    /// # Errors
    ///
    /// [`Error::OutOfOrder`] after the load, and [`Error::NoMemory`].
    pub fn extension(&mut self, manifest: &[u8], handlers: Option<&[u8]>) -> Result<(), Error> {
        let answer = self.handle.extension(manifest, handlers);
        self.only_done(answer)
    }

    /// Loads a session from the files, and returns its warnings, each with its line feed.
    ///
    /// # Errors
    ///
    /// [`Error::Refused`] with the line that says why, [`Error::OutOfOrder`] after a load, and
    /// [`Error::NoMemory`].
    pub fn load(&mut self) -> Result<String, Error> {
        let answer = self.handle.load();
        self.only_done(answer)?;
        Ok(self.handle.text(sys::NOTICE))
    }

    /// Executes a line of a script. Here a refused event ends as [`Ending::Done`] too: only the trace says
    /// that it was refused. A line that is no event is traced as an unread line.
    ///
    /// # Errors
    ///
    /// Those of all events: [`Error::OutOfOrder`] before the load, [`Error::NoMemory`], [`Error::Stopped`]
    /// and [`Error::Trapped`].
    pub fn line(&mut self, line: &[u8]) -> Result<Told<'_>, Error> {
        let answer = self.handle.line(line);
        self.told(answer)
    }

    /// Presses the key with this text, such as `ctrl+s`.
    ///
    /// # Errors
    ///
    /// [`Error::NoKey`] for a text that is no key, and those of all events ([`Engine::line`]).
    pub fn press(&mut self, key: &str) -> Result<Told<'_>, Error> {
        let answer = self.handle.key(key.as_bytes());
        self.told(answer)
    }

    /// Gives the focus to a scope.
    ///
    /// # Errors
    ///
    /// Those of all events ([`Engine::line`]).
    pub fn focus(&mut self, scope: &str) -> Result<Told<'_>, Error> {
        let answer = self.handle.focus(scope.as_bytes());
        self.told(answer)
    }

    /// Sets a context key of a scope.
    ///
    /// # Errors
    ///
    /// Those of all events ([`Engine::line`]).
    pub fn set(&mut self, scope: &str, key: &str, value: Value<'_>) -> Result<Told<'_>, Error> {
        let (scope, key) = (scope.as_bytes(), key.as_bytes());
        let answer = match value {
            Value::Truth(truth) => self.handle.set_truth(scope, key, truth),
            Value::Number(number) => self.handle.set_number(scope, key, number),
            Value::Text(text) => self.handle.set_text(scope, key, text.as_bytes()),
        };
        self.told(answer)
    }

    /// Removes a context key from a scope.
    ///
    /// # Errors
    ///
    /// Those of all events ([`Engine::line`]).
    pub fn unset(&mut self, scope: &str, key: &str) -> Result<Told<'_>, Error> {
        let answer = self.handle.unset(scope.as_bytes(), key.as_bytes());
        self.told(answer)
    }

    /// Lists the entries of the palette that a query finds. [`Engine::entries`] returns them.
    ///
    /// # Errors
    ///
    /// Those of all events ([`Engine::line`]).
    pub fn palette(&mut self, query: &str) -> Result<Told<'_>, Error> {
        let answer = self.handle.palette(query.as_bytes());
        self.told(answer)
    }

    /// The entries of the last palette. There are none after one of them is chosen.
    pub fn entries(&mut self) -> impl Iterator<Item = Entry> + '_ {
        let count = self.handle.entries();
        (1..=u32::MAX).take(count).map(|number| Entry {
            label: self.handle.entry(number, sys::LABEL),
            command: self.handle.entry(number, sys::ENTRY_COMMAND),
        })
    }

    /// Chooses the entry with this number, counted from 1, of the last palette.
    ///
    /// # Errors
    ///
    /// Those of all events ([`Engine::line`]).
    pub fn choose(&mut self, number: u32) -> Result<Told<'_>, Error> {
        let answer = self.handle.choose(number);
        self.told(answer)
    }

    /// Looks up what a press of the key with this text would take now, after the keystrokes of the open
    /// chord. Nothing is pressed, and the trace stays.
    ///
    /// # Errors
    ///
    /// [`Error::NoKey`] for a text that is no key, [`Error::OutOfOrder`] before the load, [`Error::Stopped`],
    /// and [`Error::NoMemory`], which doesn't stop the session.
    pub fn look_up(&mut self, key: &str) -> Result<Found, Error> {
        let answer = self.handle.look_up(key.as_bytes());
        self.only_done(answer)?;
        Ok(found(&mut self.handle))
    }

    /// Looks up the keystrokes that start a command in the present context, without an open chord, those of
    /// the lowest rule first, each once. The first is what a menu shows. The rules of `runCommands` don't
    /// count for the commands in their lists.
    ///
    /// # Errors
    ///
    /// [`Error::OutOfOrder`] before the load, [`Error::Stopped`], and [`Error::NoMemory`], which doesn't stop
    /// the session.
    pub fn keys_of(&mut self, command: &str) -> Result<Vec<String>, Error> {
        let answer = self.handle.keys_of(command.as_bytes());
        self.shown_keys(answer)
    }

    /// Looks up the keystrokes that go on from those of the open chord, or the first keystrokes of rules if
    /// no chord is open, those of the lowest rule first, each once. No other key finds anything.
    /// [`Engine::look_up`] returns what a press of each would take.
    ///
    /// # Errors
    ///
    /// Those of [`Engine::keys_of`].
    pub fn continuations(&mut self) -> Result<Vec<String>, Error> {
        let answer = self.handle.continuations();
        self.shown_keys(answer)
    }

    /// Executes lines of a script one by one, as the returned iterator over their records advances. The
    /// iterator ends after an error.
    pub fn records<L>(&mut self, lines: L) -> Records<'_, L::IntoIter>
    where
        L: IntoIterator,
        L::Item: AsRef<[u8]>,
    {
        Records {
            engine: self,
            lines: lines.into_iter(),
            is_over: false,
        }
    }

    /// The text before the caret, and the text after it.
    pub fn text(&mut self) -> (String, String) {
        (self.handle.text(sys::BEFORE), self.handle.text(sys::AFTER))
    }

    /// The keystrokes that a call found, from its answer.
    fn shown_keys(&mut self, answer: u32) -> Result<Vec<String>, Error> {
        self.only_done(answer)?;
        let text = self.handle.text(sys::KEYS);
        Ok(text.lines().map(String::from).collect())
    }

    /// The result of a call that is no event, from its answer.
    fn only_done(&mut self, answer: u32) -> Result<(), Error> {
        match answer {
            sys::DONE => Ok(()),
            sys::REFUSED => Err(Error::Refused(self.handle.text(sys::NOTICE))),
            answer => Err(error_of(&mut self.handle, answer)),
        }
    }

    /// The result of an event, from its answer.
    fn told(&mut self, answer: u32) -> Result<Told<'_>, Error> {
        let ending = match answer {
            sys::DONE => Ending::Done,
            sys::REFUSED => Ending::Refused,
            sys::NOT_FOUND => Ending::NotFound,
            sys::BAD_ARGUMENTS => Ending::BadArguments,
            answer => return Err(error_of(&mut self.handle, answer)),
        };
        Ok(Told {
            engine: self,
            ending,
        })
    }
}

/// The error for an answer that is neither done nor refused.
fn error_of(handle: &mut sys::Handle, answer: u32) -> Error {
    match answer {
        sys::OUT_OF_ORDER => Error::OutOfOrder,
        sys::NO_KEY => Error::NoKey,
        sys::NO_MEMORY => Error::NoMemory,
        sys::STOPPED => Error::Stopped,
        sys::TRAPPED => Error::Trapped {
            trace: handle.text(sys::TRACE),
        },
        answer => Error::Unknown(answer),
    }
}

/// An event that the session accepted: how it ended and what it did. It is valid until the next event.
#[derive(Debug)]
pub struct Told<'e> {
    engine: &'e mut Engine,
    ending: Ending,
}

impl Told<'_> {
    /// How the event ended.
    #[must_use]
    pub fn ending(&self) -> Ending {
        self.ending
    }

    /// What the event did.
    #[must_use]
    pub fn record(self) -> Record {
        let handle = &mut self.engine.handle;
        let found = found(handle);
        Record {
            ending: self.ending,
            kind: found.kind,
            chord: given(found.chord),
            command: found.command,
            arguments: found.arguments,
            rule: found.rule,
            step: last_step(handle),
            trace: handle.text(sys::TRACE),
        }
    }

    /// The lines that the event added to the trace, each with its line feed.
    #[must_use]
    pub fn trace(self) -> String {
        self.engine.handle.text(sys::TRACE)
    }

    /// Reads those lines into a buffer of the host, and replaces its content. This allocates only if the
    /// capacity of the buffer is too small.
    pub fn read_trace(self, text: &mut Vec<u8>) {
        self.engine.handle.read_into(sys::TRACE, text);
    }
}

/// What an event took, or what a press would take.
fn found(handle: &mut sys::Handle) -> Found {
    let kind = match handle.taken() {
        sys::CHORDING => Kind::Chording,
        sys::STARTED => Kind::Started,
        _ => Kind::Nothing,
    };
    let source = given(handle.text(sys::SOURCE));
    Found {
        kind,
        chord: handle.text(sys::CHORD),
        command: (kind == Kind::Started).then(|| handle.text(sys::COMMAND)),
        arguments: given(handle.text(sys::ARGUMENTS)),
        rule: source.map(|source| Place {
            source,
            above: handle.place(),
        }),
    }
}

/// The last step of `runCommands` that began in an event.
fn last_step(handle: &mut sys::Handle) -> Option<Step> {
    let number = handle.steps();
    (number > 0).then(|| Step {
        number,
        command: handle.text(sys::STEP),
    })
}

/// A text that isn't empty.
fn given(text: String) -> Option<String> {
    (!text.is_empty()).then_some(text)
}

/// The records of what lines of a script did.
#[derive(Debug)]
pub struct Records<'e, L> {
    engine: &'e mut Engine,
    lines: L,
    is_over: bool,
}

impl<L: Iterator> Iterator for Records<'_, L>
where
    L::Item: AsRef<[u8]>,
{
    type Item = Result<Record, Error>;

    fn next(&mut self) -> Option<Result<Record, Error>> {
        if self.is_over {
            return None;
        }
        let line = self.lines.next()?;
        let told = self.engine.line(line.as_ref()).map(Told::record);
        self.is_over = told.is_err();
        Some(told)
    }
}

#[cfg(test)]
mod tests {
    use super::*;

    /// A load verifies all handlers, so no file makes the library answer that one trapped.
    #[test]
    fn the_trace_of_a_trapped_event_is_told() -> Result<(), Error> {
        let mut engine = Engine::new()?;
        engine.load()?;
        engine.press("x")?;
        let trapped = Error::Trapped {
            trace: "key x: unbound\n".into(),
        };
        assert_eq!(engine.told(sys::TRAPPED).err(), Some(trapped.clone()));
        assert_eq!(trapped.to_string(), "trapped");
        Ok(())
    }

    #[test]
    fn look_ups_of_a_stopped_session_are_errors() -> Result<(), Error> {
        let mut engine = Engine::new()?;
        assert_eq!(engine.shown_keys(sys::STOPPED), Err(Error::Stopped));
        assert_eq!(engine.shown_keys(sys::NO_MEMORY), Err(Error::NoMemory));
        assert_eq!(engine.shown_keys(sys::DONE), Ok(Vec::new()));
        Ok(())
    }
}
