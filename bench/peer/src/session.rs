//! A session: the events of a script, each with its trace lines.

use std::fmt;

use crate::buffer::Buffer;
use crate::commands::Commands;
use crate::context::{ContextValue, Scopes};
use crate::fault::{Fault, OutOfMemory, Refusal};
use crate::handlers::{self, have_same_face, Handler};
use crate::keys::{Chord, Keystroke};
use crate::manifest::Manifest;
use crate::native::{Core, Native};
use crate::palette::{Index, Palette};
use crate::resolve::{Enablements, Resolved, Resolver};
use crate::rules::{RuleList, Tables, Unreadable};
use crate::start::Starter;
use crate::trace;
use crate::verify::verify;

pub struct Extension {
    pub manifest: Manifest,
    /// The places of the extensions that it depends on, in the manifest's order.
    pub dependencies: Vec<usize>,
}

pub struct Session {
    pub tables: Tables,
    pub scopes: Scopes,
    pub buffer: Buffer,
    pub defaults: RuleList,
    pub user: RuleList,
    pub extensions: Vec<Extension>,
    pub commands: Commands,
    pub resolver: Resolver,
    pub enablements: Enablements,
    pub pressed: Chord,
    pub palette: Palette,
    /// The commands of the palette, made when they are first asked for.
    pub index: Option<Index>,
    /// Lines that aren't written yet.
    pub trace: Vec<u8>,
}

impl Session {
    /// Puts the rules, enablements and palette of the enabled extensions together.
    pub fn assemble(&mut self) {
        let enabled = || {
            let is_enabled = |at: &usize| self.commands.is_enabled[*at];
            (0..self.extensions.len()).filter(is_enabled).map(|at| &self.extensions[at].manifest)
        };
        let lists: Vec<&RuleList> = enabled().map(|it| &it.rules).collect();
        let resolver = Resolver::new(&self.defaults, &lists, &self.user);
        let mut enablements = Enablements::default();
        // The first contribution counts, so that it is set last.
        let contributions: Vec<_> = enabled().flat_map(|it| &it.commands).collect();
        for it in contributions.into_iter().rev() {
            enablements.set(it.command, it.enablement);
        }
        self.resolver = resolver;
        self.enablements = enablements;
        self.index = None;
    }

    pub fn unread(&mut self, line: usize) {
        self.trace.extend_from_slice(b"unread line ");
        trace::number(&mut self.trace, line);
        self.trace.push(b'\n');
    }

    fn line(&mut self, pieces: &[&str]) {
        trace::line(&mut self.trace, pieces);
    }

    fn refuse(&mut self, refusal: impl Into<Refusal>) {
        self.line_of(format_args!("refused {}", refusal.into()));
    }

    fn line_of(&mut self, line: fmt::Arguments) {
        self.line(&[&line.to_string()]);
    }

    /// Writes the answer of an event that was accepted, or the refusal.
    fn answer(&mut self, answer: Result<String, Refusal>) {
        match answer {
            Ok(line) => self.line(&[&line]),
            Err(refusal) => self.refuse(refusal),
        }
    }

    /// Ends an open chord.
    fn leave(&mut self) {
        if !self.pressed.is_empty() {
            self.trace.extend_from_slice(b"left ");
            self.pressed.write_to(&mut self.trace);
            self.trace.push(b'\n');
            self.pressed = Chord::default();
        }
    }

    pub fn press(&mut self, keystroke: Keystroke) {
        let pressed = self.pressed.then(keystroke);
        self.scopes.refresh();
        self.trace.extend_from_slice(b"key ");
        pressed.write_to(&mut self.trace);
        let resolved = self.resolver.resolve(pressed, &self.tables.clauses, &self.enablements, &self.scopes);
        let is_first = self.pressed.is_empty();
        self.pressed = Chord::default();
        match resolved {
            Resolved::More => {
                self.pressed = pressed;
                self.trace.extend_from_slice(b": chord\n");
            }
            Resolved::Nothing if is_first => self.trace.extend_from_slice(b": unbound\n"),
            Resolved::Nothing => self.trace.extend_from_slice(b": left\n"),
            Resolved::Start(rule) => {
                let name = self.tables.commands.text(rule.command);
                if name.is_empty() {
                    self.trace.extend_from_slice(b": no action\n");
                    return;
                }
                trace::line(&mut self.trace, &[": start ", name]);
                let starter = Starter {
                    commands: &self.commands,
                    names: &self.tables.commands,
                    core: Core {
                        buffer: &mut self.buffer,
                        scopes: &mut self.scopes,
                        keys: &mut self.tables.keys,
                    },
                    out: &mut self.trace,
                };
                { starter }.start(rule.command, rule.args.as_deref());
            }
        }
    }

    pub fn focus(&mut self, scope: &str) {
        match self.scopes.named(scope) {
            Ok(found) => {
                self.leave();
                self.scopes.focus(found);
                self.line(&["focus ", scope]);
            }
            Err(fault) => self.refuse(fault),
        }
    }

    pub fn set(&mut self, scope: &str, key: &str, value: ContextValue) {
        let found = self.scopes.named(scope);
        let set = found.and_then(|it| self.scopes.set(it, self.tables.keys.add(key), value));
        match set {
            Ok(()) => self.line(&["set ", scope, " ", key]),
            Err(fault) => self.refuse(fault),
        }
    }

    pub fn unset(&mut self, scope: &str, key: &str) {
        match self.scopes.named(scope) {
            Ok(found) => {
                if let Some(key) = self.tables.keys.find(key) {
                    self.scopes.unset(found, key);
                }
                self.line(&["unset ", scope, " ", key]);
            }
            Err(fault) => self.refuse(fault),
        }
    }

    pub fn list_palette(&mut self, query: &str) {
        self.scopes.refresh();
        let index = self.index.get_or_insert_with(|| {
            let is_enabled = &self.commands.is_enabled;
            let enabled = self.extensions.iter().zip(is_enabled).filter(|it| *it.1);
            Index::new(enabled.map(|it| &it.0.manifest), &self.tables.commands)
        });
        let listed = self.palette.list(query, index, &self.tables.clauses, &self.scopes);
        let out = &mut self.trace;
        out.extend_from_slice(b"palette ");
        trace::number(out, listed.len());
        out.push(b'\n');
        for (at, entry) in listed.into_iter().enumerate() {
            trace::number(out, at + 1);
            trace::line(out, &[". ", &entry.label, " [", self.tables.commands.text(entry.command), "]"]);
        }
    }

    pub fn choose(&mut self, number: u32) {
        let Some(command) = self.palette.choose(number) else {
            self.refuse(Fault::NoEntry);
            return;
        };
        self.scopes.refresh();
        let name = self.tables.commands.text(command);
        trace::line(&mut self.trace, &["choose ", itoa::Buffer::new().format(number), ": start ", name]);
        let mut starter = Starter {
            commands: &self.commands,
            names: &self.tables.commands,
            core: Core { buffer: &mut self.buffer, scopes: &mut self.scopes, keys: &mut self.tables.keys },
            out: &mut self.trace,
        };
        starter.start(command, None);
    }

    pub fn reload(&mut self, bytes: &mut [u8]) -> Result<(), OutOfMemory> {
        match RuleList::read(bytes, &mut self.tables) {
            Ok(list) => {
                self.leave();
                self.user = list;
                self.assemble();
                self.line(&["reloaded"]);
            }
            Err(Unreadable::Fault(fault)) => self.refuse(fault),
            Err(Unreadable::OutOfMemory) => return Err(OutOfMemory),
        }
        Ok(())
    }

    fn extension(&self, id: &str) -> Result<usize, Refusal> {
        let is_named = |it: &Extension| it.manifest.id.eq_ignore_ascii_case(id);
        Ok(self.extensions.iter().position(is_named).ok_or(Fault::UnknownExtension)?)
    }

    fn id(&self, extension: usize) -> &str {
        &self.extensions[extension].manifest.id
    }

    pub fn enable(&mut self, id: &str) {
        let found = self.extension(id).and_then(|it| self.check_enable(it).map(|()| it));
        self.switch(found, true);
    }

    pub fn disable(&mut self, id: &str) {
        let found = self.extension(id).and_then(|it| self.check_disable(it).map(|()| it));
        self.switch(found, false);
    }

    fn switch(&mut self, found: Result<usize, Refusal>, is_enabled: bool) {
        let at = match found {
            Ok(at) => at,
            Err(refusal) => return self.refuse(refusal),
        };
        self.leave();
        if self.commands.is_enabled[at] != is_enabled {
            self.commands.is_enabled[at] = is_enabled;
            self.assemble();
        }
        let word = if is_enabled { "enabled " } else { "disabled " };
        trace::line(&mut self.trace, &[word, &self.extensions[at].manifest.id]);
    }

    fn check_enable(&self, at: usize) -> Result<(), Refusal> {
        if self.commands.is_enabled[at] {
            return Ok(());
        }
        let mut dependencies = self.extensions[at].dependencies.iter();
        if let Some(&needed) = dependencies.find(|it| !self.commands.is_enabled[**it]) {
            return Err(Refusal::naming(Fault::NeedsDependency, self.id(needed)));
        }
        match self.commands.missing_native(at) {
            Some(native) => Err(Refusal::naming(Fault::CalleeNotLive, native.name())),
            None => Ok(()),
        }
    }

    fn check_disable(&self, at: usize) -> Result<(), Refusal> {
        if !self.commands.is_enabled[at] {
            return Ok(());
        }
        let needs =
            |it: &usize| self.commands.is_enabled[*it] && self.extensions[*it].dependencies.contains(&at);
        match (0..self.extensions.len()).find(needs) {
            Some(dependent) => Err(Refusal::naming(Fault::NeededBy, self.id(dependent))),
            None => Ok(()),
        }
    }

    pub fn update(&mut self, id: &str, bytes: &mut [u8]) {
        let answer = self.extension(id).and_then(|at| {
            let handlers = self.new_handlers(at, bytes)?;
            self.commands.put(at, handlers);
            Ok(format!("updated {}", self.id(at)))
        });
        self.answer(answer);
    }

    /// The verified handlers of a file that is to take the place of an extension's.
    fn new_handlers(&mut self, at: usize, bytes: &mut [u8]) -> Result<Vec<Handler>, Refusal> {
        let mut handlers = handlers::read(bytes, &mut self.tables)?;
        if !have_same_face(&self.commands.handlers[at], &handlers) {
            return Err(Fault::SignatureChanged.into());
        }
        let callable = self.commands.callable(&self.extensions[at].dependencies, &handlers);
        for handler in &mut handlers {
            let verified = verify(handler, &callable);
            handler.callees = verified
                .map_err(|(fault, _)| Refusal::naming(fault, self.tables.commands.text(handler.command)))?;
        }
        Ok(handlers)
    }

    pub fn register(&mut self, native: Native) {
        match self.commands.register(native) {
            Ok(ticket) => self.line_of(format_args!("registered {} {ticket}", native.name())),
            Err(fault) => self.refuse(fault),
        }
    }

    pub fn dispose(&mut self, ticket: u64) {
        match self.commands.dispose(ticket, &self.tables.commands) {
            Ok(native) => self.line_of(format_args!("disposed {} {ticket}", native.name())),
            Err(refusal) => self.refuse(refusal),
        }
    }
}
