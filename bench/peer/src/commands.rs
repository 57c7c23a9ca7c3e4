//! The commands that are live: closures of native commands with their tickets, and handlers.

use rustc_hash::FxHashMap;

use crate::fault::{Fault, Refusal};
use crate::handlers::Handler;
use crate::names::Names;
use crate::native::Native;
use crate::verify::{Callable, Callee};

/// How many registrations a session may have.
const REGISTRATIONS: u64 = 1_000_000;

/// The number of `runCommands`, after those of the native commands.
pub const RUN_COMMANDS: u32 = Native::ALL.len() as u32;

/// The table of names, which begins with the native commands and `runCommands`.
pub fn names() -> Names {
    let mut names = Names::default();
    for native in Native::ALL {
        names.add(native.name());
    }
    names.add("runCommands");
    names
}

/// What a command is.
#[derive(Clone, Copy)]
pub enum Target<'c> {
    Native(Native),
    Handler(&'c Handler),
}

/// What a program registers. All closures of a native command do the same, so that they are only counted.
pub struct Commands {
    /// The handlers of each extension.
    pub handlers: Vec<Vec<Handler>>,
    pub is_enabled: Vec<bool>,
    /// The extension of a handler's command, and the place in its file.
    places: FxHashMap<u32, (usize, usize)>,
    tickets: [Option<u64>; Native::ALL.len()],
    spare: [u32; Native::ALL.len()],
    registered: u64,
}

impl Commands {
    /// Each native command has a closure, and a spare one.
    pub fn new() -> Commands {
        let mut next = 0;
        let tickets = Native::ALL.map(|_| {
            next += 1;
            Some(next)
        });
        Commands {
            handlers: Vec::new(),
            is_enabled: Vec::new(),
            places: FxHashMap::default(),
            tickets,
            spare: [1; Native::ALL.len()],
            registered: next,
        }
    }

    pub fn native(command: u32) -> Option<Native> {
        Native::ALL.get(command as usize).copied()
    }

    pub fn is_registered(&self, native: Native) -> bool {
        self.tickets[native as usize].is_some()
    }

    /// The live command with this number.
    pub fn live(&self, command: u32) -> Option<Target<'_>> {
        if let Some(native) = Commands::native(command) {
            return self.is_registered(native).then_some(Target::Native(native));
        }
        let &(extension, at) = self.places.get(&command)?;
        self.is_enabled[extension].then(|| Target::Handler(&self.handlers[extension][at]))
    }

    /// Puts the verified handlers of an extension in the place of those that it had.
    pub fn put(&mut self, extension: usize, handlers: Vec<Handler>) {
        for (at, handler) in handlers.iter().enumerate() {
            self.places.insert(handler.command, (extension, at));
        }
        self.handlers[extension] = handlers;
    }

    /// Whether a handler can't have this name.
    pub fn is_taken(&self, command: u32) -> bool {
        command <= RUN_COMMANDS || self.places.contains_key(&command)
    }

    /// What the handlers of an extension may call: the registered native commands, the handlers of those that
    /// it depends on, and its own.
    pub fn callable(&self, dependencies: &[usize], own: &[Handler]) -> Callable {
        let mut callable = Callable::default();
        for (command, native) in (0..).zip(Native::ALL) {
            if self.is_registered(native) {
                let params = native.params().iter().map(|it| it.1).collect();
                callable.insert(command, Callee { params, budget: native.budget(), depth: 0 });
            }
        }
        let mut order = dependencies.to_vec();
        order.sort_unstable();
        for handler in order.iter().flat_map(|it| &self.handlers[*it]).chain(own) {
            callable.entry(handler.command).or_insert_with(|| Callee {
                params: handler.signature.params.iter().map(|it| it.kind).collect(),
                budget: handler.signature.budget,
                depth: handler.signature.depth,
            });
        }
        callable
    }

    /// Registers a spare closure, and gives its ticket.
    pub fn register(&mut self, native: Native) -> Result<u64, Fault> {
        let at = native as usize;
        if self.spare[at] == 0 {
            return Err(Fault::NoClosure);
        }
        if self.tickets[at].is_some() {
            return Err(Fault::AlreadyExists);
        }
        if self.registered == REGISTRATIONS {
            return Err(Fault::Exhausted);
        }
        self.spare[at] -= 1;
        self.registered += 1;
        self.tickets[at] = Some(self.registered);
        Ok(self.registered)
    }

    pub fn dispose(&mut self, ticket: u64, names: &Names) -> Result<Native, Refusal> {
        let registered = self.tickets.iter().position(|it| *it == Some(ticket)).ok_or(Fault::StaleTicket)?;
        let command = registered as u32;
        let live = (0..self.handlers.len()).filter(|it| self.is_enabled[*it]);
        let caller = live.flat_map(|it| &self.handlers[it]).find(|it| it.callees.contains(&command));
        if let Some(caller) = caller {
            return Err(Refusal::naming(Fault::InUse, names.text(caller.command)));
        }
        self.tickets[registered] = None;
        self.spare[registered] += 1;
        Ok(Native::ALL[registered])
    }

    /// The first native command without a closure that the handlers of an extension call.
    pub fn missing_native(&self, extension: usize) -> Option<Native> {
        let callees = self.handlers[extension].iter().flat_map(|it| &it.callees);
        callees.filter_map(|it| Commands::native(*it)).find(|it| !self.is_registered(*it))
    }
}
