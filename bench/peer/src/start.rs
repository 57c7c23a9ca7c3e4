//! Starts of commands, with their trace lines.

use crate::arguments::{part_for, Arg, Kind, Value};
use crate::commands::{Commands, Target, RUN_COMMANDS};
use crate::handlers::{Handler, Param};
use crate::machine::Machine;
use crate::names::Names;
use crate::native::{Core, Native};
use crate::trace;

/// The most commands of `runCommands`.
const COMMANDS: usize = 32;

pub struct Starter<'s> {
    pub commands: &'s Commands,
    pub names: &'s Names,
    pub core: Core<'s>,
    pub out: &'s mut Vec<u8>,
}

impl Starter<'_> {
    /// Starts a command with the arguments of a rule.
    pub fn start(&mut self, command: u32, args: Option<&Value>) {
        if command == RUN_COMMANDS {
            self.run_commands(args);
        } else {
            self.start_one(Some(command), self.names.text(command), args);
        }
    }

    fn run_commands(&mut self, args: Option<&Value>) {
        let Some(list) = args.and_then(command_list) else {
            trace::line(self.out, &["bad arguments runCommands"]);
            return;
        };
        for (name, args) in list {
            trace::line(self.out, &["run ", name]);
            if !self.start_one(self.names.find(name), name, args) {
                break;
            }
        }
    }

    /// Whether the command was found, and its arguments fit.
    fn start_one(&mut self, command: Option<u32>, name: &str, args: Option<&Value>) -> bool {
        let Some(target) = command.and_then(|it| self.commands.live(it)) else {
            trace::line(self.out, &["not found ", name]);
            return false;
        };
        let ran = match target {
            Target::Native(native) => self.run_native(native, args),
            Target::Handler(handler) => self.run_handler(handler, args),
        };
        if ran.is_none() {
            trace::line(self.out, &["bad arguments ", name]);
            return false;
        }
        self.out.extend_from_slice(b"done ");
        self.core.buffer.write_to(self.out);
        self.out.push(b'\n');
        true
    }

    /// `None` if the arguments don't fit.
    fn run_native(&mut self, native: Native, args: Option<&Value>) -> Option<()> {
        match native.params() {
            [] => native.run(&[], &mut self.core),
            [one] => native.run(&[read_arg(args, one.0, one.1, 1)?], &mut self.core),
            params => {
                let read = |at: usize| read_arg(args, params[at].0, params[at].1, params.len());
                native.run(&[read(0)?, read(1)?], &mut self.core);
            }
        }
        Some(())
    }

    fn run_handler(&mut self, handler: &Handler, args: Option<&Value>) -> Option<()> {
        let params = &handler.signature.params;
        let read = |it: &Param| read_arg(args, &it.name, it.kind, params.len());
        let args: Vec<Arg> = params.iter().map(read).collect::<Option<_>>()?;
        let Core { buffer, scopes, keys } = &mut self.core;
        let core = Core { buffer, scopes, keys };
        Machine::new(self.commands, self.names, core, self.out).start(handler, &args);
        Some(())
    }
}

fn read_arg<'a>(args: Option<&'a Value>, name: &str, kind: Kind, params: usize) -> Option<Arg<'a>> {
    kind.read(part_for(args, name, params)?)
}

/// The commands of `runCommands` with their arguments. `None` if the arguments have another shape.
fn command_list(args: &Value) -> Option<Vec<(&str, Option<&Value>)>> {
    let Value::List(list) = args.member("commands")? else { return None };
    if list.len() > COMMANDS {
        return None;
    }
    let element = |it| match it {
        &Value::Text(ref name) => Some((&**name, None)),
        object => match object.member("command")? {
            Value::Text(name) => Some((&**name, object.member("args"))),
            _ => None,
        },
    };
    let list = list.iter().map(element).collect::<Option<Vec<_>>>()?;
    list.iter().all(|it| it.0 != "runCommands").then_some(list)
}
