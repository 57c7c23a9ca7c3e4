//! The machine, which runs verified handlers. They need neither an allowance nor checks.

use crate::arguments::Arg;
use crate::code::{Instr, OPEN_BLOCKS};
use crate::commands::{Commands, Target};
use crate::context::ContextValue;
use crate::handlers::Handler;
use crate::names::Names;
use crate::native::Core;
use crate::trace;

/// A value on the stack.
#[derive(Clone, Copy)]
enum Operand {
    Number(i64),
    Truth(bool),
    /// A text that was made during the run, in `Machine::made`.
    Made(Span),
    /// A text of the running handler.
    Constant(u16),
}

#[derive(Clone, Copy)]
struct Span {
    start: u32,
    length: u32,
}

impl Span {
    fn new(start: usize, end: usize) -> Span {
        let within = |it: usize| u32::try_from(it).expect("texts of a run have less than 4 GB");
        Span { start: within(start), length: within(end - start) }
    }

    fn start(self) -> usize {
        self.start as usize
    }

    fn end(self) -> usize {
        self.start as usize + self.length as usize
    }
}

/// Places of a frame: its arguments and at most 64 values, rounded up so that an index needs no check.
const FRAME: usize = 128;

/// Texts that no operand has are dropped when so many bytes were made.
const GARBAGE: usize = 1 << 20;

/// What the verifier has refused can't happen.
const VERIFIED: &str = "verified code has the operands that it takes";

pub struct Machine<'m> {
    commands: &'m Commands,
    names: &'m Names,
    core: Core<'m>,
    out: &'m mut Vec<u8>,
    /// The arguments and values of all frames. The arguments of a callee are its caller's topmost values.
    stack: Vec<Operand>,
    made: String,
    garbage: usize,
}

/// What a frame keeps beside its values.
#[derive(Default)]
struct Position {
    place: usize,
    /// The number of values, with the arguments.
    top: usize,
    turns: [u16; OPEN_BLOCKS],
    open: usize,
}

impl<'m> Machine<'m> {
    pub fn new(
        commands: &'m Commands,
        names: &'m Names,
        core: Core<'m>,
        out: &'m mut Vec<u8>,
    ) -> Machine<'m> {
        let stack = vec![Operand::Number(0); FRAME];
        Machine { commands, names, core, out, stack, made: String::new(), garbage: GARBAGE }
    }

    /// Runs a handler with these arguments.
    pub fn start(mut self, handler: &Handler, args: &[Arg]) {
        for (at, arg) in args.iter().enumerate() {
            self.stack[at] = match *arg {
                Arg::Text(text) => self.keep(text),
                Arg::Number(number) => Operand::Number(number),
                Arg::Truth(truth) => Operand::Truth(truth),
            };
        }
        self.run(handler, 0);
    }

    /// Runs a handler whose frame begins at `base`, with its arguments.
    fn run(&mut self, handler: &Handler, base: usize) {
        if self.stack.len() < base + FRAME {
            self.stack.resize(base + FRAME, Operand::Number(0));
        }
        let mut position = Position { top: handler.signature.params.len(), ..Position::default() };
        loop {
            let frame = (&mut self.stack[base..base + FRAME]).try_into().expect("a frame has this size");
            match run_in_frame(&handler.code, frame, &mut position) {
                Instr::Return => return,
                Instr::Call(at) => {
                    position.top = self.call(handler, handler.calls[usize::from(at)], base, position.top);
                }
                other => position.top = self.perform(other, handler, base, position.top),
            }
        }
    }

    /// Calls a command, whose arguments are the topmost values: how many values are left.
    fn call(&mut self, caller: &Handler, command: u32, base: usize, top: usize) -> usize {
        let target = self.commands.live(command).expect("what verified code calls is live");
        let count = match target {
            Target::Native(native) => native.params().len(),
            Target::Handler(handler) => handler.signature.params.len(),
        };
        let first = base + top - count;
        self.write_call(caller, command, first..base + top);
        match target {
            Target::Handler(handler) => {
                for at in first..first + count {
                    if let Operand::Constant(text) = self.stack[at] {
                        self.stack[at] = self.keep(&caller.texts[usize::from(text)]);
                    }
                }
                self.run(handler, first);
            }
            Target::Native(native) => {
                let arg = |at: usize| arg_of(&self.made, caller, self.stack[first + at]);
                match count {
                    0 => native.run(&[], &mut self.core),
                    1 => native.run(&[arg(0)], &mut self.core),
                    _ => native.run(&[arg(0), arg(1)], &mut self.core),
                }
            }
        }
        top - count
    }

    fn write_call(&mut self, caller: &Handler, command: u32, args: std::ops::Range<usize>) {
        self.out.extend_from_slice(b"call ");
        self.out.extend_from_slice(self.names.text(command).as_bytes());
        self.out.extend_from_slice(b" [");
        for (at, operand) in self.stack[args].iter().enumerate() {
            if at > 0 {
                self.out.push(b',');
            }
            match arg_of(&self.made, caller, *operand) {
                Arg::Text(text) => trace::json_string(self.out, text.as_bytes()),
                Arg::Number(number) => trace::number(self.out, number),
                Arg::Truth(true) => self.out.extend_from_slice(b"true"),
                Arg::Truth(false) => self.out.extend_from_slice(b"false"),
            }
        }
        self.out.extend_from_slice(b"]\n");
    }

    /// An instruction that needs more than its frame: how many values there are then.
    fn perform(&mut self, instr: Instr, handler: &Handler, base: usize, top: usize) -> usize {
        if self.made.len() > self.garbage {
            self.drop_garbage(base + top);
        }
        let count = match instr {
            Instr::Context(_) | Instr::Before | Instr::After => 0,
            Instr::Same | Instr::Join => 2,
            _ => 1,
        };
        let first = base + top - count;
        let (one, other) = (self.stack[first], self.stack[first + 1]);
        let value = |operand| arg_of(&self.made, handler, operand);
        self.stack[first] = match instr {
            Instr::Join => self.joined(handler, one, other),
            Instr::Show => match one {
                Operand::Number(number) => self.keep(itoa::Buffer::new().format(number)),
                Operand::Truth(truth) => self.keep(if truth { "true" } else { "false" }),
                text => text,
            },
            Instr::Context(at) => match self.core.scopes.get(handler.keys[usize::from(at)]) {
                None => Operand::Truth(false),
                Some(ContextValue::Truth(truth)) => Operand::Truth(*truth),
                Some(ContextValue::Number(number)) => Operand::Number(*number),
                Some(ContextValue::Members(_)) => Operand::Truth(true),
                Some(ContextValue::Text(text)) => keep(&mut self.made, text),
            },
            Instr::Same => Operand::Truth(value(one) == value(other)),
            Instr::Size => Operand::Number(match value(one) {
                Arg::Text(text) => text.chars().count() as i64,
                _ => unreachable!("{VERIFIED}"),
            }),
            Instr::IsTrue => Operand::Truth(match value(one) {
                Arg::Text(text) => !text.is_empty(),
                Arg::Number(number) => number != 0,
                Arg::Truth(truth) => truth,
            }),
            Instr::Number => match one {
                Operand::Number(_) => one,
                _ => Operand::Number(0),
            },
            Instr::Before => Operand::Number(self.core.buffer.chars_before()),
            Instr::After => Operand::Number(self.core.buffer.chars_after()),
            _ => unreachable!("a frame runs all other instructions"),
        };
        top - count + 1
    }

    fn keep(&mut self, text: &str) -> Operand {
        keep(&mut self.made, text)
    }

    /// A text followed by another. If the first was made last, the second is added behind it.
    fn joined(&mut self, handler: &Handler, first: Operand, second: Operand) -> Operand {
        let start = match first {
            Operand::Made(span) if span.end() == self.made.len() => span.start(),
            _ => {
                let start = self.made.len();
                self.add(handler, first);
                start
            }
        };
        self.add(handler, second);
        Operand::Made(Span::new(start, self.made.len()))
    }

    fn add(&mut self, handler: &Handler, text: Operand) {
        match text {
            Operand::Made(span) => self.made.extend_from_within(span.start()..span.end()),
            Operand::Constant(at) => self.made.push_str(&handler.texts[usize::from(at)]),
            _ => unreachable!("{VERIFIED}"),
        }
    }

    /// Drops the texts that none of the first operands has.
    fn drop_garbage(&mut self, top: usize) {
        let mut live: Vec<(usize, usize)> = Vec::new();
        for operand in &self.stack[..top] {
            if let Operand::Made(span) = operand {
                live.push((span.start(), span.end()));
            }
        }
        live.sort_unstable();
        // Ranges of the old text that don't overlap, each with its place in the new one.
        let (mut ranges, mut kept): (Vec<(usize, usize, usize)>, _) = (Vec::new(), String::new());
        for (start, end) in live {
            let from = match ranges.last_mut() {
                Some(last) if start <= last.1 => {
                    let from = last.1;
                    last.1 = from.max(end);
                    from
                }
                _ => {
                    ranges.push((start, end, kept.len()));
                    start
                }
            };
            if from < end {
                kept.push_str(&self.made[from..end]);
            }
        }
        for operand in &mut self.stack[..top] {
            if let Operand::Made(span) = operand {
                let range = ranges[ranges.partition_point(|it| it.0 <= span.start()) - 1];
                let start = range.2 + span.start() - range.0;
                *span = Span::new(start, start + span.end() - span.start());
            }
        }
        self.made = kept;
        self.garbage = GARBAGE.max(2 * self.made.len());
    }
}

fn keep(made: &mut String, text: &str) -> Operand {
    let start = made.len();
    made.push_str(text);
    Operand::Made(Span::new(start, made.len()))
}

fn arg_of<'a>(made: &'a str, handler: &'a Handler, operand: Operand) -> Arg<'a> {
    match operand {
        Operand::Number(number) => Arg::Number(number),
        Operand::Truth(truth) => Arg::Truth(truth),
        Operand::Made(span) => Arg::Text(&made[span.start()..span.end()]),
        Operand::Constant(at) => Arg::Text(&handler.texts[usize::from(at)]),
    }
}

/// Runs instructions up to the first that needs more than the frame, and gives that one.
fn run_in_frame(code: &[Instr], frame: &mut [Operand; FRAME], position: &mut Position) -> Instr {
    let Position { mut place, mut top, .. } = *position;
    let needs_more = loop {
        let instr = code[place];
        place += 1;
        match instr {
            Instr::Num(number) => {
                frame[top % FRAME] = Operand::Number(i64::from(number));
                top += 1;
            }
            Instr::Truth(truth) => {
                frame[top % FRAME] = Operand::Truth(truth);
                top += 1;
            }
            Instr::Text(at) => {
                frame[top % FRAME] = Operand::Constant(at);
                top += 1;
            }
            Instr::Arg(at) => {
                frame[top % FRAME] = frame[usize::from(at) % FRAME];
                top += 1;
            }
            Instr::Drop => top -= 1,
            Instr::Dup => {
                frame[top % FRAME] = frame[(top - 1) % FRAME];
                top += 1;
            }
            Instr::Swap => frame.swap((top - 1) % FRAME, (top - 2) % FRAME),
            Instr::Add => {
                let (x, y) = numbers(frame, top);
                top -= 1;
                frame[(top - 1) % FRAME] = Operand::Number(x.saturating_add(y));
            }
            Instr::Sub => {
                let (x, y) = numbers(frame, top);
                top -= 1;
                frame[(top - 1) % FRAME] = Operand::Number(x.saturating_sub(y));
            }
            Instr::Less => {
                let (x, y) = numbers(frame, top);
                top -= 1;
                frame[(top - 1) % FRAME] = Operand::Truth(x < y);
            }
            Instr::Not => {
                let negated = !truth(frame, top);
                frame[(top - 1) % FRAME] = Operand::Truth(negated);
            }
            Instr::Jump(target) => place = usize::from(target),
            Instr::JumpIfFalse(target) => {
                if !truth(frame, top) {
                    place = usize::from(target);
                }
                top -= 1;
            }
            Instr::Repeat(turns) => {
                position.turns[position.open % OPEN_BLOCKS] = turns;
                position.open += 1;
            }
            Instr::End(start) => {
                let left = &mut position.turns[(position.open - 1) % OPEN_BLOCKS];
                *left -= 1;
                if *left > 0 {
                    place = usize::from(start);
                } else {
                    position.open -= 1;
                }
            }
            other => break other,
        }
    };
    position.place = place;
    position.top = top;
    needs_more
}

/// The two topmost values.
#[inline(always)]
fn numbers(frame: &[Operand; FRAME], top: usize) -> (i64, i64) {
    match (frame[(top - 2) % FRAME], frame[(top - 1) % FRAME]) {
        (Operand::Number(x), Operand::Number(y)) => (x, y),
        _ => unreachable!("{VERIFIED}"),
    }
}

/// The topmost value.
#[inline(always)]
fn truth(frame: &[Operand; FRAME], top: usize) -> bool {
    match frame[(top - 1) % FRAME] {
        Operand::Truth(truth) => truth,
        _ => unreachable!("{VERIFIED}"),
    }
}
