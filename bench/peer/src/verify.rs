//! The verifier: one pass over the places for the kinds on the stack, and one from the end for the costs.

use rustc_hash::FxHashMap;

use crate::arguments::Kind;
use crate::code::Instr;
use crate::fault::Fault;
use crate::handlers::Handler;

/// What a handler may call, by command.
pub type Callable = FxHashMap<u32, Callee>;

/// What is declared of a command.
#[derive(Clone)]
pub struct Callee {
    pub params: Vec<Kind>,
    pub budget: u32,
    pub depth: u32,
}

/// The most values on the stack.
const STACK: u32 = 64;

/// The kinds of the values on the stack, two bits each, the top in the lowest bits.
#[derive(Clone, Copy, PartialEq, Eq)]
struct Shape {
    kinds: u128,
    height: u32,
}

impl Shape {
    const EMPTY: Shape = Shape { kinds: 0, height: 0 };

    /// The kind of a value, counted from the top. The stack has more values.
    fn kind(self, from_top: u32) -> Kind {
        match (self.kinds >> (2 * from_top)) & 3 {
            0 => Kind::Text,
            1 => Kind::Number,
            2 => Kind::Truth,
            _ => Kind::Any,
        }
    }

    /// One too many isn't kept, but counted.
    fn push(self, kind: Kind) -> Shape {
        Shape { kinds: self.kinds << 2 | kind as u128, height: self.height + 1 }
    }

    fn drop(self, count: u32) -> Shape {
        let kinds = if count < STACK { self.kinds >> (2 * count) } else { 0 };
        Shape { kinds, height: self.height - count }
    }

    /// Takes values of these kinds, the last on top.
    fn take(self, kinds: &[Kind], wrong: Fault) -> Result<Shape, Fault> {
        let count = kinds.len() as u32;
        if self.height < count {
            return Err(Fault::MissingOperand);
        }
        let fits = |(from_top, wanted): (u32, &Kind)| *wanted == Kind::Any || *wanted == self.kind(from_top);
        if !(0..).zip(kinds.iter().rev()).all(fits) {
            return Err(wrong);
        }
        Ok(self.drop(count))
    }
}

/// What is known of a place.
#[derive(Clone, Copy, PartialEq, Eq)]
enum Known {
    Unreached,
    Reached(Shape),
    Differs,
}

/// Where an instruction goes on, with the kinds on the stack there.
struct Exits {
    shape: Shape,
    falls_through: bool,
    jump: Option<u16>,
}

struct Verifier<'v> {
    handler: &'v Handler,
    calls: Vec<Option<&'v Callee>>,
    places: Vec<Known>,
    /// The place after the REPEAT of each place's block, 0 outside of blocks.
    blocks: Vec<u16>,
}

/// Checks a handler, and gives the commands that its reachable places call; or the fault with its place.
pub fn verify(handler: &Handler, callable: &Callable) -> Result<Vec<u32>, (Fault, usize)> {
    if handler.code.is_empty() {
        return Err((Fault::FallsOff, 0));
    }
    let mut verifier = Verifier {
        handler,
        calls: handler.calls.iter().map(|it| callable.get(it)).collect(),
        places: vec![Known::Unreached; handler.code.len()],
        blocks: blocks(&handler.code),
    };
    verifier.places[0] = Known::Reached(Shape::EMPTY);
    for place in 0..handler.code.len() {
        verifier.check(place).map_err(|fault| (fault, place))?;
    }
    if verifier.cost() > u64::from(handler.signature.budget) {
        return Err((Fault::OverBudget, 0));
    }
    verifier.callees()
}

/// The place after the REPEAT of each place's block. An END is in its block, and a REPEAT isn't.
fn blocks(code: &[Instr]) -> Vec<u16> {
    let (mut open, mut blocks) = (vec![0], Vec::with_capacity(code.len()));
    for (at, instr) in code.iter().enumerate() {
        blocks.push(open.last().copied().unwrap_or(0));
        match instr {
            Instr::Repeat(_) => open.push(at as u16 + 1),
            Instr::End(_) => {
                open.pop();
            }
            _ => {}
        }
    }
    blocks
}

impl Verifier<'_> {
    fn check(&mut self, place: usize) -> Result<(), Fault> {
        let shape = match self.places[place] {
            Known::Unreached => return Ok(()),
            Known::Differs => return Err(Fault::ShapesDiffer),
            Known::Reached(shape) => shape,
        };
        let instr = self.handler.code[place];
        if let Instr::End(start) = instr {
            if self.places[usize::from(start)] != Known::Reached(shape) {
                return Err(Fault::ShapesDiffer);
            }
        }
        let exits = self.exits(instr, shape)?;
        if let Some(target) = exits.jump {
            let target = usize::from(target);
            if target <= place || self.blocks.get(target) != Some(&self.blocks[place]) {
                return Err(Fault::BadJump);
            }
        }
        if exits.falls_through && place + 1 == self.handler.code.len() {
            return Err(Fault::FallsOff);
        }
        if exits.shape.height > STACK {
            return Err(Fault::TooHigh);
        }
        if let Some(target) = exits.jump {
            self.reach(usize::from(target), exits.shape);
        }
        if exits.falls_through {
            self.reach(place + 1, exits.shape);
        }
        Ok(())
    }

    fn reach(&mut self, place: usize, shape: Shape) {
        let known = &mut self.places[place];
        *known = match *known {
            Known::Unreached => Known::Reached(shape),
            Known::Reached(before) if before == shape => Known::Reached(shape),
            _ => Known::Differs,
        };
    }

    fn exits(&self, instr: Instr, shape: Shape) -> Result<Exits, Fault> {
        use Kind::{Any, Number, Text, Truth};
        let next = |shape| Ok(Exits { shape, falls_through: true, jump: None });
        let take = |kinds: &[Kind]| shape.take(kinds, Fault::WrongOperand);
        match instr {
            Instr::Return => Ok(Exits { shape, falls_through: false, jump: None }),
            Instr::Text(at) => next(self.text(at).map(|()| shape.push(Text))?),
            Instr::Context(at) => next(self.text(at).map(|()| shape.push(Any))?),
            Instr::Arg(at) => {
                let param = self.handler.signature.params.get(usize::from(at));
                next(shape.push(param.ok_or(Fault::WrongOperand)?.kind))
            }
            Instr::Num(_) | Instr::Before | Instr::After => next(shape.push(Number)),
            Instr::Truth(_) => next(shape.push(Truth)),
            Instr::Drop => next(take(&[Any])?),
            Instr::Dup => next(take(&[Any]).map(|_| shape.push(shape.kind(0)))?),
            Instr::Swap => next(take(&[Any, Any])?.push(shape.kind(0)).push(shape.kind(1))),
            Instr::Add | Instr::Sub => next(take(&[Number, Number])?.push(Number)),
            Instr::Less => next(take(&[Number, Number])?.push(Truth)),
            Instr::Same => next(take(&[Any, Any])?.push(Truth)),
            Instr::Not => next(take(&[Truth])?.push(Truth)),
            Instr::Join => next(take(&[Text, Text])?.push(Text)),
            Instr::Show => next(take(&[Any])?.push(Text)),
            Instr::Size => next(take(&[Text])?.push(Number)),
            Instr::IsTrue => next(take(&[Any])?.push(Truth)),
            Instr::Number => next(take(&[Any])?.push(Number)),
            Instr::Jump(target) => Ok(Exits { shape, falls_through: false, jump: Some(target) }),
            Instr::JumpIfFalse(target) => {
                Ok(Exits { shape: take(&[Truth])?, falls_through: true, jump: Some(target) })
            }
            Instr::Call(at) => {
                let callee = self.callee(at).ok_or(Fault::UnknownCommand)?;
                next(shape.take(&callee.params, Fault::WrongArgument)?)
            }
            Instr::Repeat(_) | Instr::End(_) => next(shape),
        }
    }

    fn text(&self, at: u16) -> Result<(), Fault> {
        self.handler.texts.get(usize::from(at)).map(|_| ()).ok_or(Fault::WrongOperand)
    }

    fn callee(&self, at: u16) -> Option<&Callee> {
        self.calls.get(usize::from(at)).copied().flatten()
    }

    fn is_reached(&self, place: usize) -> bool {
        self.places[place] != Known::Unreached
    }

    /// The cost of the most expensive path. Inside a block costs are those to the end of a turn.
    fn cost(&self) -> u64 {
        let code = &self.handler.code;
        let mut costs = vec![0u64; code.len() + 1];
        let mut ends = Vec::new();
        for (place, instr) in code.iter().enumerate().rev() {
            if let Instr::End(_) = instr {
                ends.push(place);
            }
            let end = if let Instr::Repeat(_) = instr { ends.pop() } else { None };
            if !self.is_reached(place) {
                continue;
            }
            let rest = match *instr {
                Instr::Return | Instr::End(_) => 0,
                Instr::Jump(target) => costs[usize::from(target)],
                Instr::JumpIfFalse(target) => costs[place + 1].max(costs[usize::from(target)]),
                Instr::Call(at) => {
                    let budget = self.callee(at).map_or(0, |it| u64::from(it.budget));
                    costs[place + 1].saturating_add(budget)
                }
                Instr::Repeat(turns) => {
                    let after = end.map_or(0, |it| costs[it + 1]);
                    costs[place + 1].saturating_mul(u64::from(turns)).saturating_add(after)
                }
                _ => costs[place + 1],
            };
            costs[place] = rest.saturating_add(1);
        }
        costs[0]
    }

    /// The commands that reachable places call, if each nests less deep than the handler.
    fn callees(&self) -> Result<Vec<u32>, (Fault, usize)> {
        let mut callees = Vec::new();
        for (place, instr) in self.handler.code.iter().enumerate() {
            let Instr::Call(at) = *instr else { continue };
            let Some(callee) = self.callee(at).filter(|_| self.is_reached(place)) else { continue };
            if callee.depth >= self.handler.signature.depth {
                return Err((Fault::OverDepth, place));
            }
            callees.push(self.handler.calls[usize::from(at)]);
        }
        Ok(callees)
    }
}
