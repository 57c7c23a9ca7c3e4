//! The instructions of handlers.

use crate::fault::Fault;

#[derive(Clone, Copy, Debug, PartialEq, Eq)]
pub enum Version {
    One,
    Two,
}

/// An instruction. An END has the place after its REPEAT.
#[derive(Clone, Copy, Debug)]
pub enum Instr {
    Return,
    Text(u16),
    Num(u16),
    Truth(bool),
    Arg(u16),
    Drop,
    Dup,
    Swap,
    Add,
    Sub,
    Less,
    Same,
    Not,
    Join,
    Show,
    Size,
    IsTrue,
    Number,
    Jump(u16),
    JumpIfFalse(u16),
    Call(u16),
    Context(u16),
    Before,
    After,
    Repeat(u16),
    End(u16),
}

const INSTRUCTIONS: usize = 10_000;

/// The most blocks that may be open at a place.
pub const OPEN_BLOCKS: usize = 8;

/// The code of a handler from its hexadecimal digits.
pub fn decode(text: &str, version: Version) -> Result<Vec<Instr>, Fault> {
    let bytes = hex::decode(text).map_err(|_| Fault::BadHex)?;
    if bytes.len() % 3 != 0 {
        return Err(Fault::BadLength);
    }
    if bytes.len() / 3 > INSTRUCTIONS {
        return Err(Fault::TooLarge);
    }
    let words = bytes.chunks_exact(3);
    let mut code = Vec::with_capacity(words.len());
    for word in words {
        code.push(instruction(word[0], u16::from_be_bytes([word[1], word[2]]), version)?);
    }
    if version == Version::Two {
        close_blocks(&mut code)?;
    }
    Ok(code)
}

fn instruction(opcode: u8, operand: u16, version: Version) -> Result<Instr, Fault> {
    let instr = match opcode {
        0x01 => return Ok(Instr::Text(operand)),
        0x02 => return Ok(Instr::Num(operand)),
        0x03 if operand > 1 => return Err(Fault::BadOperand),
        0x03 => return Ok(Instr::Truth(operand == 1)),
        0x04 => return Ok(Instr::Arg(operand)),
        0x20 => return Ok(Instr::Jump(operand)),
        0x21 => return Ok(Instr::JumpIfFalse(operand)),
        0x30 => return Ok(Instr::Call(operand)),
        0x40 => return Ok(Instr::Context(operand)),
        0x50 if version == Version::Two && operand == 0 => return Err(Fault::BadOperand),
        0x50 if version == Version::Two => return Ok(Instr::Repeat(operand)),
        0x00 => Instr::Return,
        0x05 => Instr::Drop,
        0x06 => Instr::Dup,
        0x07 => Instr::Swap,
        0x10 => Instr::Add,
        0x11 => Instr::Sub,
        0x12 => Instr::Less,
        0x13 => Instr::Same,
        0x14 => Instr::Not,
        0x15 => Instr::Join,
        0x16 => Instr::Show,
        0x17 => Instr::Size,
        0x18 => Instr::IsTrue,
        0x19 => Instr::Number,
        0x42 => Instr::Before,
        0x43 => Instr::After,
        0x51 if version == Version::Two => Instr::End(0),
        _ => return Err(Fault::BadOpcode),
    };
    if operand == 0 {
        Ok(instr)
    } else {
        Err(Fault::BadOperand)
    }
}

/// Gives each END the place after its REPEAT.
fn close_blocks(code: &mut [Instr]) -> Result<(), Fault> {
    let mut open = Vec::new();
    for (at, instr) in code.iter_mut().enumerate() {
        match instr {
            Instr::Repeat(_) if open.len() == OPEN_BLOCKS => return Err(Fault::BadBlock),
            Instr::Repeat(_) => open.push(at as u16 + 1),
            Instr::End(start) => *start = open.pop().ok_or(Fault::BadBlock)?,
            Instr::Return if !open.is_empty() => return Err(Fault::BadBlock),
            _ => {}
        }
    }
    if open.is_empty() {
        Ok(())
    } else {
        Err(Fault::BadBlock)
    }
}
