//! Keystrokes and chords.

use crate::fault::Fault;

/// Key names. A key is its place in this table.
const NAMES: [&str; 99] = [
    "a", "b", "c", "d", "e", "f", "g", "h", "i", "j", "k", "l", "m", "n", "o", "p", "q", "r", "s", "t", "u",
    "v", "w", "x", "y", "z", "0", "1", "2", "3", "4", "5", "6", "7", "8", "9", "`", "-", "=", "[", "]", "\\",
    ";", "'", ",", ".", "/", "f1", "f2", "f3", "f4", "f5", "f6", "f7", "f8", "f9", "f10", "f11", "f12",
    "f13", "f14", "f15", "f16", "f17", "f18", "f19", "left", "up", "right", "down", "pageup", "pagedown",
    "end", "home", "tab", "enter", "escape", "space", "backspace", "delete", "pausebreak", "capslock",
    "insert", "numpad0", "numpad1", "numpad2", "numpad3", "numpad4", "numpad5", "numpad6", "numpad7",
    "numpad8", "numpad9", "numpad_multiply", "numpad_add", "numpad_separator", "numpad_subtract",
    "numpad_decimal", "numpad_divide",
];

/// The modifiers as they are spelled before a key, by the bits of a keystroke.
const MODIFIERS: [&str; 16] = [
    "",
    "ctrl+",
    "shift+",
    "ctrl+shift+",
    "alt+",
    "ctrl+alt+",
    "shift+alt+",
    "ctrl+shift+alt+",
    "meta+",
    "ctrl+meta+",
    "shift+meta+",
    "ctrl+shift+meta+",
    "alt+meta+",
    "ctrl+alt+meta+",
    "shift+alt+meta+",
    "ctrl+shift+alt+meta+",
];

const NO_KEY: u8 = u8::MAX;

/// The keys whose names have one character.
const SINGLE: [u8; 256] = {
    let mut table = [NO_KEY; 256];
    let mut key = 0;
    while key < NAMES.len() {
        let name = NAMES[key].as_bytes();
        if name.len() == 1 {
            table[name[0] as usize] = key as u8;
            table[name[0].to_ascii_uppercase() as usize] = key as u8;
        }
        key += 1;
    }
    table
};

/// The other keys by the hash of their names, with linear probing.
const TABLE: [u8; 256] = {
    let mut table = [NO_KEY; 256];
    let mut key = 0;
    while key < NAMES.len() {
        let name = NAMES[key].as_bytes();
        if name.len() > 1 {
            let mut at = hash(name);
            while table[at] != NO_KEY {
                at = (at + 1) % 256;
            }
            table[at] = key as u8;
        }
        key += 1;
    }
    table
};

/// A hash of the length and some characters of a name, in which the case of letters doesn't count. The name has
/// at least two characters.
const fn hash(name: &[u8]) -> usize {
    let length = name.len();
    let (first, second, last) = (name[0] | 0x20, name[1] | 0x20, name[length - 1] | 0x20);
    let hash = first as usize * 3 + second as usize + last as usize * 7 + length * 67;
    hash % 256
}

fn key_named(name: &[u8]) -> Result<u8, Fault> {
    match name {
        [] => Err(Fault::EmptyKey),
        &[byte] if SINGLE[usize::from(byte)] != NO_KEY => Ok(SINGLE[usize::from(byte)]),
        [_] => Err(Fault::UnknownKey),
        _ => {
            let mut at = hash(name);
            loop {
                match TABLE[at] {
                    NO_KEY => return Err(Fault::UnknownKey),
                    key if NAMES[usize::from(key)].as_bytes().eq_ignore_ascii_case(name) => return Ok(key),
                    _ => at = (at + 1) % 256,
                }
            }
        }
    }
}

/// Letters as a number in which their case doesn't count.
const fn letters(letters: [u8; 4]) -> u32 {
    u32::from_le_bytes(letters) | 0x2020_2020
}

const CTRL: u32 = letters(*b"ctrl");
const META: u32 = letters(*b"meta");
const SHIF: u32 = letters(*b"shif");
const ALT: u32 = letters(*b"alt ");
const CMD: u32 = letters(*b"cmd ");
const WIN: u32 = letters(*b"win ");

/// A modifier with the sign after it, at the beginning of a text: its bit and its length.
fn modifier(text: &[u8]) -> Option<(u16, usize)> {
    let (bit, length) = match *text {
        [a, b, c, b'+' | b'-', ..] => match letters([a, b, c, b' ']) {
            ALT => (4, 4),
            CMD | WIN => (8, 4),
            _ => return None,
        },
        [a, b, c, d, b'+' | b'-', ..] => match letters([a, b, c, d]) {
            CTRL => (1, 5),
            META => (8, 5),
            _ => return None,
        },
        [a, b, c, d, b't' | b'T', b'+' | b'-', ..] if letters([a, b, c, d]) == SHIF => (2, 6),
        _ => return None,
    };
    Some((bit, length))
}

/// A key with its modifiers, as a number below `Keystroke::COUNT`.
#[derive(Clone, Copy, PartialEq, Eq)]
pub struct Keystroke(u16);

impl Keystroke {
    pub const COUNT: usize = 16 * 128;

    pub fn parse(text: &[u8]) -> Result<Keystroke, Fault> {
        let (mut bits, mut rest) = (0, text);
        while let Some((bit, length)) = modifier(rest) {
            bits |= bit;
            rest = &rest[length..];
        }
        Ok(Keystroke(bits << 7 | u16::from(key_named(rest)?)))
    }

    fn write_to(self, out: &mut Vec<u8>) {
        out.extend_from_slice(MODIFIERS[usize::from(self.0 >> 7)].as_bytes());
        out.extend_from_slice(NAMES[usize::from(self.0 & 127)].as_bytes());
    }
}

/// Up to four keystrokes, sixteen bits each, the first in the lowest bits. Each is its number plus one.
#[derive(Clone, Copy, PartialEq, Eq, Hash, Default)]
pub struct Chord(u64);

impl Chord {
    pub fn parse(text: &str) -> Result<Chord, Fault> {
        let words = || text.as_bytes().split(|&it| it == b' ').filter(|it| !it.is_empty());
        match words().count() {
            0 => return Err(Fault::EmptyKey),
            1..=4 => {}
            _ => return Err(Fault::TooManySteps),
        }
        words().try_fold(Chord::default(), |chord, word| Ok(chord.then(Keystroke::parse(word)?)))
    }

    pub fn is_empty(self) -> bool {
        self.0 == 0
    }

    pub fn len(self) -> usize {
        (64 - self.0.leading_zeros() as usize + 15) / 16
    }

    /// This chord and one more keystroke; it has at most three.
    pub fn then(self, keystroke: Keystroke) -> Chord {
        Chord(self.0 | u64::from(keystroke.0 + 1) << (16 * self.len()))
    }

    pub fn starts_with(self, other: Chord) -> bool {
        let unused = 64 - 16 * other.len();
        (self.0 ^ other.0) << unused >> unused == 0
    }

    /// The number of the first keystroke. The chord isn't empty.
    pub fn first(self) -> usize {
        (self.0 & 0xffff) as usize - 1
    }

    /// The first two keystrokes, as a number.
    pub fn first_two(self) -> u32 {
        self.0 as u32
    }

    pub fn write_to(self, out: &mut Vec<u8>) {
        let mut left = self.0;
        while left != 0 {
            Keystroke((left & 0xffff) as u16 - 1).write_to(out);
            left >>= 16;
            if left != 0 {
                out.push(b' ');
            }
        }
    }
}
