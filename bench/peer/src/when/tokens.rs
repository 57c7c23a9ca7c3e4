//! The tokens of a clause.

use std::borrow::Cow;

use crate::fault::Fault;
use crate::jsonc::is_blank;

#[derive(Clone, Copy, PartialEq, Eq, Hash)]
pub enum Order {
    Less,
    LessOrEqual,
    Greater,
    GreaterOrEqual,
}

/// The flags of a pattern that count.
#[derive(Clone, Copy, PartialEq, Eq, Hash, Default)]
pub struct Flags {
    pub ignores_case: bool,
    pub is_multi_line: bool,
    pub dot_is_any: bool,
}

pub enum Token<'a> {
    Word(&'a str),
    Quoted(&'a str),
    Pattern(Cow<'a, str>, Flags),
    Compare(Order),
    Equal,
    Unequal,
    Matches,
    And,
    Or,
    Not,
    Open,
    Close,
}

fn ends_word(byte: u8) -> bool {
    is_blank(byte) || matches!(byte, b'(' | b')' | b'\'' | b'!' | b'=' | b'&' | b'|')
}

/// All tokens of a text, which are read before the grammar is asked.
pub fn tokens(text: &str) -> Result<Vec<Token<'_>>, Fault> {
    let bytes = text.as_bytes();
    let (mut tokens, mut at) = (Vec::new(), 0);
    while at < bytes.len() {
        if is_blank(bytes[at]) {
            at += 1;
            continue;
        }
        let is_pattern = bytes[at] == b'/' && matches!(tokens.last(), Some(Token::Matches));
        let (token, length) = if is_pattern { pattern(&text[at..])? } else { token(text, at)? };
        tokens.push(token);
        at += length;
    }
    Ok(tokens)
}

/// The token at a place that isn't blank, with its length.
fn token(text: &str, at: usize) -> Result<(Token<'_>, usize), Fault> {
    let bytes = text.as_bytes();
    if let Some(found) = comparison(bytes, at) {
        return Ok(found);
    }
    let rest = &bytes[at..];
    if let Some(found) = sign(rest) {
        return Ok(found);
    }
    if rest[0] == b'\'' {
        let length = memchr::memchr(b'\'', &rest[1..]).ok_or(Fault::BadToken)?;
        return Ok((Token::Quoted(&text[at + 1..at + 1 + length]), length + 2));
    }
    match rest.iter().position(|&it| ends_word(it)).unwrap_or(rest.len()) {
        0 => Err(Fault::BadToken),
        length => Ok((Token::Word(&text[at..at + length]), length)),
    }
}

/// A comparison needs white space on both sides.
fn comparison(bytes: &[u8], at: usize) -> Option<(Token<'static>, usize)> {
    let (order, length) = match (bytes[at], bytes.get(at + 1)) {
        (b'<', Some(b'=')) => (Order::LessOrEqual, 2),
        (b'>', Some(b'=')) => (Order::GreaterOrEqual, 2),
        (b'<', _) => (Order::Less, 1),
        (b'>', _) => (Order::Greater, 1),
        _ => return None,
    };
    let before = at.checked_sub(1).map(|it| bytes[it]);
    let is_apart = |byte: Option<u8>| byte.map_or(false, is_blank);
    let found = is_apart(before) && is_apart(bytes.get(at + length).copied());
    found.then_some((Token::Compare(order), length))
}

fn sign(rest: &[u8]) -> Option<(Token<'static>, usize)> {
    Some(match rest {
        [b'=', b'=', b'=', ..] => (Token::Equal, 3),
        [b'!', b'=', b'=', ..] => (Token::Unequal, 3),
        [b'=', b'=', ..] => (Token::Equal, 2),
        [b'!', b'=', ..] => (Token::Unequal, 2),
        [b'=', b'~', ..] => (Token::Matches, 2),
        [b'&', b'&', ..] => (Token::And, 2),
        [b'|', b'|', ..] => (Token::Or, 2),
        [b'!', ..] => (Token::Not, 1),
        [b'(', ..] => (Token::Open, 1),
        [b')', ..] => (Token::Close, 1),
        _ => return None,
    })
}

/// A pattern between two `/`, with its flags.
fn pattern(text: &str) -> Result<(Token<'_>, usize), Fault> {
    let end = pattern_end(text.as_bytes()).ok_or(Fault::BadToken)?;
    let letters = text[end + 1..].bytes().take_while(u8::is_ascii_alphabetic).count();
    let mut flags = Flags::default();
    for letter in text[end + 1..end + 1 + letters].bytes() {
        match letter {
            b'i' => flags.ignores_case = true,
            b'm' => flags.is_multi_line = true,
            b's' => flags.dot_is_any = true,
            _ => {}
        }
    }
    Ok((Token::Pattern(without_escapes(&text[1..end]), flags), end + 1 + letters))
}

/// The place of the `/` that ends the pattern at the beginning of this text.
fn pattern_end(bytes: &[u8]) -> Option<usize> {
    let (mut at, mut is_in_class) = (1, false);
    loop {
        match bytes.get(at)? {
            b'\\' => at += 1,
            b'[' => is_in_class = true,
            b']' => is_in_class = false,
            b'/' if !is_in_class => return Some(at),
            _ => {}
        }
        at += 1;
    }
}

/// The text of a pattern, in which the pair `\/` is `/`.
fn without_escapes(pattern: &str) -> Cow<'_, str> {
    if !pattern.contains("\\/") {
        return Cow::Borrowed(pattern);
    }
    let mut text = String::with_capacity(pattern.len());
    let mut left = pattern.chars();
    while let Some(first) = left.next() {
        if first != '\\' {
            text.push(first);
            continue;
        }
        match left.next() {
            Some('/') => text.push('/'),
            Some(second) => text.extend(['\\', second]),
            None => text.push('\\'),
        }
    }
    Cow::Owned(text)
}
