//! JSON with comments and trailing commas. Both are blanked out in place, and `serde_json` reads the rest.

use memchr::{memchr2, memmem};

use crate::fault::Fault;
use crate::json::Json;

/// The bytes that begin a string, a comment, or may be a trailing comma.
const SPECIAL: [bool; 256] = {
    let mut table = [false; 256];
    table[b'"' as usize] = true;
    table[b'/' as usize] = true;
    table[b',' as usize] = true;
    table
};

pub fn is_blank(byte: u8) -> bool {
    matches!(byte, b' ' | b'\t' | b'\r' | b'\n')
}

/// The text as plain JSON. A blank one reads as an empty list.
pub fn plain(bytes: &mut [u8]) -> Result<&str, Fault> {
    simdutf8::basic::from_utf8(bytes).map_err(|_| Fault::NotUtf8)?;
    let text = match bytes {
        [0xef, 0xbb, 0xbf, rest @ ..] => rest,
        all => all,
    };
    blank_out(text)?;
    let text = simdutf8::basic::from_utf8(text).map_err(|_| Fault::NotUtf8)?;
    Ok(if text.bytes().all(is_blank) { "[]" } else { text })
}

/// The value of a file.
pub fn read(bytes: &mut [u8]) -> Result<Json<'_>, Fault> {
    serde_json::from_str(plain(bytes)?).map_err(|_| Fault::Syntax)
}

/// Puts blanks in the place of comments and trailing commas.
fn blank_out(text: &mut [u8]) -> Result<(), Fault> {
    let mut at = 0;
    while let Some(found) = text[at..].iter().position(|&it| SPECIAL[usize::from(it)]) {
        at += found;
        at = match text[at] {
            b'"' => string_end(text, at)?,
            b'/' => blank_comment(text, at)?.unwrap_or(at + 1),
            _ => {
                let next = next_token(text, at + 1)?;
                if matches!(text.get(next), Some(b']' | b'}')) && follows_value(&text[..at]) {
                    text[at] = b' ';
                }
                next
            }
        };
    }
    Ok(())
}

/// The place after the string that begins at `start`.
fn string_end(text: &[u8], start: usize) -> Result<usize, Fault> {
    let mut at = start + 1;
    loop {
        let rest = text.get(at..).ok_or(Fault::OpenString)?;
        let found = memchr2(b'"', b'\\', rest).ok_or(Fault::OpenString)?;
        if rest[found] == b'"' {
            return Ok(at + found + 1);
        }
        at += found + 2;
    }
}

/// Blanks out the comment that begins at `start`, and gives the place after it. `None` if none begins there.
fn blank_comment(text: &mut [u8], start: usize) -> Result<Option<usize>, Fault> {
    let rest = &mut text[start..];
    match rest.get(1) {
        Some(b'/') => {
            let length = memchr2(b'\n', b'\r', rest).unwrap_or(rest.len());
            rest[..length].fill(b' ');
            Ok(Some(start + length))
        }
        Some(b'*') => {
            let found = memmem::find(&rest[2..], b"*/").ok_or(Fault::OpenComment)?;
            for byte in &mut rest[..found + 4] {
                if !matches!(byte, b'\r' | b'\n') {
                    *byte = b' ';
                }
            }
            Ok(Some(start + found + 4))
        }
        _ => Ok(None),
    }
}

/// The place of the next character, from `at` on, that is neither blank nor in a comment.
fn next_token(text: &mut [u8], mut at: usize) -> Result<usize, Fault> {
    while let Some(&byte) = text.get(at) {
        if is_blank(byte) {
            at += 1;
        } else if byte == b'/' {
            match blank_comment(text, at)? {
                Some(after) => at = after,
                None => break,
            }
        } else {
            break;
        }
    }
    Ok(at)
}

/// Whether a comma after this text follows a value.
fn follows_value(before: &[u8]) -> bool {
    let last = before.iter().rev().find(|&&it| !is_blank(it));
    last.map_or(false, |it| !matches!(it, b'[' | b'{' | b',' | b':'))
}
