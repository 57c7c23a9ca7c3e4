//! The text with its caret, as a buffer with a gap at the caret.

use crate::trace::json_string;

#[derive(Default)]
pub struct Buffer {
    bytes: Vec<u8>,
    gap: usize,
    gap_end: usize,
    chars_before: i64,
    chars_after: i64,
}

impl Buffer {
    pub fn chars_before(&self) -> i64 {
        self.chars_before
    }

    pub fn chars_after(&self) -> i64 {
        self.chars_after
    }

    /// Inserts a text before the caret.
    pub fn insert(&mut self, text: &str) {
        if self.gap_end - self.gap < text.len() {
            self.grow(text.len());
        }
        self.bytes[self.gap..self.gap + text.len()].copy_from_slice(text.as_bytes());
        self.gap += text.len();
        self.chars_before += text.chars().count() as i64;
    }

    fn grow(&mut self, wanted: usize) {
        let after = self.bytes.len() - self.gap_end;
        let length = (2 * self.bytes.len()).max(self.gap + wanted + after).max(64);
        let mut bytes = vec![0; length];
        bytes[..self.gap].copy_from_slice(&self.bytes[..self.gap]);
        bytes[length - after..].copy_from_slice(&self.bytes[self.gap_end..]);
        self.bytes = bytes;
        self.gap_end = length - after;
    }

    /// The length of the last character before the caret, 0 if there is none.
    fn length_before(&self) -> usize {
        let is_first = |it: &u8| !is_continued(*it);
        self.bytes[..self.gap].iter().rev().position(is_first).map_or(0, |it| it + 1)
    }

    /// The length of the first character after the caret, 0 if there is none.
    fn length_after(&self) -> usize {
        match &self.bytes[self.gap_end..] {
            [] => 0,
            [_, rest @ ..] => 1 + rest.iter().take_while(|it| is_continued(**it)).count(),
        }
    }

    pub fn delete_left(&mut self) {
        let length = self.length_before();
        self.gap -= length;
        self.chars_before -= i64::from(length > 0);
    }

    pub fn delete_right(&mut self) {
        let length = self.length_after();
        self.gap_end += length;
        self.chars_after -= i64::from(length > 0);
    }

    pub fn left(&mut self) {
        let length = self.length_before();
        self.move_left(length, i64::from(length > 0));
    }

    pub fn right(&mut self) {
        let length = self.length_after();
        self.move_right(length, i64::from(length > 0));
    }

    pub fn clear(&mut self) {
        *self = Buffer { bytes: std::mem::take(&mut self.bytes), ..Buffer::default() };
        self.gap_end = self.bytes.len();
    }

    pub fn top(&mut self) {
        self.move_left(self.gap, self.chars_before);
    }

    pub fn bottom(&mut self) {
        self.move_right(self.bytes.len() - self.gap_end, self.chars_after);
    }

    fn move_left(&mut self, length: usize, chars: i64) {
        let from = self.gap - length..self.gap;
        self.gap -= length;
        self.gap_end -= length;
        self.bytes.copy_within(from, self.gap_end);
        self.chars_before -= chars;
        self.chars_after += chars;
    }

    fn move_right(&mut self, length: usize, chars: i64) {
        self.bytes.copy_within(self.gap_end..self.gap_end + length, self.gap);
        self.gap += length;
        self.gap_end += length;
        self.chars_before += chars;
        self.chars_after -= chars;
    }

    /// Writes the texts before and after the caret, as JSON strings.
    pub fn write_to(&self, out: &mut Vec<u8>) {
        json_string(out, &self.bytes[..self.gap]);
        out.push(b' ');
        json_string(out, &self.bytes[self.gap_end..]);
    }
}

fn is_continued(byte: u8) -> bool {
    byte & 0xc0 == 0x80
}
