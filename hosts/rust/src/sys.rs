//! The C library (`include/pafjirn.h`), and the only module with unsafe code.
//!
//! Each call meets the conditions of the header: a [`Raw`] begins as zeros, is private to this file, and is
//! never copied. Each call borrows it mutably, on the thread that made it, since its pointer makes it neither
//! `Send` nor `Sync`. The pointer of a slice is never null.
use std::ptr;

pub const DONE: u32 = 0;
pub const OUT_OF_ORDER: u32 = 1;
pub const REFUSED: u32 = 3;
pub const NO_MEMORY: u32 = 5;
pub const NOT_FOUND: u32 = 7;
pub const BAD_ARGUMENTS: u32 = 8;
pub const NO_KEY: u32 = 10;
pub const STOPPED: u32 = 97;
pub const TRAPPED: u32 = 103;

pub const TRACE: u32 = 0;
pub const NOTICE: u32 = 1;
pub const CHORD: u32 = 2;
pub const COMMAND: u32 = 3;
pub const ARGUMENTS: u32 = 4;
pub const SOURCE: u32 = 5;
pub const BEFORE: u32 = 6;
pub const AFTER: u32 = 7;
pub const STEP: u32 = 8;
pub const KEYS: u32 = 9;

pub const CHORDING: u32 = 1;
pub const STARTED: u32 = 2;

pub const LABEL: u32 = 0;
pub const ENTRY_COMMAND: u32 = 1;

pub const OUTPUT: u32 = 0;
pub const ERRORS: u32 = 1;

/// `pafjirn_handle`.
#[repr(C)]
struct Raw {
    at: *mut u8,
    live: bool,
}

// These are the declarations of the header (tools/check-header compares them). Rust 1.63, which Debian has,
// can't say that a function of such a block is safe, so each call is in unsafe code.
#[link(name = "pafjirn")]
extern "C" {
    fn pafjirn_new(engine: &mut Raw) -> u32;
    fn pafjirn_free(engine: &mut Raw);
    fn pafjirn_platform(engine: &mut Raw, platform: u32) -> u32;
    fn pafjirn_file(engine: &mut Raw, file: u32, bytes: *const u8, length: usize) -> u32;
    fn pafjirn_extension(
        engine: &mut Raw,
        manifest: *const u8,
        manifest_length: usize,
        has_handlers: bool,
        handlers: *const u8,
        handlers_length: usize,
    ) -> u32;
    fn pafjirn_load(engine: &mut Raw) -> u32;
    fn pafjirn_line(engine: &mut Raw, line: *const u8, length: usize) -> u32;
    fn pafjirn_key(engine: &mut Raw, key: *const u8, length: usize) -> u32;
    fn pafjirn_focus(engine: &mut Raw, scope: *const u8, length: usize) -> u32;
    fn pafjirn_set_truth(
        engine: &mut Raw,
        scope: *const u8,
        scope_length: usize,
        key: *const u8,
        key_length: usize,
        truth: bool,
    ) -> u32;
    fn pafjirn_set_number(
        engine: &mut Raw,
        scope: *const u8,
        scope_length: usize,
        key: *const u8,
        key_length: usize,
        number: i64,
    ) -> u32;
    fn pafjirn_set_text(
        engine: &mut Raw,
        scope: *const u8,
        scope_length: usize,
        key: *const u8,
        key_length: usize,
        text: *const u8,
        text_length: usize,
    ) -> u32;
    fn pafjirn_unset(
        engine: &mut Raw,
        scope: *const u8,
        scope_length: usize,
        key: *const u8,
        key_length: usize,
    ) -> u32;
    fn pafjirn_palette(engine: &mut Raw, query: *const u8, length: usize) -> u32;
    fn pafjirn_choose(engine: &mut Raw, number: u32) -> u32;
    fn pafjirn_look_up(engine: &mut Raw, key: *const u8, length: usize) -> u32;
    fn pafjirn_keys_of(engine: &mut Raw, command: *const u8, length: usize) -> u32;
    fn pafjirn_continuations(engine: &mut Raw) -> u32;
    fn pafjirn_read(engine: &mut Raw, part: u32, from: usize, into: *mut u8, room: usize) -> usize;
    fn pafjirn_taken(engine: &mut Raw) -> u32;
    fn pafjirn_place(engine: &mut Raw) -> usize;
    fn pafjirn_steps(engine: &mut Raw) -> usize;
    fn pafjirn_entries(engine: &mut Raw) -> usize;
    fn pafjirn_entry(
        engine: &mut Raw,
        number: u32,
        part: u32,
        from: usize,
        into: *mut u8,
        room: usize,
    ) -> usize;
    fn pafjirn_put(
        engine: &mut Raw,
        path: *const u8,
        path_length: usize,
        bytes: *const u8,
        bytes_length: usize,
    ) -> u32;
    fn pafjirn_remove(engine: &mut Raw, path: *const u8, length: usize) -> u32;
    fn pafjirn_word(engine: &mut Raw, word: *const u8, length: usize) -> u32;
    fn pafjirn_keycheck(engine: &mut Raw) -> u32;
    fn pafjirn_status(engine: &mut Raw) -> u32;
    fn pafjirn_written(
        engine: &mut Raw,
        stream: u32,
        from: usize,
        into: *mut u8,
        room: usize,
    ) -> usize;
}

/// The handle of an engine, or an empty handle. It ends its engine when it is dropped.
pub struct Handle(Raw);

impl Handle {
    pub fn new() -> Handle {
        Handle(Raw {
            at: ptr::null_mut(),
            live: false,
        })
    }

    pub fn make(&mut self) -> u32 {
        // SAFETY: the handle is one of this file, and the call takes no pointer.
        unsafe { pafjirn_new(&mut self.0) }
    }

    pub fn platform(&mut self, platform: u32) -> u32 {
        // SAFETY: the handle is one of this file, and the call takes no pointer.
        unsafe { pafjirn_platform(&mut self.0, platform) }
    }

    pub fn file(&mut self, file: u32, bytes: &[u8]) -> u32 {
        // SAFETY: the pointer is valid for the given length, and the call only reads.
        unsafe { pafjirn_file(&mut self.0, file, bytes.as_ptr(), bytes.len()) }
    }

    pub fn extension(&mut self, manifest: &[u8], handlers: Option<&[u8]>) -> u32 {
        let more = handlers.unwrap_or(&[]);
        // SAFETY: each pointer is valid for the given length, and the call only reads.
        unsafe {
            pafjirn_extension(
                &mut self.0,
                manifest.as_ptr(),
                manifest.len(),
                handlers.is_some(),
                more.as_ptr(),
                more.len(),
            )
        }
    }

    pub fn load(&mut self) -> u32 {
        // SAFETY: the handle is one of this file, and the call takes no pointer.
        unsafe { pafjirn_load(&mut self.0) }
    }

    pub fn line(&mut self, line: &[u8]) -> u32 {
        // SAFETY: the pointer is valid for the given length, and the call only reads.
        unsafe { pafjirn_line(&mut self.0, line.as_ptr(), line.len()) }
    }

    pub fn key(&mut self, key: &[u8]) -> u32 {
        // SAFETY: the pointer is valid for the given length, and the call only reads.
        unsafe { pafjirn_key(&mut self.0, key.as_ptr(), key.len()) }
    }

    pub fn focus(&mut self, scope: &[u8]) -> u32 {
        // SAFETY: the pointer is valid for the given length, and the call only reads.
        unsafe { pafjirn_focus(&mut self.0, scope.as_ptr(), scope.len()) }
    }

    pub fn set_truth(&mut self, scope: &[u8], key: &[u8], truth: bool) -> u32 {
        let (scope_at, key_at) = (scope.as_ptr(), key.as_ptr());
        // SAFETY: each pointer is valid for the given length, and the call only reads.
        unsafe { pafjirn_set_truth(&mut self.0, scope_at, scope.len(), key_at, key.len(), truth) }
    }

    pub fn set_number(&mut self, scope: &[u8], key: &[u8], number: i64) -> u32 {
        let (scope_at, key_at) = (scope.as_ptr(), key.as_ptr());
        // SAFETY: each pointer is valid for the given length, and the call only reads.
        unsafe {
            pafjirn_set_number(
                &mut self.0,
                scope_at,
                scope.len(),
                key_at,
                key.len(),
                number,
            )
        }
    }

    pub fn set_text(&mut self, scope: &[u8], key: &[u8], text: &[u8]) -> u32 {
        // SAFETY: each pointer is valid for the given length, and the call only reads.
        unsafe {
            pafjirn_set_text(
                &mut self.0,
                scope.as_ptr(),
                scope.len(),
                key.as_ptr(),
                key.len(),
                text.as_ptr(),
                text.len(),
            )
        }
    }

    pub fn unset(&mut self, scope: &[u8], key: &[u8]) -> u32 {
        // SAFETY: each pointer is valid for the given length, and the call only reads.
        unsafe {
            pafjirn_unset(
                &mut self.0,
                scope.as_ptr(),
                scope.len(),
                key.as_ptr(),
                key.len(),
            )
        }
    }

    pub fn palette(&mut self, query: &[u8]) -> u32 {
        // SAFETY: the pointer is valid for the given length, and the call only reads.
        unsafe { pafjirn_palette(&mut self.0, query.as_ptr(), query.len()) }
    }

    pub fn choose(&mut self, number: u32) -> u32 {
        // SAFETY: the handle is one of this file, and the call takes no pointer.
        unsafe { pafjirn_choose(&mut self.0, number) }
    }

    pub fn look_up(&mut self, key: &[u8]) -> u32 {
        // SAFETY: the pointer is valid for the given length, and the call only reads.
        unsafe { pafjirn_look_up(&mut self.0, key.as_ptr(), key.len()) }
    }

    pub fn keys_of(&mut self, command: &[u8]) -> u32 {
        // SAFETY: the pointer is valid for the given length, and the call only reads.
        unsafe { pafjirn_keys_of(&mut self.0, command.as_ptr(), command.len()) }
    }

    pub fn continuations(&mut self) -> u32 {
        // SAFETY: the handle is one of this file, and the call takes no pointer.
        unsafe { pafjirn_continuations(&mut self.0) }
    }

    pub fn taken(&mut self) -> u32 {
        // SAFETY: the handle is one of this file, and the call takes no pointer.
        unsafe { pafjirn_taken(&mut self.0) }
    }

    pub fn place(&mut self) -> usize {
        // SAFETY: the handle is one of this file, and the call takes no pointer.
        unsafe { pafjirn_place(&mut self.0) }
    }

    pub fn steps(&mut self) -> usize {
        // SAFETY: the handle is one of this file, and the call takes no pointer.
        unsafe { pafjirn_steps(&mut self.0) }
    }

    pub fn entries(&mut self) -> usize {
        // SAFETY: the handle is one of this file, and the call takes no pointer.
        unsafe { pafjirn_entries(&mut self.0) }
    }

    pub fn entry(&mut self, number: u32, part: u32) -> String {
        let mut bytes = Vec::with_capacity(64);
        // SAFETY: `read_whole` passes the capacity of this vector, and the call returns the length of the
        // whole text.
        unsafe {
            read_whole(&mut bytes, |into, room| {
                pafjirn_entry(&mut self.0, number, part, 0, into, room)
            });
        }
        text_of(bytes)
    }

    pub fn put(&mut self, path: &[u8], bytes: &[u8]) -> u32 {
        let (path_at, bytes_at) = (path.as_ptr(), bytes.as_ptr());
        // SAFETY: each pointer is valid for the given length, and the call only reads.
        unsafe { pafjirn_put(&mut self.0, path_at, path.len(), bytes_at, bytes.len()) }
    }

    pub fn remove(&mut self, path: &[u8]) -> u32 {
        // SAFETY: the pointer is valid for the given length, and the call only reads.
        unsafe { pafjirn_remove(&mut self.0, path.as_ptr(), path.len()) }
    }

    pub fn word(&mut self, word: &[u8]) -> u32 {
        // SAFETY: the pointer is valid for the given length, and the call only reads.
        unsafe { pafjirn_word(&mut self.0, word.as_ptr(), word.len()) }
    }

    pub fn keycheck(&mut self) -> u32 {
        // SAFETY: the handle is one of this file, and the call takes no pointer.
        unsafe { pafjirn_keycheck(&mut self.0) }
    }

    pub fn status(&mut self) -> u32 {
        // SAFETY: the handle is one of this file, and the call takes no pointer.
        unsafe { pafjirn_status(&mut self.0) }
    }

    pub fn written(&mut self, stream: u32) -> String {
        let mut bytes = Vec::with_capacity(1024);
        // SAFETY: `read_whole` passes the capacity of this vector, and the call returns the length of the
        // whole text.
        unsafe {
            read_whole(&mut bytes, |into, room| {
                pafjirn_written(&mut self.0, stream, 0, into, room)
            });
        }
        text_of(bytes)
    }

    pub fn text(&mut self, part: u32) -> String {
        let mut bytes = Vec::with_capacity(64);
        self.read_into(part, &mut bytes);
        text_of(bytes)
    }

    pub fn read_into(&mut self, part: u32, bytes: &mut Vec<u8>) {
        // SAFETY: `read_whole` passes the capacity of the vector, and the call returns the length of the
        // whole text.
        unsafe {
            read_whole(bytes, |into, room| {
                pafjirn_read(&mut self.0, part, 0, into, room)
            });
        }
    }
}

impl Drop for Handle {
    fn drop(&mut self) {
        // SAFETY: the handle is one of this file, and the call takes no pointer.
        unsafe { pafjirn_free(&mut self.0) };
    }
}

/// Replaces the bytes by a whole text, and reserves the capacity for it.
///
/// # Safety
///
/// `read` copies a text into a buffer of the given size, as far as it fits, and returns the length of the
/// whole text, which is the same in each call. It writes only to the buffer.
unsafe fn read_whole(bytes: &mut Vec<u8>, mut read: impl FnMut(*mut u8, usize) -> usize) {
    bytes.clear();
    let mut length = read(bytes.as_mut_ptr(), bytes.capacity());
    if length > bytes.capacity() {
        bytes.reserve(length);
        length = read(bytes.as_mut_ptr(), bytes.capacity());
    }
    // SAFETY: `read` has written the first `length` bytes, which the capacity holds.
    unsafe { bytes.set_len(length.min(bytes.capacity())) }
}

/// The text of bytes that the library wrote, which are always UTF-8.
fn text_of(bytes: Vec<u8>) -> String {
    String::from_utf8(bytes)
        .unwrap_or_else(|wrong| String::from_utf8_lossy(wrong.as_bytes()).into())
}
