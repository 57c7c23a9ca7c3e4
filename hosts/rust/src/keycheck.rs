//! The program `keycheck` over files in memory.
use crate::{error_of, sys, Error};
use std::fmt;

/// The program `keycheck` over files in memory: it says what is wrong in files, and why a key does what it
/// does.
///
/// It reads no file of the system. The files of an [`Engine`](crate::Engine) aren't among its own. Only the
/// thread that made it can use it.
///
/// ```
/// use pafjirn::Keycheck;
///
/// let rules = br#"[{ "key": "ctrl+retrun", "command": "type", "args": "hello" }]"#;
/// let mut keycheck = Keycheck::new()?;
/// keycheck.put("keybindings.json", rules)?;
/// let checked = keycheck.run(["check", "--user", "keybindings.json"])?;
/// assert_eq!(checked.status, 1);
/// let first = "keybindings.json:1:11: error: 10 UnknownKey: there is no key `retrun`; write `enter`; \
///              the rule is dropped";
/// assert_eq!(checked.output.lines().next(), Some(first));
/// # Ok::<(), pafjirn::Error>(())
/// ```
pub struct Keycheck {
    handle: sys::Handle,
}

/// How a run of `keycheck` ended, and what it wrote.
#[derive(Clone, Debug, PartialEq, Eq)]
#[non_exhaustive]
pub struct Checked {
    /// The exit status: 0 if nothing is wrong or a question was answered, 1 if a problem was shown, 2 for a
    /// command line that is refused, 3 for a file that isn't there or is refused, and 4 if memory was refused
    /// or a script didn't run to its end. `docs/KEYCHECK.md` has all cases.
    pub status: u8,
    /// What it wrote to standard output.
    pub output: String,
    /// What it wrote to standard error.
    pub errors: String,
}

impl fmt::Debug for Keycheck {
    fn fmt(&self, f: &mut fmt::Formatter<'_>) -> fmt::Result {
        f.debug_struct("Keycheck").finish_non_exhaustive()
    }
}

impl Keycheck {
    /// Makes a `Keycheck` without files.
    ///
    /// # Errors
    ///
    /// [`Error::NoMemory`].
    pub fn new() -> Result<Keycheck, Error> {
        let mut keycheck = Keycheck {
            handle: sys::Handle::new(),
        };
        let answer = keycheck.handle.make();
        keycheck.only_done(answer)?;
        Ok(keycheck)
    }

    /// Copies a file's bytes to a path. They replace those of an earlier call. A path is looked for as it is
    /// spelled: the files of an extension in the folder `notes` are at `notes/package.json` and
    /// `notes/handlers.json`.
    ///
    /// # Errors
    ///
    /// [`Error::NoMemory`]; then the files are as before.
    pub fn put(&mut self, path: &str, bytes: &[u8]) -> Result<(), Error> {
        let answer = self.handle.put(path.as_bytes(), bytes);
        self.only_done(answer)
    }

    /// Removes the file at a path, if there is one.
    pub fn remove(&mut self, path: &str) {
        let answer = self.handle.remove(path.as_bytes());
        debug_assert_eq!(answer, sys::DONE);
    }

    /// Runs `keycheck` by the words of a command line, without the program's name, over the files that were
    /// put, which stay. `docs/KEYCHECK.md` has the command lines.
    ///
    /// Memory that is refused during the run is no error: the status is 4 then.
    ///
    /// # Errors
    ///
    /// [`Error::NoMemory`] if memory for the words is refused.
    pub fn run<W>(&mut self, words: W) -> Result<Checked, Error>
    where
        W: IntoIterator,
        W::Item: AsRef<str>,
    {
        let added = self.add_words(words);
        // A run takes all words away, also those before a word that was refused.
        let answer = self.handle.keycheck();
        added?;
        self.only_done(answer)?;
        Ok(Checked {
            // (the status is at most 4)
            status: self.handle.status().try_into().unwrap_or(u8::MAX),
            output: self.handle.written(sys::OUTPUT),
            errors: self.handle.written(sys::ERRORS),
        })
    }

    /// Adds the program's name and these words to the command line.
    fn add_words<W>(&mut self, words: W) -> Result<(), Error>
    where
        W: IntoIterator,
        W::Item: AsRef<str>,
    {
        let answer = self.handle.word(b"keycheck");
        self.only_done(answer)?;
        for word in words {
            let answer = self.handle.word(word.as_ref().as_bytes());
            self.only_done(answer)?;
        }
        Ok(())
    }

    /// The result of a call, from its answer.
    fn only_done(&mut self, answer: u32) -> Result<(), Error> {
        match answer {
            sys::DONE => Ok(()),
            answer => Err(error_of(&mut self.handle, answer)),
        }
    }
}
