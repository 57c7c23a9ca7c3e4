//! An idiomatic Rust program that does what keyrun does, to compare its speed and its outputs with. It is
//! written from docs/FORMATS.md, docs/HANDLERS.md, docs/FAULTS.md and docs/DECISIONS.md, and shares no code
//! with the sources of this repository.

#![forbid(unsafe_code)]

mod arguments;
mod buffer;
mod code;
mod commands;
mod context;
mod fault;
mod fold;
mod handlers;
mod json;
mod jsonc;
mod keys;
mod layout;
mod load;
mod machine;
mod manifest;
mod names;
mod native;
mod options;
mod palette;
mod resolve;
mod rules;
mod script;
mod session;
mod start;
mod trace;
mod verify;
mod when;

use std::fs::File;
use std::io::{self, ErrorKind, Write};
use std::os::fd::AsFd;
use std::process::ExitCode;

use load::{ExtensionFiles, Files, LoadFault};
use options::Options;
use script::ScriptFault;

/// How a run ends that doesn't end well: the status, and the line on standard error.
struct Failure(u8, String);

fn main() -> ExitCode {
    let options = match Options::read(std::env::args_os().collect()) {
        Ok(options) => options,
        Err(error) => {
            let _ = error.print();
            return ExitCode::from(if error.use_stderr() { 2 } else { 0 });
        }
    };
    match run(options) {
        Ok(()) => ExitCode::SUCCESS,
        Err(Failure(status, line)) => {
            let _ = writeln!(io::stderr(), "{line}");
            ExitCode::from(status)
        }
    }
}

fn run(options: Options) -> Result<(), Failure> {
    let platform = options.platform;
    let files = Files {
        layout: options.layout.map(|it| read(&it)).transpose()?,
        defaults: options.defaults.map(|it| read(&it)).transpose()?,
        user: options.user.map(|it| read(&it)).transpose()?,
        extensions: options.dirs.iter().map(|it| read_extension(it)).collect::<Result<_, _>>()?,
    };
    let script = match &options.script {
        Some(path) => File::open(path).map_err(|_| cannot_read(path))?,
        None => standard_input()?,
    };
    let mut session = load::load(files, platform).map_err(|fault| {
        let status = if matches!(fault, LoadFault::OutOfMemory) { 4 } else { 3 };
        Failure(status, fault.to_string())
    })?;
    for line in load::warnings(&session) {
        let _ = writeln!(io::stderr(), "{line}");
    }
    let ran = script::run(script, &mut standard_output()?, &mut session);
    // What is left needn't be freed.
    std::mem::forget(session);
    ran.map_err(|fault| Failure(4, fault.text().to_owned()))
}

/// Standard input as a file, whose length is known before it is read.
fn standard_input() -> Result<File, Failure> {
    let input = io::stdin().as_fd().try_clone_to_owned();
    Ok(File::from(input.map_err(|_| Failure(4, ScriptFault::ReadFailed.text().to_owned()))?))
}

/// Standard output as a file, which isn't flushed at each line.
fn standard_output() -> Result<File, Failure> {
    let output = io::stdout().as_fd().try_clone_to_owned();
    Ok(File::from(output.map_err(|_| Failure(4, ScriptFault::WriteFailed.text().to_owned()))?))
}

fn cannot_read(path: &str) -> Failure {
    Failure(3, format!("cannot read {path}"))
}

fn read(path: &str) -> Result<Vec<u8>, Failure> {
    let file = File::open(path).map_err(|_| cannot_read(path))?;
    read_all(file, path)
}

fn read_all(file: File, path: &str) -> Result<Vec<u8>, Failure> {
    script::read_within(file).ok().flatten().ok_or_else(|| cannot_read(path))
}

fn read_extension(dir: &str) -> Result<ExtensionFiles, Failure> {
    let manifest = read(&format!("{dir}/package.json"))?;
    let path = format!("{dir}/handlers.json");
    let handlers = match File::open(&path) {
        Ok(file) => Some(read_all(file, &path)?),
        Err(error) if error.kind() == ErrorKind::NotFound => None,
        Err(_) => return Err(cannot_read(&path)),
    };
    Ok(ExtensionFiles { manifest, handlers })
}
