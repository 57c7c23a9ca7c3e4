//! Runs a script as keyrun does, with the Rust crate: the same arguments and the same output.
//!
//!     play [--platform P] [--layout F] [--defaults F] [--user F] [--script F] [DIR]..
//!     play [--platform P] [--layout F] [--defaults F] [--user F] --press N KEY [DIR]..
//!
//! With `--press` it runs no script: it presses the key N times, at least once, and prints the time of a
//! press and the memory. The status is 0; 2 for wrong arguments; 3 if a file cannot be read or the load is
//! refused; 4 if the session stops, or the script or the output fails; 5 if a handler traps.
use pafjirn::{Engine, Error, File, Platform, Record};
use std::io::{self, ErrorKind, Read, Write};
use std::num::NonZeroU32;
use std::process::ExitCode;
use std::time::Instant;
use std::{env, fs};

const USAGE: &str = "usage: play [--platform linux|mac|win] [--layout F] [--defaults F] [--user F]
           [--script F] [DIR]..
       play [--platform linux|mac|win] [--layout F] [--defaults F] [--user F]
           --press N KEY [DIR]..";

/// Why the run ended early.
enum Stop {
    /// The arguments are wrong.
    Words,
    /// A file cannot be read.
    Unread(String),
    /// A call of the engine failed.
    Engine(Error),
    /// The script cannot be read.
    Script,
    /// The output cannot be written.
    Write,
}

impl From<Error> for Stop {
    fn from(error: Error) -> Stop {
        Stop::Engine(error)
    }
}

/// The bytes of a file.
fn read(path: &str) -> Result<Vec<u8>, Stop> {
    fs::read(path).map_err(|_| Stop::Unread(path.into()))
}

/// The bytes of a file, or `None` if there is no file.
fn read_if_there(path: &str) -> Result<Option<Vec<u8>>, Stop> {
    match fs::read(path) {
        Ok(bytes) => Ok(Some(bytes)),
        Err(error) if error.kind() == ErrorKind::NotFound => Ok(None),
        Err(_) => Err(Stop::Unread(path.into())),
    }
}

/// The bytes of the script: of a file, or of standard input.
fn read_script(path: Option<&String>) -> Result<Vec<u8>, Stop> {
    let mut bytes = Vec::new();
    match path {
        Some(path) => fs::File::open(path)
            .map_err(|_| Stop::Unread(path.clone()))?
            .read_to_end(&mut bytes),
        None => io::stdin().read_to_end(&mut bytes),
    }
    .map_err(|_| Stop::Script)?;
    Ok(bytes)
}

fn platform(name: &str) -> Result<Platform, Stop> {
    match name {
        "linux" => Ok(Platform::Linux),
        "mac" => Ok(Platform::Mac),
        "win" => Ok(Platform::Windows),
        _ => Err(Stop::Words),
    }
}

/// The peak memory of this process in kB, or -1 if the system doesn't report it.
fn most_memory() -> i64 {
    let status = fs::read_to_string("/proc/self/status").unwrap_or_default();
    let line = status.lines().find_map(|line| line.strip_prefix("VmHWM:"));
    let number = line.and_then(|rest| rest.trim().strip_suffix(" kB"));
    number.and_then(|text| text.parse().ok()).unwrap_or(-1)
}

/// Presses a key this many times, and reads the trace of each press.
fn press_often(engine: &mut Engine, presses: u32, key: &str) -> Result<(), Error> {
    let mut text = Vec::new();
    for _ in 0..presses {
        engine.press(key)?.read_trace(&mut text);
    }
    Ok(())
}

/// Presses a key this many times. Returns a line with the time of a press, and the memory after a tenth of
/// the presses and after all.
fn press(engine: &mut Engine, presses: NonZeroU32, key: &str) -> Result<String, Stop> {
    let presses = presses.get();
    let (tenth, start) = ((presses + 9) / 10, Instant::now());
    press_often(engine, tenth, key)?;
    let early = most_memory();
    press_often(engine, presses - tenth, key)?;
    let each = start.elapsed().as_secs_f64() * 1e6 / f64::from(presses);
    let memory = format!("{early} kB behind a tenth, {} kB behind all", most_memory());
    Ok(format!(
        "{presses} presses, {each:.3} microseconds each, {memory}\n"
    ))
}

/// The lines of a script. A line may end with a carriage return and a line feed.
fn lines(script: &[u8]) -> impl Iterator<Item = &[u8]> {
    let mut rest = Some(script);
    std::iter::from_fn(move || {
        let bytes = rest?;
        match bytes.iter().position(|byte| *byte == b'\n') {
            Some(end) => {
                rest = Some(&bytes[end + 1..]);
                let line = &bytes[..end];
                Some(line.strip_suffix(b"\r").unwrap_or(line))
            }
            None => {
                rest = None;
                Some(bytes)
            }
        }
    })
}

/// Runs a script line by line, and writes what each line adds to the trace.
fn play(engine: &mut Engine, script: &[u8], out: &mut impl Write) -> Result<(), Stop> {
    for record in engine.records(lines(script)) {
        let trace = match &record {
            Ok(Record { trace, .. }) | Err(Error::Trapped { trace }) => trace,
            Err(_) => "",
        };
        out.write_all(trace.as_bytes()).map_err(|_| Stop::Write)?;
        record?;
    }
    Ok(())
}

/// Passes the extension in a folder to the engine. One without `handlers.json` has no handlers.
fn give_extension(engine: &mut Engine, folder: &str) -> Result<(), Stop> {
    let manifest = read(&format!("{folder}/package.json"))?;
    let handlers = read_if_there(&format!("{folder}/handlers.json"))?;
    Ok(engine.extension(&manifest, handlers.as_deref())?)
}

fn run(words: &[String], out: &mut impl Write) -> Result<(), Stop> {
    let mut engine = Engine::new()?;
    let (mut script, mut pressed, mut words) = (None, None, words.iter());
    while let Some(word) = words.next() {
        let mut next = || words.next().ok_or(Stop::Words);
        match word.as_str() {
            "--layout" => engine.file(File::Layout, &read(next()?)?)?,
            "--defaults" => engine.file(File::Defaults, &read(next()?)?)?,
            "--user" => engine.file(File::User, &read(next()?)?)?,
            "--platform" => engine.platform(platform(next()?)?)?,
            "--script" => script = Some(next()?),
            "--press" => pressed = Some((next()?.parse().map_err(|_| Stop::Words)?, next()?)),
            word if word.starts_with("--") => return Err(Stop::Words),
            folder => give_extension(&mut engine, folder)?,
        }
    }
    eprint!("{}", engine.load()?);
    match pressed {
        Some((presses, key)) => {
            let line = press(&mut engine, presses, key)?;
            out.write_all(line.as_bytes()).map_err(|_| Stop::Write)
        }
        None => play(&mut engine, &read_script(script)?, out),
    }
}

/// Prints why a run ended early. Returns its status.
fn report(stop: &Stop) -> u8 {
    match stop {
        Stop::Words => eprintln!("{USAGE}"),
        Stop::Unread(path) => eprintln!("cannot read {path}"),
        Stop::Engine(error) => eprintln!("{error}"),
        Stop::Script => eprintln!("script: read failed"),
        Stop::Write => eprintln!("script: write failed"),
    }
    match stop {
        Stop::Words | Stop::Engine(Error::NoKey) => 2,
        Stop::Unread(_) | Stop::Engine(Error::Refused(_)) => 3,
        Stop::Engine(Error::Trapped { .. }) => 5,
        Stop::Engine(_) | Stop::Script | Stop::Write => 4,
    }
}

fn main() -> ExitCode {
    let words: Vec<String> = env::args().skip(1).collect();
    let mut out = io::stdout().lock();
    let ran = run(&words, &mut out);
    let written = out.flush().map_err(|_| Stop::Write);
    match ran.and(written) {
        Ok(()) => ExitCode::SUCCESS,
        Err(stop) => ExitCode::from(report(&stop)),
    }
}
