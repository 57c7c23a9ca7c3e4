//! The command line.

use std::ffi::OsString;

use clap::{value_parser, Arg, ArgMatches, Command};

use crate::rules::Platform;

/// What the command line says.
pub struct Options {
    pub layout: Option<String>,
    pub defaults: Option<String>,
    pub user: Option<String>,
    pub platform: Platform,
    pub script: Option<String>,
    pub dirs: Vec<String>,
}

fn command() -> Command {
    let file = |name: &'static str, help: &'static str| {
        Arg::new(name).long(name).value_name("F").value_parser(value_parser!(String)).help(help)
    };
    Command::new("peer")
        .about("Runs a script of events against the user's keybindings, as keyrun does.")
        .arg(file("layout", "The layout of the scopes"))
        .arg(file("defaults", "The default rules"))
        .arg(file("user", "The user's rules"))
        .arg(
            Arg::new("platform")
                .long("platform")
                .value_name("P")
                .value_parser(["mac", "linux", "win"])
                .help("The platform whose keys the rules of extensions have, linux if it isn't given"),
        )
        .arg(file("script", "The script, in place of standard input"))
        .arg(
            Arg::new("dirs")
                .value_name("DIR")
                .num_args(0..)
                .value_parser(value_parser!(String))
                .help("The folders of extensions, in load order"),
        )
}

impl Options {
    /// Reads the words of the command line, the first of which is the program's name.
    pub fn read(words: Vec<OsString>) -> Result<Options, clap::Error> {
        if let Some(word) = words.iter().find(|it| it.to_str().is_none()) {
            let message = format!("{} isn't UTF-8\n", word.to_string_lossy());
            return Err(command().error(clap::error::ErrorKind::InvalidUtf8, message));
        }
        let mut found = command().try_get_matches_from(words)?;
        let platform = match found.get_one::<String>("platform").map(String::as_str) {
            Some("mac") => Platform::Mac,
            Some("win") => Platform::Windows,
            _ => Platform::Linux,
        };
        let file = |found: &mut ArgMatches, name: &str| found.remove_one::<String>(name);
        Ok(Options {
            layout: file(&mut found, "layout"),
            defaults: file(&mut found, "defaults"),
            user: file(&mut found, "user"),
            platform,
            script: file(&mut found, "script"),
            dirs: found.remove_many("dirs").into_iter().flatten().collect(),
        })
    }
}
