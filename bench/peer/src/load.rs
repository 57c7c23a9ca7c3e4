//! Loads: all files are checked in order, and the first fault is reported.

use std::fmt;

use rustc_hash::FxHashMap;

use crate::buffer::Buffer;
use crate::commands::{self, Commands};
use crate::fault::{Fault, OutOfMemory, Refusal};
use crate::handlers::{self, Handler};
use crate::keys::Chord;
use crate::layout;
use crate::manifest::Manifest;
use crate::palette::Palette;
use crate::resolve::{Enablements, Resolver};
use crate::rules::{Platform, RuleList, Tables, Unreadable, Warning};
use crate::session::{Extension, Session};
use crate::verify::verify;

const EXTENSIONS: usize = 100;

/// The bytes of all files.
pub struct Files {
    pub layout: Option<Vec<u8>>,
    pub defaults: Option<Vec<u8>>,
    pub user: Option<Vec<u8>>,
    pub extensions: Vec<ExtensionFiles>,
}

pub struct ExtensionFiles {
    pub manifest: Vec<u8>,
    pub handlers: Option<Vec<u8>>,
}

/// Why a load is refused: a fault of a file, or memory.
pub enum LoadFault {
    Refused(String, Refusal),
    OutOfMemory,
}

impl From<OutOfMemory> for LoadFault {
    fn from(_: OutOfMemory) -> LoadFault {
        LoadFault::OutOfMemory
    }
}

impl fmt::Display for LoadFault {
    fn fmt(&self, f: &mut fmt::Formatter<'_>) -> fmt::Result {
        match self {
            LoadFault::Refused(file, refusal) => write!(f, "load refused: {file} {refusal}"),
            LoadFault::OutOfMemory => f.write_str("stopped: out of memory"),
        }
    }
}

fn refused(file: impl Into<String>, refusal: impl Into<Refusal>) -> LoadFault {
    LoadFault::Refused(file.into(), refusal.into())
}

fn manifest_file(at: usize) -> String {
    format!("ext {at} package.json")
}

fn handler_file(at: usize) -> String {
    format!("ext {at} handlers.json")
}

pub fn load(files: Files, platform: Platform) -> Result<Session, LoadFault> {
    let mut tables = Tables { commands: commands::names(), ..Tables::default() };
    let scopes = match files.layout {
        Some(mut bytes) => {
            layout::read(&mut bytes, &mut tables.keys).map_err(|fault| refused("layout", fault))?
        }
        None => layout::without_file(),
    };
    let defaults = rules("defaults", files.defaults, &mut tables)?;
    let user = rules("user", files.user, &mut tables)?;
    if files.extensions.len() > EXTENSIONS {
        return Err(refused("extensions", Fault::TooLarge));
    }
    let mut commands = Commands::new();
    let (mut manifests, mut read) = (Vec::new(), Vec::new());
    for (at, extension) in files.extensions.into_iter().enumerate() {
        let (manifest, handlers) = extension_of(at, extension, platform, &mut tables)?;
        manifests.push(manifest);
        read.push(handlers);
    }
    let extensions = with_dependencies(manifests)?;
    for (at, handlers) in read.into_iter().enumerate() {
        commands.is_enabled.push(true);
        commands.handlers.push(Vec::new());
        let verified = verified(at, handlers, &extensions[at].dependencies, &commands, &tables)?;
        commands.put(at, verified);
    }
    let resolver = Resolver::new(&RuleList::default(), &[], &RuleList::default());
    let mut session = Session {
        tables,
        scopes,
        buffer: Buffer::default(),
        defaults,
        user,
        extensions,
        commands,
        resolver,
        enablements: Enablements::default(),
        pressed: Chord::default(),
        palette: Palette::default(),
        index: None,
        trace: Vec::new(),
    };
    session.assemble();
    Ok(session)
}

fn rules(file: &str, bytes: Option<Vec<u8>>, tables: &mut Tables) -> Result<RuleList, LoadFault> {
    let Some(mut bytes) = bytes else { return Ok(RuleList::default()) };
    RuleList::read(&mut bytes, tables).map_err(|unreadable| match unreadable {
        Unreadable::Fault(fault) => refused(file, fault),
        Unreadable::OutOfMemory => LoadFault::OutOfMemory,
    })
}

fn extension_of(
    at: usize,
    mut files: ExtensionFiles,
    platform: Platform,
    tables: &mut Tables,
) -> Result<(Manifest, Vec<Handler>), LoadFault> {
    let manifest = Manifest::read(&mut files.manifest, platform, tables);
    let manifest = manifest.map_err(|fault| refused(manifest_file(at), fault))?;
    tables.clauses.check_memory()?;
    let handlers = match files.handlers {
        Some(mut bytes) => handlers::read(&mut bytes, tables),
        None => Ok(Vec::new()),
    };
    Ok((manifest, handlers.map_err(|fault| refused(handler_file(at), fault))?))
}

/// Extensions with distinct identifiers, which depend on earlier ones alone.
fn with_dependencies(manifests: Vec<Manifest>) -> Result<Vec<Extension>, LoadFault> {
    let mut places = FxHashMap::default();
    for (at, manifest) in manifests.iter().enumerate() {
        if places.insert(manifest.id.to_ascii_lowercase(), at).is_some() {
            return Err(refused(manifest_file(at), Fault::DuplicateExtension));
        }
    }
    let mut extensions = Vec::with_capacity(manifests.len());
    for (at, manifest) in manifests.into_iter().enumerate() {
        let place = |id: &String| places.get(&id.to_ascii_lowercase()).copied().filter(|it| *it < at);
        let dependencies: Option<Vec<usize>> = manifest.dependencies.iter().map(place).collect();
        let dependencies =
            dependencies.ok_or_else(|| refused(manifest_file(at), Fault::MissingDependency))?;
        extensions.push(Extension { manifest, dependencies });
    }
    Ok(extensions)
}

/// Verifies the handlers of an extension. Then their names have to be free.
fn verified(
    at: usize,
    mut handlers: Vec<Handler>,
    dependencies: &[usize],
    commands: &Commands,
    tables: &Tables,
) -> Result<Vec<Handler>, LoadFault> {
    if handlers.is_empty() {
        return Ok(handlers);
    }
    let callable = commands.callable(dependencies, &handlers);
    for handler in &mut handlers {
        handler.callees = verify(handler, &callable).map_err(|(fault, place)| {
            let name = tables.commands.text(handler.command);
            refused(handler_file(at), Refusal::naming(fault, &format!("{name} {place}")))
        })?;
    }
    if handlers.iter().any(|it| commands.is_taken(it.command)) {
        return Err(refused(handler_file(at), Fault::AlreadyExists));
    }
    Ok(handlers)
}

/// The lines of the warnings of a load.
pub fn warnings(session: &Session) -> Vec<String> {
    let mut lines = Vec::new();
    let mut add = |source: &str, part: &str, warnings: &[Warning]| {
        let line = |it: &Warning| format!("warning {} {source} {part} {}", it.fault.number(), it.place);
        lines.extend(warnings.iter().map(line));
    };
    add("defaults", "keybindings", &session.defaults.warnings);
    for Extension { manifest, .. } in &session.extensions {
        add(&manifest.id, "commands", &manifest.command_warnings);
        add(&manifest.id, "keybindings", &manifest.rules.warnings);
        add(&manifest.id, "palette", &manifest.palette_warnings);
    }
    add("user", "keybindings", &session.user.warnings);
    lines
}
