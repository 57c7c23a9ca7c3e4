//! The `package.json` of extensions.

use crate::fault::Fault;
use crate::json::{Json, Object};
use crate::jsonc;
use crate::rules::{text_of, Platform, RuleList, Tables, Warning};
use crate::when::ClauseId;

/// A command that an extension contributes.
pub struct Contribution {
    pub command: u32,
    pub label: String,
    pub enablement: Option<ClauseId>,
}

/// An item that says when the palette shows a command.
pub struct PaletteItem {
    pub command: u32,
    pub when: Option<ClauseId>,
}

pub struct Manifest {
    pub id: String,
    pub dependencies: Vec<String>,
    pub commands: Vec<Contribution>,
    pub command_warnings: Vec<Warning>,
    pub rules: RuleList,
    pub palette: Vec<PaletteItem>,
    pub palette_warnings: Vec<Warning>,
}

/// The three contribution points, each as a list.
#[derive(Default)]
struct Points<'j> {
    commands: &'j [Json<'j>],
    keybindings: &'j [Json<'j>],
    palette: &'j [Json<'j>],
}

impl Manifest {
    pub fn read(bytes: &mut [u8], platform: Platform, tables: &mut Tables) -> Result<Manifest, Fault> {
        let json = jsonc::read(bytes)?;
        let Json::Object(members) = &json else { return Err(Fault::WrongShape) };
        let name = members.get("name").ok_or(Fault::MissingMember)?;
        let named = |it: &Json| it.as_text().filter(|it| !it.is_empty()).map(str::to_owned);
        let name = named(name).ok_or(Fault::WrongShape)?;
        let publisher = match members.get("publisher") {
            Some(publisher) => named(publisher).ok_or(Fault::WrongShape)?,
            None => "undefined_publisher".to_owned(),
        };
        let dependencies = match members.get("extensionDependencies") {
            Some(list) => list.as_texts().ok_or(Fault::WrongShape)?,
            None => Vec::new(),
        };
        let mut manifest = Manifest {
            id: format!("{publisher}.{name}"),
            dependencies: dependencies.into_iter().map(str::to_owned).collect(),
            commands: Vec::new(),
            command_warnings: Vec::new(),
            rules: RuleList::default(),
            palette: Vec::new(),
            palette_warnings: Vec::new(),
        };
        manifest.contribute(Points::of(members)?, platform, tables);
        Ok(manifest)
    }

    fn contribute(&mut self, points: Points, platform: Platform, tables: &mut Tables) {
        for (place, entry) in points.commands.iter().enumerate() {
            let warned = self.add_command(entry, tables).unwrap_or_else(Some);
            self.command_warnings.extend(warned.map(|fault| Warning { fault, place }));
        }
        for entry in points.keybindings {
            self.rules.add(entry, Some(platform), tables);
        }
        for (place, entry) in points.palette.iter().enumerate() {
            let warned = self.add_palette_item(entry, tables).unwrap_or_else(Some);
            self.palette_warnings.extend(warned.map(|fault| Warning { fault, place }));
        }
    }

    /// The warning of an entry that is kept, or the fault of one that is dropped.
    fn add_command(&mut self, entry: &Json, tables: &mut Tables) -> Result<Option<Fault>, Fault> {
        let Json::Object(members) = entry else { return Err(Fault::WrongShape) };
        let command = text_of(members, "command")?.ok_or(Fault::MissingMember)?;
        let title = text_of(members, "title")?.ok_or(Fault::MissingMember)?;
        let category = text_of(members, "category")?;
        let enablement = text_of(members, "enablement")?;
        let label = match category {
            Some(category) => format!("{category}: {title}"),
            None => title.to_owned(),
        };
        let (enablement, warning) = enablement.map_or((None, None), |it| clause(it, tables));
        let command = tables.commands.add(command);
        self.commands.push(Contribution { command, label, enablement });
        Ok(warning)
    }

    fn add_palette_item(&mut self, entry: &Json, tables: &mut Tables) -> Result<Option<Fault>, Fault> {
        let Json::Object(members) = entry else { return Err(Fault::WrongShape) };
        let command = text_of(members, "command")?.ok_or(Fault::MissingMember)?;
        let when = text_of(members, "when")?.filter(|it| !it.bytes().all(jsonc::is_blank));
        let (when, warning) = when.map_or((None, None), |it| clause(it, tables));
        self.palette.push(PaletteItem { command: tables.commands.add(command), when });
        Ok(warning)
    }
}

/// A clause with its warning. One that can't be read is the clause that never holds.
fn clause(text: &str, tables: &mut Tables) -> (Option<ClauseId>, Option<Fault>) {
    match tables.clauses.read(text, &mut tables.keys) {
        Ok(clause) => {
            let is_unread = tables.clauses.has_unread_pattern(clause);
            (Some(clause), is_unread.then_some(Fault::UnreadPattern))
        }
        Err(fault) => (Some(tables.clauses.never()), Some(fault)),
    }
}

impl<'j> Points<'j> {
    fn of(members: &'j Object<'j>) -> Result<Points<'j>, Fault> {
        let Some(contributes) = object(members, "contributes")? else { return Ok(Points::default()) };
        let palette = match object(contributes, "menus")? {
            Some(menus) => list(menus, "commandPalette")?,
            None => &[],
        };
        Ok(Points {
            commands: list(contributes, "commands")?,
            keybindings: list(contributes, "keybindings")?,
            palette,
        })
    }
}

fn object<'j>(members: &'j Object<'j>, name: &str) -> Result<Option<&'j Object<'j>>, Fault> {
    match members.get(name) {
        None => Ok(None),
        Some(Json::Object(object)) => Ok(Some(object)),
        Some(_) => Err(Fault::WrongShape),
    }
}

/// A contribution point: a lone object is a list of one.
fn list<'j>(members: &'j Object<'j>, name: &str) -> Result<&'j [Json<'j>], Fault> {
    match members.get(name) {
        None => Ok(&[]),
        Some(Json::List(list)) => Ok(list),
        Some(alone @ Json::Object(_)) => Ok(std::slice::from_ref(alone)),
        Some(_) => Err(Fault::WrongShape),
    }
}
