//! What the crate answers: to events in and out of order, to refusals, to what records have, and what runs of
//! `keycheck` write.
use pafjirn::{Ending, Engine, Error, File, Keycheck, Kind, Place, Platform, Value};

const LAYOUT: &[u8] = br#"{"scopes":[{"name":"window"},{"name":"editor","parent":"window"}]}"#;
const RULES: &[u8] = br#"[
    {"key":"x","command":"type","args":"t","when":"truth"},
    {"key":"x","command":"type","args":"n","when":"number == -7"},
    {"key":"x","command":"type","args":"w","when":"word == b"},
    {"key":"a b","command":"my.own"},
    {"key":"e","command":""},
    {"key":"s","command":"runCommands","args":{"commands":["buffer.top",{"command":"x\nrun y"}]}}
]"#;
/// Rules for look-ups. Rule 0 has the keys and the command of rule 7; rule 3 takes the key of rule 1, and
/// rules 5 and 6 go on from that of rule 4.
const LOOKED_UP: &[u8] = br#"[
    {"key":"ctrl+a","command":"type","args":"a"},
    {"key":"ctrl+b","command":"type","args":"b"},
    {"key":"shift+Ctrl+c","command":"type","args":"c","when":"k"},
    {"key":"ctrl+b","command":"my.own"},
    {"key":"ctrl+d","command":"other"},
    {"key":"ctrl+d ctrl+e","command":"my.own","args":[1, "e"]},
    {"key":"ctrl+d x","command":""},
    {"key":"ctrl+a","command":"type","args":"A"}
]"#;
const MANIFEST: &str = r#"{"name":"e","publisher":"p","contributes":{"commands":[
    {"command":"buffer.top","title":"Größe"}]}}"#;

fn loaded() -> Result<Engine, Error> {
    let mut engine = Engine::new()?;
    engine.platform(Platform::Mac)?;
    engine.file(File::Layout, LAYOUT)?;
    engine.file(File::User, RULES)?;
    engine.extension(MANIFEST.as_bytes(), None)?;
    assert_eq!(engine.load()?, "");
    Ok(engine)
}

#[test]
fn calls_out_of_order_are_errors() -> Result<(), Error> {
    let mut engine = Engine::new()?;
    assert_eq!(engine.press("x").err(), Some(Error::OutOfOrder));
    assert_eq!(engine.look_up("x"), Err(Error::OutOfOrder));
    assert_eq!(engine.look_up("ctrl+"), Err(Error::NoKey));
    assert_eq!(engine.keys_of("type"), Err(Error::OutOfOrder));
    assert_eq!(engine.continuations(), Err(Error::OutOfOrder));
    engine.file(File::User, b"{")?;
    let refused = Error::Refused("load refused: user 4 Syntax\n".into());
    assert_eq!(engine.load(), Err(refused));
    engine.file(File::User, b"[]")?;
    engine.load()?;
    assert_eq!(engine.file(File::User, b"[]"), Err(Error::OutOfOrder));
    assert_eq!(engine.press("ctrl+").err(), Some(Error::NoKey));
    Ok(())
}

#[test]
fn context_keys_are_set_and_removed() -> Result<(), Error> {
    let mut engine = loaded()?;
    assert_eq!(engine.focus("editor")?.trace(), "focus editor\n");
    engine.set("window", "truth", Value::Truth(true))?;
    engine.press("x")?;
    engine.set("editor", "number", Value::Number(-7))?;
    engine.press("x")?;
    engine.set("editor", "word", Value::Text("b"))?;
    engine.press("x")?;
    engine.unset("editor", "word")?;
    engine.press("x")?;
    assert_eq!(engine.text(), ("tnwn".into(), String::new()));
    let refused = engine.set("nowhere", "truth", Value::Truth(true))?;
    assert_eq!(refused.ending(), Ending::Refused);
    assert_eq!(refused.trace(), "refused 20 UnknownScope\n");
    assert_eq!(engine.line(b"focus nowhere")?.ending(), Ending::Done);
    Ok(())
}

#[test]
fn records_have_what_an_event_took() -> Result<(), Error> {
    let mut engine = loaded()?;
    let chord = engine.press("a")?.record();
    assert_eq!((chord.kind, chord.rule), (Kind::Chording, None));
    let own = engine.press("b")?.record();
    assert_eq!((own.ending, own.kind), (Ending::NotFound, Kind::Started));
    assert_eq!(own.chord.as_deref(), Some("a b"));
    assert_eq!(own.command.as_deref(), Some("my.own"));
    assert_eq!(own.arguments, None);
    let place = Place {
        source: "user".into(),
        above: 3,
    };
    assert_eq!(own.rule, Some(place));
    assert_eq!(own.trace, "key a b: start my.own\nnot found my.own\n");
    assert_eq!(own.step, None);
    let (ending, step) = engine
        .press("s")
        .map(|told| (told.ending(), told.record().step))?;
    assert_eq!(ending, Ending::NotFound);
    let named = step.map(|it| (it.number, it.command));
    assert_eq!(named, Some((2, "x\nrun y".into())));
    let empty = engine.press("e")?.record();
    assert_eq!(empty.command.as_deref(), Some(""));
    let unbound = engine.press("q")?.record();
    assert_eq!((unbound.kind, unbound.command), (Kind::Nothing, None));
    Ok(())
}

/// What a look-up of a key finds of the user's rules: the kind, the keystrokes, the command, the arguments,
/// and how many rules are above the one that is found.
type Seen = (Kind, String, Option<String>, Option<String>, Option<usize>);

fn look_up(engine: &mut Engine, key: &str) -> Result<Seen, Error> {
    let found = engine.look_up(key)?;
    let above = found.rule.map(|rule| {
        assert_eq!(rule.source, "user");
        rule.above
    });
    Ok((
        found.kind,
        found.chord,
        found.command,
        found.arguments,
        above,
    ))
}

/// What a look-up finds whose press starts a command.
fn starts(chord: &str, command: &str, arguments: Option<&str>, above: usize) -> Seen {
    let arguments = arguments.map(String::from);
    (
        Kind::Started,
        chord.into(),
        Some(command.into()),
        arguments,
        Some(above),
    )
}

fn with_look_ups() -> Result<Engine, Error> {
    let mut engine = Engine::new()?;
    engine.file(File::User, LOOKED_UP)?;
    assert_eq!(engine.load()?, "");
    Ok(engine)
}

#[test]
fn look_ups_press_nothing() -> Result<(), Error> {
    let mut engine = with_look_ups()?;
    let typed = starts("ctrl+a", "type", Some("\"A\""), 7);
    assert_eq!(look_up(&mut engine, "ctrl+a")?, typed);
    assert_eq!(engine.text(), (String::new(), String::new()));
    let own = starts("ctrl+b", "my.own", None, 3);
    assert_eq!(look_up(&mut engine, "Ctrl+B")?, own);
    let nothing = (Kind::Nothing, "ctrl+shift+c".into(), None, None, None);
    assert_eq!(look_up(&mut engine, "ctrl+shift+c")?, nothing);
    let chord = (Kind::Chording, "ctrl+d".into(), None, None, None);
    assert_eq!(look_up(&mut engine, "ctrl+d")?, chord);
    assert_eq!(engine.keys_of("type")?, ["ctrl+a"]);
    assert_eq!(engine.keys_of("my.own")?, ["ctrl+d ctrl+e", "ctrl+b"]);
    assert_eq!(engine.keys_of("other")?, [""; 0]);
    assert_eq!(engine.keys_of("no.such")?, [""; 0]);
    assert_eq!(engine.keys_of("")?, ["ctrl+d x"]);
    assert_eq!(engine.continuations()?, ["ctrl+a", "ctrl+d", "ctrl+b"]);
    engine.set("window", "k", Value::Truth(true))?;
    let typed = starts("ctrl+shift+c", "type", Some("\"c\""), 2);
    assert_eq!(look_up(&mut engine, "ctrl+shift+c")?, typed);
    assert_eq!(engine.keys_of("type")?, ["ctrl+a", "ctrl+shift+c"]);
    let all = ["ctrl+a", "ctrl+d", "ctrl+b", "ctrl+shift+c"];
    assert_eq!(engine.continuations()?, all);
    Ok(())
}

#[test]
fn look_ups_go_on_from_an_open_chord() -> Result<(), Error> {
    let mut engine = with_look_ups()?;
    engine.press("ctrl+d")?;
    assert_eq!(engine.continuations()?, ["x", "ctrl+e"]);
    assert_eq!(engine.keys_of("type")?, ["ctrl+a"]);
    let empty = starts("ctrl+d x", "", None, 6);
    assert_eq!(look_up(&mut engine, "x")?, empty);
    let nothing = (Kind::Nothing, "ctrl+d ctrl+a".into(), None, None, None);
    assert_eq!(look_up(&mut engine, "ctrl+a")?, nothing);
    let own = starts("ctrl+d ctrl+e", "my.own", Some("[1,\"e\"]"), 5);
    assert_eq!(look_up(&mut engine, "ctrl+e")?, own);
    assert_eq!(engine.look_up("ctrl+"), Err(Error::NoKey));
    assert_eq!(engine.look_up("ctrl+e x"), Err(Error::NoKey));
    let pressed = engine.press("ctrl+e")?.record();
    assert_eq!(pressed.command.as_deref(), Some("my.own"));
    let trace = "key ctrl+d ctrl+e: start my.own\nnot found my.own\n";
    assert_eq!(pressed.trace, trace);
    assert_eq!(engine.continuations()?, ["ctrl+a", "ctrl+d", "ctrl+b"]);
    Ok(())
}

#[test]
fn lines_and_palettes_are_told() -> Result<(), Error> {
    let mut engine = loaded()?;
    let told: Result<Vec<_>, _> = engine.records(["key q", "focus editor"]).collect();
    let traces: Vec<_> = told?.into_iter().map(|record| record.trace).collect();
    assert_eq!(traces, ["key q: unbound\n", "focus editor\n"]);
    engine.palette("grösse")?;
    let entries: Vec<_> = engine.entries().collect();
    assert_eq!(entries.len(), 1);
    assert_eq!(
        (&*entries[0].label, &*entries[0].command),
        ("Größe", "buffer.top")
    );
    assert_eq!(engine.choose(2)?.ending(), Ending::Refused);
    assert_eq!(
        engine.choose(1)?.record().command.as_deref(),
        Some("buffer.top")
    );
    assert_eq!(engine.entries().count(), 0);
    Ok(())
}

#[test]
fn a_long_trace_is_read_whole() -> Result<(), Error> {
    let mut engine = loaded()?;
    let name = "n".repeat(10_000);
    let line = format!("disable {name}");
    assert_eq!(
        engine.line(line.as_bytes())?.trace(),
        "refused 92 UnknownExtension\n"
    );
    let mut text = b"of the host".to_vec();
    engine
        .set("window", &name, Value::Truth(true))?
        .read_trace(&mut text);
    assert_eq!(text, format!("set window {name}\n").into_bytes());
    Ok(())
}

#[test]
fn keycheck_shows_what_is_wrong_in_files() -> Result<(), Error> {
    let mut keycheck = Keycheck::new()?;
    keycheck.put("ü/keys", b"[\n  {\"key\":\"a\"} ]")?;
    let words = ["check", "--user", "ü/keys"];
    let checked = keycheck.run(words)?;
    assert_eq!((checked.status, &*checked.errors), (1, ""));
    let shown = "ü/keys:2:3: error: 40 MissingMember: the rule has no member `command`; the rule is dropped\n\
        \u{20}     {\"key\":\"a\"} ]\n\u{20}     ^\n1 problem: 1 error\n";
    assert_eq!(checked.output, shown);
    assert_eq!(keycheck.run(words)?, checked);
    keycheck.put("ü/keys", b"[]")?;
    let fine = keycheck.run(words)?;
    assert_eq!((fine.status, &*fine.output, &*fine.errors), (0, "", ""));
    keycheck.remove("ü/keys");
    keycheck.remove("ü/keys");
    let missing = keycheck.run(words)?;
    assert_eq!((missing.status, &*missing.output), (3, ""));
    assert_eq!(
        missing.errors,
        "cannot read ü/keys: there is no such file\n"
    );
    Ok(())
}

#[test]
fn keycheck_gets_the_words_of_one_run_and_its_own_files() -> Result<(), Error> {
    let mut keycheck = Keycheck::new()?;
    let none: [&str; 0] = [];
    assert_eq!(keycheck.run(none)?.status, 2);
    let version = keycheck.run(vec![String::from("--version")])?;
    assert_eq!((version.status, &*version.errors), (0, ""));
    assert!(version.output.starts_with("keycheck "));
    let mut other = Keycheck::new()?;
    other.put("k", b"[]")?;
    assert_eq!(other.run(["list", "--user", "k"])?.status, 0);
    assert_eq!(keycheck.run(["list", "--user", "k"])?.status, 3);
    Ok(())
}
