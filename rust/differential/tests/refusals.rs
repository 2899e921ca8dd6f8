//! The table of docs/REFUSALS.md is what header, Rattle, wrapper and reference have: number, name and words of each refusal.

use fikrem::Reason;
use reference::Refusal;
use std::fs::read_to_string;
use std::path::Path;

fn text(name: &str) -> String {
    let path = Path::new(env!("CARGO_MANIFEST_DIR")).join("../..").join(name);
    read_to_string(&path).unwrap_or_else(|error| panic!("{}: {error}", path.display()))
}

/// A row of the table.
struct Row {
    number: u8,
    name: String,
    documents: String,
    words: String,
}

fn table() -> Vec<Row> {
    let cells =
        |line: &str| Some(line.strip_prefix("| ")?.strip_suffix(" |")?.split(" | ").map(str::to_string).collect());
    let text = text("docs/REFUSALS.md");
    let lines = text.lines().filter_map(cells).filter(|cells: &Vec<String>| cells[0] != "Number");
    let row = |cells: Vec<String>| {
        let [number, name, documents, words] = cells.try_into().expect("four cells");
        Row { number: number.parse().expect("a number"), name, documents, words }
    };
    lines.map(row).collect()
}

/// What stands on each line between these marks, with the comment above it.
fn between<'a>(text: &'a str, before: &str, after: &str) -> Vec<(String, &'a str)> {
    let (mut found, mut comment) = (Vec::new(), String::new());
    for line in text.lines() {
        if let Some(named) = line.strip_prefix(before).and_then(|line| line.strip_suffix(after)) {
            found.push((comment.clone(), named));
        }
        match line.strip_prefix("/// ").or_else(|| line.strip_prefix("-- ")) {
            Some(words) => comment += words,
            None => comment.clear(),
        }
    }
    found
}

#[test]
fn numbers_from_1_on() {
    let numbers: Vec<_> = table().iter().map(|row| row.number).collect();
    assert_eq!(numbers, (1..=16).collect::<Vec<_>>());
}

#[test]
fn of_the_header() {
    let header = text("include/fikrem.h");
    let (_, rest) = header.split_once("    FIKREM_DONE = 0,\n").expect("the enumerators");
    let (refusals, _) = rest.split_once("};").expect("their end");
    let seen: Vec<_> = refusals.lines().map(|line| line.split_whitespace().collect::<Vec<_>>().join(" ")).collect();
    let last = table().len();
    let line = |Row { number, name, words, .. }: Row| {
        format!("FIKREM_{name} = {number}{} /* {words} */", if usize::from(number) < last { "," } else { "" })
    };
    assert_eq!(seen, table().into_iter().map(line).collect::<Vec<_>>());
}

#[test]
fn of_rattles_code() {
    let code = text("crates/tagged/src/refusals.rt");
    let seen: Vec<_> = between(&code, "pub const ", ";").into_iter().map(|(_, constant)| constant).collect();
    let constants: Vec<_> = table().iter().map(|row| format!("{}: u8 = {}", row.name, row.number)).collect();
    assert_eq!(seen, constants);
}

#[test]
fn of_rattles_definitions() {
    let definitions = text("crates/tagged/specs/Refusals.antt");
    let seen = between(&definitions, "abbrev pub ", " : \u{2115}");
    assert_eq!(seen.len(), table().len());
    for (Row { number, name, documents, .. }, (comment, defined)) in table().iter().zip(seen) {
        let name = name.to_lowercase();
        assert_eq!(defined, name);
        assert!(definitions.contains(&format!("\n{name} = {number}\n")), "{name} isn't {number}");
        assert!(comment.contains(&format!("\"{documents}\"")), "{comment}");
    }
}

#[test]
fn of_the_wrapper() {
    for Row { number, name, words, .. } in table() {
        let reason = Reason::from(number);
        let part = |part: &str| part[..1].to_string() + &part[1..].to_lowercase();
        assert_eq!(format!("{reason:?}"), name.split('_').map(part).collect::<String>());
        assert_eq!((reason.number(), reason.to_string()), (number, words));
    }
    for number in [0].into_iter().chain(17..=u8::MAX) {
        assert_eq!(Reason::from(number), Reason::Unknown(number));
        assert_eq!(Reason::from(number).number(), number);
    }
}

#[test]
fn of_the_reference() {
    let code = text("rust/reference/src/refusal.rs");
    let files = ["BOOK", "REQUEST"].map(|file| format!("{file}: "));
    let mut seen = between(&code, "pub const ", ";");
    seen.retain(|(_, constant)| !files.iter().any(|file| constant.starts_with(file)));
    assert_eq!(seen.len(), table().len());
    for (Row { number, name, documents, words }, (comment, constant)) in table().into_iter().zip(seen) {
        assert_eq!(constant, format!("{name}: u8 = {number}"));
        assert!(comment.contains(&format!("\"{documents}\"")), "{comment}");
        assert_eq!(Refusal::of_call(number).words(), words);
    }
}
