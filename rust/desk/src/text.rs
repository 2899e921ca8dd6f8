//! Texts: a name and its value on each line. What spreadsheets export is read, and `name = value`.

use crate::file::{self, Found};
use crate::table::{Field, Form, Kind, FORM};
use crate::words;

/// The name of the line that says what the file is.
pub const FILE: &str = "file";

/// A line that gives a value.
pub struct Row {
    pub line: usize,
    pub name: String,
    pub value: String,
}

/// What is wrong with a text: on which line, if it is one line's.
#[derive(Debug, Clone, PartialEq, Eq)]
pub struct Fault {
    pub line: Option<usize>,
    pub words: String,
}

/// The first of these on a line, outside quotes, stands between its columns.
const SEPARATORS: [char; 4] = [',', ';', '\t', '='];

/// A line's columns without quotes; none where a quote isn't closed.
fn columns(line: &str) -> Option<Vec<String>> {
    let (mut columns, mut column) = (Vec::new(), String::new());
    let (mut separator, mut quoted) = (None, false);
    let mut letters = line.chars().peekable();
    while let Some(letter) = letters.next() {
        let separates = separator.map_or(SEPARATORS.contains(&letter), |separator| separator == letter);
        if letter == '"' && quoted && letters.peek() == Some(&'"') {
            letters.next();
            column.push('"');
        } else if letter == '"' {
            quoted = !quoted;
        } else if separates && !quoted {
            separator = Some(letter);
            columns.push(std::mem::take(&mut column));
        } else {
            column.push(letter);
        }
    }
    columns.push(column);
    (!quoted).then(|| columns.iter().map(|column| column.trim().to_string()).collect())
}

/// In small letters, with single blanks.
pub fn plain(name: &str) -> String {
    name.split_whitespace().collect::<Vec<_>>().join(" ").to_lowercase()
}

/// A line's name and value; none of a blank line, a comment or a heading.
fn row(line: usize, text: &str) -> Result<Option<Row>, Fault> {
    let fault = |words: &str| Err(Fault { line: Some(line), words: words.to_string() });
    if text.trim_start().trim_start_matches('"').trim_start().starts_with('#') {
        return Ok(None);
    }
    let Some(mut columns) = columns(text) else { return fault("a quote isn't closed") };
    while columns.last().is_some_and(String::is_empty) {
        columns.pop();
    }
    let (name, value) = match columns.as_slice() {
        [] => return Ok(None),
        [name] => (name, ""),
        [name, value] => (name, value.as_str()),
        _ => return fault(
            "there are more than two columns, allowed are a name and its value; a value with commas stands in quotes",
        ),
    };
    if plain(name) == "name" && plain(value) == "value" {
        return Ok(None);
    }
    Ok(Some(Row { line, name: plain(name), value: value.to_string() }))
}

/// The lines that give values, and what is wrong with the others.
pub fn rows(text: &str) -> (Vec<Row>, Vec<Fault>) {
    let (mut rows, mut faults) = (Vec::new(), Vec::new());
    let text = text.strip_prefix('\u{FEFF}').unwrap_or(text);
    for (index, line) in text.lines().enumerate() {
        match row(index + 1, line) {
            Ok(row) => rows.extend(row),
            Err(fault) => faults.push(fault),
        }
    }
    (rows, faults)
}

/// The text of a file's values, with notes of units and limits above those of each field; and what it says of the form.
fn of_values(kind: &Kind, form: Option<Form>, found: &[Found]) -> String {
    let mut text = format!("# A {}: a name and its value on each line.\n{FILE},{}\n", kind.name, kind.name);
    let mut last: Option<&Field> = None;
    for found in found {
        let field = found.slot.field;
        if last.is_none_or(|last| last.tag != field.tag) {
            for note in words::notes(field) {
                text += &format!("{note}\n");
            }
            if let Some(form) = form.filter(|_| field.wide_tag.is_some()) {
                text += &format!("{},{}\n", FORM.name, FORM.unit.written(form.number()));
            }
            last = Some(field);
        }
        text += &format!("{},{}\n", found.slot.name(), found.slot.value.unit.written(found.number));
    }
    text
}

/// The text that packs to a file, which the library has judged. It says the form where its values would have another.
pub fn of_file(kind: &Kind, bytes: &[u8]) -> String {
    let mut found = file::values(kind, bytes);
    found.sort_by_key(|found| found.slot.field.tag);
    let fitting = Form::fitting(found.iter().map(|found| (found.slot.value, found.number)));
    let form = Some(file::form_of(kind, bytes)).filter(|form| *form != fitting);
    of_values(kind, form, &found)
}
