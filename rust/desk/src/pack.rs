//! A text's values as the bytes of a file. The library judges them; where it refuses a value, the line that gave it is named.

use crate::file;
use crate::table::{Form, Kind, Over, Slot, Value, FORM, FORMS, KINDS};
use crate::text::{self, Fault, Row};
use crate::unit::Unread;
use crate::words;
use fikrem::{Reason, Refusal};
use std::collections::BTreeMap;

/// The rows by their names.
type Named<'a> = BTreeMap<&'a str, &'a Row>;

/// The file that a text gives, or all that is wrong with it.
pub fn packed(text: &str) -> Result<(&'static Kind, Vec<u8>), Vec<Fault>> {
    let (rows, mut faults) = text::rows(text);
    let named = named(&rows, &mut faults);
    let Some(kind) = kind_of(&named, &mut faults) else { return Err(faults) };
    let said = form_said(&named, &mut faults);
    let widest = said.unwrap_or(Form::TwoBytes);
    let numbers = numbers(kind, widest, &named, &mut faults);
    if !faults.is_empty() {
        faults.sort_by_key(|fault| fault.line.unwrap_or(usize::MAX));
        return Err(faults);
    }
    let fitting = Form::fitting(numbers.iter().map(|given| (given.slot.value, given.number)));
    let bytes = encoded(kind, said.unwrap_or(fitting), &numbers);
    match (kind.judge)(&bytes) {
        Ok(()) => Ok((kind, bytes)),
        Err(refusal) => Err(vec![judged(kind, &bytes, refusal, widest, &named)]),
    }
}

/// The library's refusal of a text's file, with the line of the value that it is about. What is allowed is said of the
/// widest form that the text may have.
fn judged(kind: &Kind, bytes: &[u8], refusal: Refusal, widest: Form, named: &Named) -> Fault {
    match words::wrong_value(kind, bytes, refusal.place, widest).filter(|_| refusal.reason == Reason::ValueNotListed) {
        Some(wrong) => {
            let row = named.get(text::plain(&wrong.name).as_str());
            Fault { line: row.map(|row| row.line), words: wrong.words }
        }
        None => Fault { line: None, words: words::of_file(kind, bytes, refusal).0 },
    }
}

/// Each name with the row that gives it; a second one is a fault.
fn named<'a>(rows: &'a [Row], faults: &mut Vec<Fault>) -> Named<'a> {
    let mut named = Named::new();
    for row in rows {
        match named.get(row.name.as_str()) {
            None => {
                named.insert(&row.name, row);
            }
            Some(first) => {
                let words = format!("{} stands on line {} already, allowed is once", row.name, first.line);
                faults.push(Fault { line: Some(row.line), words });
            }
        }
    }
    named
}

/// What the line `file` says.
fn kind_of(named: &Named, faults: &mut Vec<Fault>) -> Option<&'static Kind> {
    let row = named.get(text::FILE);
    let kind = row.and_then(|row| KINDS.into_iter().find(|kind| kind.name == text::plain(&row.value)));
    if kind.is_none() {
        let names = KINDS.map(|kind| kind.name).join(" or ");
        let words = match row {
            Some(row) => format!("{} is {}, allowed are {names}", text::FILE, row.value),
            None => format!("{} is missing, allowed are {names}", text::FILE),
        };
        faults.push(Fault { line: row.map(|row| row.line), words });
    }
    kind
}

/// What the line of the form says, if there is one.
fn form_said(named: &Named, faults: &mut Vec<Fault>) -> Option<Form> {
    let row = named.get(FORM.name)?;
    match number(FORM.name, &FORM, Form::OneByte, &row.value) {
        Ok(number) => FORMS.into_iter().find(|form| form.number() == number),
        Err(words) => {
            faults.push(Fault { line: Some(row.line), words });
            None
        }
    }
}

/// A value, and the number that its row gives.
struct Given {
    slot: Slot,
    number: u64,
}

/// The values that the rows give, in the table's order; unknown and missing names are faults.
fn numbers(kind: &Kind, widest: Form, named: &Named, faults: &mut Vec<Fault>) -> Vec<Given> {
    let slots = kind.slots();
    let names: Vec<String> = slots.iter().map(|slot| text::plain(&slot.name())).collect();
    let known = |name: &String| [text::FILE, FORM.name].contains(&name.as_str()) || names.contains(name);
    for row in named.values().filter(|row| !known(&row.name)) {
        let words = format!("{} is no name of a {}, allowed are those of `fikrem template`", row.name, kind.name);
        faults.push(Fault { line: Some(row.line), words });
    }
    let rows: Vec<Option<&Row>> = names.iter().map(|name| named.get(name.as_str()).copied()).collect();
    let mut numbers = Vec::new();
    for (slot, row) in slots.iter().zip(&rows) {
        let read = match row {
            Some(row) => number(&slot.name(), slot.value, widest, &row.value),
            None if needed(slot, &slots, &rows) => {
                Err(format!("{} is missing, allowed are {}", slot.name(), allowed(slot.value, widest)))
            }
            None => continue,
        };
        match read {
            Ok(number) => numbers.push(Given { slot: *slot, number }),
            Err(words) => faults.push(Fault { line: row.map(|row| row.line), words }),
        }
    }
    numbers
}

/// Whether a value must be there: all but later years and zones, and of those what stands before one that is there.
fn needed(slot: &Slot, slots: &[Slot], rows: &[Option<&Row>]) -> bool {
    if !matches!(slot.field.over, Over::Years | Over::Zones) || (slot.round == 0 && slot.time == 0) {
        return true;
    }
    let given = slots.iter().zip(rows).filter(|(other, row)| row.is_some() && other.field.tag == slot.field.tag);
    given.into_iter().any(|(other, _)| (other.time, other.round) >= (slot.time, slot.round))
}

/// What is allowed for a value of a text in this form; where that is less than in the other, by which line.
fn allowed(value: &Value, form: Form) -> String {
    let allowed = words::allowed(value, form);
    if value.width(form) == value.width(Form::TwoBytes) {
        allowed
    } else {
        format!("{allowed}, where {} is {}", FORM.name, FORM.unit.said(form.number()))
    }
}

/// The number that a value's text says, if it has the value's width in this form.
fn number(name: &str, value: &Value, form: Form, text: &str) -> Result<u64, String> {
    let allowed = allowed(value, form);
    if text.is_empty() {
        return Err(format!("{name} has no value, allowed are {allowed}"));
    }
    let wrong = match value.unit.read(text) {
        Ok(number) if number <= value.highest(form) => return Ok(number),
        Ok(_) | Err(Unread::NoFigure) => allowed,
        Err(Unread::Decimals) => format!("at most {} decimals", value.unit.decimals()),
        Err(Unread::Commas) => format!("commas where all {} decimals follow, or none", value.unit.decimals()),
    };
    Err(format!("{name} is {text}, allowed are {wrong}"))
}

/// The file of these values in a form that has room for them, with its check.
fn encoded(kind: &Kind, form: Form, numbers: &[Given]) -> Vec<u8> {
    let mut bytes = Vec::new();
    put_field(&mut bytes, 1, kind.letters.as_bytes());
    for (tag, field) in kind.fields_in(form) {
        for time in 0..field.times() {
            let mut value = Vec::new();
            for given in numbers.iter().filter(|given| given.slot.field.tag == field.tag && given.slot.time == time) {
                // no number is above the highest of its width
                let _ = file::put(&mut value, given.number, given.slot.value.width(form));
            }
            if !value.is_empty() {
                put_field(&mut bytes, tag, &value);
            }
        }
    }
    file::closed(bytes)
}

fn put_field(bytes: &mut Vec<u8>, tag: u8, value: &[u8]) {
    bytes.push(tag);
    // no field of the table has as much as two bytes can't count
    let _ = file::put(bytes, value.len() as u64, 2);
    bytes.extend(value);
}
