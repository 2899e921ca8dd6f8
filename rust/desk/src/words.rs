//! What is allowed, what a value is and what a refusal is about, in words.

use crate::file::{self, Found, Part, CHECK_HEAD, TAIL_SIZE};
use crate::table::{Field, Form, Kind, Limits, Over, Slot, Value, FORM, FORMS, TIERS};
use crate::unit::Unit;
use fikrem::{Reason, Refusal};

/// The words with commas between them and 'or' before the last.
fn one_of(words: &[&str]) -> String {
    match words {
        [] => String::new(),
        [word] => word.to_string(),
        [first @ .., last] => format!("{} or {last}", first.join(", ")),
    }
}

fn from_to(unit: Unit, low: u64, high: u64) -> String {
    match unit {
        Unit::Choice(words) => one_of(words),
        _ => format!("{} to {}", unit.said(low), unit.said(high)),
    }
}

/// What is allowed for a value in a form, whatever the others are.
pub fn allowed(value: &Value, form: Form) -> String {
    let any = from_to(value.unit, 0, value.highest(form));
    match value.limits {
        Limits::Within(low, high) => from_to(value.unit, low, high),
        Limits::Any => any,
        Limits::UpTo(other) => format!("{} to the {other}", value.unit.said(0)),
        Limits::Rising => format!("{any}, above that of the zone before"),
        Limits::Only(most, name, word) => {
            format!("{} where {name} is {word}, otherwise {}", from_to(value.unit, 0, most), value.unit.said(0))
        }
        Limits::Sums(other) => format!("{any}, together at most the {other} together, which isn't 0"),
    }
}

/// What is allowed for a value in a form, beside the others of its file.
fn allowed_in(found: &Found, all: &[Found], form: Form) -> String {
    let value = found.slot.value;
    let other = |name: &str| all.iter().find(|other| other.slot.value.name == name);
    let beside = match value.limits {
        Limits::UpTo(name) => other(name).map(|other| format!("{}, the {name}", from_to(value.unit, 0, other.number))),
        Limits::Rising => zone_before(found, all).map(|last| above(last, value.highest(form))),
        Limits::Only(most, name, word) => other(name).map(|other| match other.slot.value.unit.said(other.number) {
            said if said == word => from_to(value.unit, 0, most),
            said => format!("{} where {name} is {said}", value.unit.said(0)),
        }),
        Limits::Within(..) | Limits::Any | Limits::Sums(_) => None,
    };
    beside.unwrap_or_else(|| allowed(value, form))
}

/// The same value of the zone before.
fn zone_before<'a>(found: &Found, all: &'a [Found]) -> Option<&'a Found> {
    let time = found.slot.time.checked_sub(1)?;
    let same = |slot: Slot| slot.field.tag == found.slot.field.tag && slot.value.name == found.slot.value.name;
    all.iter().find(|other| same(other.slot) && other.slot.time == time)
}

/// The numbers above a value's.
fn above(last: &Found, highest: u64) -> String {
    let (name, unit) = (last.slot.name(), last.slot.value.unit);
    if last.number < highest {
        format!("{}, above the {name}", from_to(unit, last.number + 1, highest))
    } else {
        format!("none above the {name}, {}", unit.said(last.number))
    }
}

/// A value with its name and its unit.
pub fn named(found: &Found) -> String {
    let unit = found.slot.value.unit;
    format!("{} {}{}", found.slot.name(), unit.said(found.number), unit.suffix())
}

/// All of a field's values of this name together.
fn together(field: &Field, name: &str, all: &[Found]) -> u64 {
    let of_name = all.iter().filter(|found| found.slot.field.tag == field.tag && found.slot.value.name == name);
    of_name.fold(0, |sum, found| sum.saturating_add(found.number))
}

/// A value that the library refused: what it is called, its field, and what is wrong with it.
pub struct Wrong {
    pub name: String,
    pub field: &'static Field,
    pub words: String,
}

/// The value that the library refused at this offset; what is allowed is said of this form.
pub fn wrong_value(kind: &Kind, bytes: &[u8], place: usize, form: Form) -> Option<Wrong> {
    let all = file::values(kind, bytes);
    let found = all.iter().find(|found| found.offset == place)?;
    let (name, value) = (found.slot.name(), found.slot.value);
    let said = |number| format!("{}{}", value.unit.said(number), value.unit.suffix());
    let words = match value.limits {
        Limits::Sums(other) => {
            let [sum, most] = [value.name, other].map(|name| together(found.slot.field, name, &all));
            format!(
                "{} together is {}, allowed are 0 to the {other} together, {}, which isn't 0",
                value.name,
                said(sum),
                said(most)
            )
        }
        _ => format!("{name} is {}, allowed are {}", said(found.number), allowed_in(found, &all, form)),
    };
    Some(Wrong { name, field: found.slot.field, words })
}

/// The lengths that a field may have in a form.
fn lengths(field: &Field, form: Form) -> String {
    let size = field.round_size(form);
    match field.rounds() {
        (least, most) if least == most => format!("{}", least * size),
        (least, most) => format!("{} to {} in steps of {size}", least * size, most * size),
    }
}

fn length_fits(field: &Field, form: Form, length: usize) -> bool {
    let (least, most) = field.rounds();
    (least..=most).any(|rounds| rounds * field.round_size(form) == length)
}

/// The tags that may stand after these in a file of a form; none where it doesn't begin with these.
fn due_in(kind: &Kind, form: Form, before: &[u8]) -> Vec<u8> {
    let fields = kind.fields_in(form);
    let mut due = vec![1];
    for (index, tag) in before.iter().enumerate() {
        if !due.contains(tag) {
            return Vec::new();
        }
        let times = before.iter().take(index + 1).filter(|other| *other == tag).count();
        let again = fields.iter().any(|(other, field)| other == tag && times < field.times());
        let next = fields.iter().map(|(other, _)| *other).find(|other| other > tag);
        due = again.then_some(*tag).into_iter().chain([next.unwrap_or(0xFF)]).collect();
    }
    due
}

/// The tags that may stand after these, in the forms that begin with these.
fn due(kind: &Kind, before: &[u8]) -> Vec<u8> {
    let mut tags: Vec<u8> = FORMS.into_iter().flat_map(|form| due_in(kind, form, before)).collect();
    tags.sort_unstable();
    tags.dedup();
    tags
}

fn tags_said(tags: &[u8]) -> String {
    tags.iter().map(|tag| format!("{tag:02X}")).collect::<Vec<_>>().join(" or ")
}

/// The tag of the same field in the other form, if it is another.
fn other_form(kind: &Kind, tag: u8) -> Option<u8> {
    let (field, _) = kind.field_of(tag)?;
    FORMS.into_iter().map(|form| field.tag_in(form)).find(|other| *other != tag)
}

/// Neither form of a field is there, and all else stands: what is missing where the first form was due.
fn missing(kind: &Kind, place: usize) -> Option<String> {
    let slot = kind.slots().into_iter().find(|slot| slot.field.wide_tag.is_some())?;
    let [first, second] = FORMS.map(|form| slot.field.tag_in(form));
    let name = slot.name();
    Some(format!("field {first:02X} or {second:02X} with the {name} is missing, {first:02X} is due at offset {place}"))
}

/// Why a file can't end where these tags are due.
fn no_end(kind: &Kind, due: &[u8], place: usize) -> String {
    let of_one_field = kind.fields.iter().any(|field| FORMS.map(|form| field.tag_in(form)) == due);
    let missing = missing(kind, place).filter(|_| of_one_field);
    missing.unwrap_or_else(|| format!("it ends at offset {place}, where field {} is due", tags_said(due)))
}

/// Why a field can't stand after those before it, where these tags are due and the check starts at `end`.
fn no_place(kind: &Kind, part: &Part, before: &[u8], due: &[u8], end: usize) -> String {
    let head = format!("field {:02X} at offset {}", part.tag, part.start);
    if !due.contains(&part.tag) {
        return match other_form(kind, part.tag).filter(|other| before.contains(other)) {
            Some(other) => {
                format!("{head} stands after field {other:02X}: a {} has one of the two, not both", kind.name)
            }
            None => format!("{head} stands where field {} is due", tags_said(due)),
        };
    }
    match kind.field_of(part.tag) {
        Some((field, form)) if !length_fits(field, form, part.length) => {
            format!("{head} has length {}, allowed are {}", part.length, lengths(field, form))
        }
        None if part.tag == 0xFF => format!("{head} stands before the file's end"),
        None if part.length != 4 => format!("{head} has length {}, allowed are 4", part.length),
        _ if part.end() > end => {
            format!("{head} has length {} and goes past the check at offset {end}", part.length)
        }
        _ => missing(kind, part.start).unwrap_or_else(|| format!("{head} can't stand there")),
    }
}

/// Why a file doesn't walk at this offset.
fn no_walk(kind: &Kind, bytes: &[u8], place: usize) -> String {
    let end = bytes.len().saturating_sub(TAIL_SIZE);
    if bytes.len() < TAIL_SIZE || !bytes.iter().skip(end).take(CHECK_HEAD.len()).eq(&CHECK_HEAD) {
        return format!(
            "its {} bytes don't end in a check, FF 00 02 and two bytes: it is cut short, or no packed file",
            bytes.len()
        );
    }
    let before: Vec<u8> = file::parts(bytes).iter().filter(|part| part.start < place).map(|part| part.tag).collect();
    let due = due(kind, &before);
    match file::part_at(bytes, place).filter(|_| place < end) {
        Some(part) => no_place(kind, &part, &before, &due, end),
        None => no_end(kind, &due, place),
    }
}

fn hex(bytes: &[u8]) -> String {
    bytes.iter().map(|byte| format!("{byte:02X}")).collect::<Vec<_>>().join(" ")
}

/// A refusal of a file itself, by 1, 2 or 3, in words; and for 3 the tag of the field that the place is in.
pub fn of_file(kind: &Kind, bytes: &[u8], refusal: Refusal) -> (String, Option<u8>) {
    let (place, form) = (refusal.place, file::form_of(kind, bytes));
    match refusal.reason {
        Reason::FileDoesNotWalk => (no_walk(kind, bytes, place), None),
        Reason::CheckDiffers => {
            let given = fikrem::check(bytes.get(..place).unwrap_or_default()).to_be_bytes();
            let (kept, given) = (hex(bytes.get(place..).unwrap_or_default()), hex(&given));
            let words = format!("its check at offset {place} is {kept}, its other bytes give {given}");
            (format!("{words}: it was changed after it was packed"), None)
        }
        Reason::ValueNotListed => match wrong_value(kind, bytes, place, form) {
            Some(wrong) => (wrong.words, Some(wrong.field.tag_in(form))),
            None => {
                let letters: String =
                    bytes.iter().skip(place).take(4).map(|&byte| byte.escape_ascii().to_string()).collect();
                (format!("its letters are {letters}, allowed are {}", kind.letters), Some(1))
            }
        },
        reason => (reason.to_string(), None),
    }
}

/// A refusal by 5.
pub fn not_allowed(tier: usize) -> String {
    let name = tier.checked_sub(1).and_then(|place| TIERS.get(place)).unwrap_or(&"");
    format!("tier {tier} ({name}): the bespoke rate lies within 80% to 150% of the posted one, or none is posted")
}

/// A value's unit, what is allowed in the form that allows the most, and its note.
fn described(value: &Value) -> String {
    let mut words = vec![value.unit.suffix().trim_start().to_string(), allowed(value, Form::TwoBytes)];
    if value.unit.decimals() > 0 {
        words.push(format!("at most {} decimals", value.unit.decimals()));
    }
    words.push(value.note.to_string());
    words.retain(|word| !word.is_empty());
    words.join(", ")
}

/// The notes above a field's lines in a text, one for values that are alike.
pub fn notes(field: &Field) -> Vec<String> {
    let alike = field.values.chunk_by(|one, next| described(one) == described(next));
    let note = |values: &[Value]| match values {
        [] => String::new(),
        [value] => format!("# {}: {}", value.name, described(value)),
        [first, .., last] => format!("# {} to {}: {}", first.name, last.name, described(first)),
    };
    let mut notes: Vec<String> = alike.map(note).collect();
    match field.over {
        Over::Years => notes.push("# up to year 7; the last given holds for all later years".to_string()),
        Over::Zones => notes.push("# up to the eighth zone".to_string()),
        Over::Nothing | Over::Pairs | Over::Tiers => {}
    }
    if field.wide_tag.is_some() {
        notes.push(format!("# {}: {}", FORM.name, described(&FORM)));
    }
    notes
}
