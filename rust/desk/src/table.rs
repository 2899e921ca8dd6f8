//! The one table of fields: by it a text is packed, a file is shown and a refusal's place is named. The limits stand here
//! for the words alone; the library judges, and a test holds each of them against it.

use crate::unit::Unit;
use fikrem::Refusal;

/// A kind of file.
pub struct Kind {
    pub name: &'static str,
    pub letters: &'static str,
    /// Its fields after 01, in the order of their tags where zone numbers have one byte; that is the order of a text in
    /// both forms.
    pub fields: &'static [Field],
    /// The library's judgement of a file of this kind.
    pub judge: fn(&[u8]) -> Result<(), Refusal>,
}

/// The two forms of a file, by the bytes that its zone numbers have.
#[derive(Debug, Clone, Copy, PartialEq, Eq)]
pub enum Form {
    OneByte,
    TwoBytes,
}

pub const FORMS: [Form; 2] = [Form::OneByte, Form::TwoBytes];

/// A field: its tag, what its values are repeated over, and those values.
pub struct Field {
    pub tag: u8,
    /// The tag in files with two-byte zone numbers, where that is another.
    pub wide_tag: Option<u8>,
    pub over: Over,
    pub values: &'static [Value],
}

/// What the values of a field are repeated over.
#[derive(Debug, Clone, Copy, PartialEq, Eq)]
pub enum Over {
    Nothing,
    Pairs,
    Tiers,
    /// One to eight years, as the field's length says.
    Years,
    /// One to eight zones, each a field of its own.
    Zones,
}

/// A value: what it is called, its unit and its limits.
pub struct Value {
    pub name: &'static str,
    /// How many bytes it has, by the file's form.
    widths: (usize, usize),
    pub unit: Unit,
    pub limits: Limits,
    /// What else a text says of it.
    pub note: &'static str,
}

/// What is allowed.
#[derive(Debug, Clone, Copy, PartialEq, Eq)]
pub enum Limits {
    /// From the one to the other, both included.
    Within(u64, u64),
    /// Any number of its bytes.
    Any,
    /// From 0 to another value of the same field.
    UpTo(&'static str),
    /// Above the same value of the zone before it.
    Rising,
    /// From 0 to this where another value is this word, otherwise 0.
    Only(u64, &'static str, &'static str),
    /// All of it together is at most all of another value of the field together, which isn't 0; judged at the first.
    Sums(&'static str),
}

pub const TIERS: [&str; 5] =
    ["LV mains", "distribution substation", "HV feeder", "zone substation", "sub-transmission"];
pub const ORDINALS: [&str; 8] = ["first", "second", "third", "fourth", "fifth", "sixth", "seventh", "eighth"];

const MOST_YEARS: usize = 8;
const PAIRS: usize = 5;

const SHARE: Limits = Limits::Within(0, 10_000);
const HIGHEST_AMOUNT: u64 = 1_000_000_000;
const AMOUNT: Limits = Limits::Within(0, HIGHEST_AMOUNT);

const fn value(name: &'static str, width: usize, unit: Unit, limits: Limits) -> Value {
    Value { name, widths: (width, width), unit, limits, note: "" }
}

/// A zone's number: a byte, or two.
const fn zone_number(name: &'static str, limits: Limits) -> Value {
    Value { widths: (1, 2), ..value(name, 1, Unit::Number, limits) }
}

const fn noted(value: Value, note: &'static str) -> Value {
    Value { note, ..value }
}

const fn amount(name: &'static str) -> Value {
    value(name, 4, Unit::Dollars, AMOUNT)
}

const fn rate(name: &'static str) -> Value {
    value(name, 4, Unit::DollarsPerKva, Limits::Within(0, 10_000_000))
}

const fn demand(name: &'static str) -> Value {
    value(name, 4, Unit::Kva, Limits::Within(0, 1_000_000))
}

const fn factor(name: &'static str) -> Value {
    value(name, 2, Unit::Factor, Limits::Within(0, 40_000))
}

const fn field(tag: u8, over: Over, values: &'static [Value]) -> Field {
    Field { tag, wide_tag: None, over, values }
}

/// A field with a zone number: its tag where that has one byte, and where it has two.
const fn zone_field(tag: u8, wide_tag: u8, over: Over, values: &'static [Value]) -> Field {
    Field { wide_tag: Some(wide_tag), ..field(tag, over, values) }
}

/// What a text may say of its form.
pub const FORM: Value = noted(
    value("zone number bytes", 1, Unit::Choice(&["1", "2"]), Limits::Within(0, 1)),
    "may be left out: then 1 where every zone number is at most 255, otherwise 2",
);

pub const BOOK: Kind = Kind {
    name: "rate book",
    letters: "RATE",
    fields: &[
        field(2, Over::Nothing, &[value("discount rate", 2, Unit::Percent, SHARE)]),
        field(
            3,
            Over::Pairs,
            &[
                value("selected opex", 4, Unit::ThousandDollars, Limits::Sums("distribution revenue")),
                value("distribution revenue", 4, Unit::ThousandDollars, Limits::Any),
            ],
        ),
        field(4, Over::Years, &[factor("distribution revenue factor")]),
        field(5, Over::Years, &[factor("transmission revenue factor")]),
        field(
            6,
            Over::Nothing,
            &[
                value("threshold", 4, Unit::Dollars, Limits::Within(0, 5_000_000)),
                value("fee", 4, Unit::Dollars, Limits::UpTo("minimum")),
                amount("minimum"),
                value("term months", 2, Unit::Number, Limits::Within(84, 0xFFFF)),
            ],
        ),
        field(
            7,
            Over::Nothing,
            &[
                value("capacity charged", 1, Unit::Choice(&["no", "yes"]), Limits::Within(0, 1)),
                value("credit share", 2, Unit::Percent, SHARE),
            ],
        ),
        zone_field(
            8,
            9,
            Over::Zones,
            &[
                zone_number("number", Limits::Rising),
                rate("LV mains rate"),
                rate("distribution substation rate"),
                rate("HV feeder rate"),
                rate("zone substation rate"),
                rate("sub-transmission rate"),
            ],
        ),
    ],
    judge: fikrem::judge_book,
};

const SPECIAL_PRICING: &str = "special pricing";
const CLASSES: Unit = Unit::Choice(&["residential", "non-residential", SPECIAL_PRICING]);
const MODES: Unit = Unit::Choice(&["posted", "extension-like", "bespoke"]);
const MARKS: Unit = Unit::Choice(&["none", "opted out in writing", "real estate"]);

pub const REQUEST: Kind = Kind {
    name: "request",
    letters: "CONN",
    fields: &[
        field(2, Over::Nothing, &[value("person number", 4, Unit::Number, Limits::Any)]),
        field(3, Over::Nothing, &[value("class", 1, CLASSES, Limits::Within(0, 2))]),
        zone_field(4, 13, Over::Nothing, &[zone_number("zone number", Limits::Any)]),
        field(
            5,
            Over::Nothing,
            &[
                amount("minimum scheme extension ME"),
                amount("customer enhancement extension CE"),
                amount("distributor enhancement DE"),
                amount("transmission works TW"),
                amount("historical cost recovery HR"),
                value("operating loading OL", 4, Unit::Dollars, Limits::Only(HIGHEST_AMOUNT, "class", SPECIAL_PRICING)),
            ],
        ),
        field(
            6,
            Over::Tiers,
            &[
                value("mode", 1, MODES, Limits::Within(0, 2)),
                demand("demand"),
                noted(rate("bespoke rate"), "used in mode bespoke alone"),
            ],
        ),
        field(7, Over::Tiers, &[demand("added demand")]),
        field(8, Over::Nothing, &[amount("year-one distribution revenue"), amount("year-one transmission revenue")]),
        field(9, Over::Years, &[factor("part-year factor")]),
        field(10, Over::Years, &[factor("distribution tariff factor")]),
        field(11, Over::Years, &[factor("transmission tariff factor")]),
        field(
            12,
            Over::Nothing,
            &[
                value("month", 2, Unit::Month, Limits::Any),
                value("capacity", 4, Unit::Kva, Limits::Within(1, 1_000_000)),
                noted(value("scheme joined", 2, Unit::Number, Limits::Any), "0 for none"),
                value("mark", 1, MARKS, Limits::Within(0, 2)),
            ],
        ),
    ],
    judge: fikrem::judge_request,
};

pub const KINDS: [&Kind; 2] = [&BOOK, &REQUEST];

impl Form {
    /// Its number in `FORM`.
    pub fn number(self) -> u64 {
        match self {
            Form::OneByte => 0,
            Form::TwoBytes => 1,
        }
    }

    /// The form that these values have where a text says nothing of it.
    pub fn fitting(values: impl IntoIterator<Item = (&'static Value, u64)>) -> Form {
        let fits = |(value, number): (&Value, u64)| number <= value.highest(Form::OneByte);
        if values.into_iter().all(fits) {
            Form::OneByte
        } else {
            Form::TwoBytes
        }
    }
}

impl Value {
    /// How many bytes it has.
    pub fn width(&self, form: Form) -> usize {
        match form {
            Form::OneByte => self.widths.0,
            Form::TwoBytes => self.widths.1,
        }
    }

    /// The highest number of its bytes.
    pub fn highest(&self, form: Form) -> u64 {
        (0..self.width(form)).fold(0, |number, _| number << 8 | 0xFF)
    }
}

impl Field {
    /// Its tag in files of a form.
    pub fn tag_in(&self, form: Form) -> u8 {
        match form {
            Form::OneByte => self.tag,
            Form::TwoBytes => self.wide_tag.unwrap_or(self.tag),
        }
    }

    /// How often its values may stand in one field: least and most.
    pub fn rounds(&self) -> (usize, usize) {
        match self.over {
            Over::Nothing | Over::Zones => (1, 1),
            Over::Pairs => (PAIRS, PAIRS),
            Over::Tiers => (TIERS.len(), TIERS.len()),
            Over::Years => (1, MOST_YEARS),
        }
    }

    /// How often the field itself may stand in a file, at most.
    pub fn times(&self) -> usize {
        if self.over == Over::Zones {
            ORDINALS.len()
        } else {
            1
        }
    }

    /// The bytes of its values, once each.
    pub fn round_size(&self, form: Form) -> usize {
        self.values.iter().map(|value| value.width(form)).sum()
    }
}

/// A value of a file: of which field, the how manieth of its kind, in which round of it.
#[derive(Clone, Copy)]
pub struct Slot {
    pub field: &'static Field,
    pub time: usize,
    pub round: usize,
    pub value: &'static Value,
}

impl Slot {
    /// What it is called in a text.
    pub fn name(&self) -> String {
        let (name, round) = (self.value.name, self.round);
        match self.field.over {
            Over::Nothing => name.to_string(),
            Over::Pairs => format!("{name} {}", round + 1),
            Over::Tiers => format!("{} {name}", TIERS.get(round).unwrap_or(&"")),
            Over::Years => format!("{name} year {round}"),
            Over::Zones => format!("{} zone {name}", ORDINALS.get(self.time).unwrap_or(&"")),
        }
    }
}

impl Kind {
    /// The field that has a tag in files of one of the forms, and that form; of both forms, the first.
    pub fn field_of(&self, tag: u8) -> Option<(&'static Field, Form)> {
        let in_form = |form| self.fields.iter().find(|field| field.tag_in(form) == tag).map(|field| (field, form));
        FORMS.into_iter().find_map(in_form)
    }

    /// The fields of a file of a form with their tags, in the order of these.
    pub fn fields_in(&self, form: Form) -> Vec<(u8, &'static Field)> {
        let mut fields: Vec<_> = self.fields.iter().map(|field| (field.tag_in(form), field)).collect();
        fields.sort_by_key(|(tag, _)| *tag);
        fields
    }

    /// Every value that a file of this kind may have, in the table's order.
    pub fn slots(&self) -> Vec<Slot> {
        let mut slots = Vec::new();
        for field in self.fields {
            for time in 0..field.times() {
                for round in 0..field.rounds().1 {
                    slots.extend(field.values.iter().map(|value| Slot { field, time, round, value }));
                }
            }
        }
        slots
    }
}
