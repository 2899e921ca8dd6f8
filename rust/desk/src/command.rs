//! The commands: what is printed, and the exit status.

use crate::table::{Kind, BOOK, REQUEST};
use crate::text::Fault;
use crate::unit::Unit;
use crate::{band, disk, file, help, pack, quote, template, text};
use fikrem::Reason;
use std::ffi::{OsStr, OsString};
use std::path::Path;

/// How a run ends: the exit status, and what it prints.
#[derive(Debug, Clone, PartialEq, Eq)]
pub struct Ended {
    pub status: u8,
    pub output: String,
    pub errors: String,
}

/// Why a command isn't done.
enum Failed {
    /// The call itself is wrong; the command's help says how it is made.
    Call(String, &'static str),
    /// A file can't be read or written.
    Disk(String),
    Refused(String),
}

type Done = Result<String, Failed>;

/// Runs the program with these arguments.
pub fn run(arguments: &[OsString]) -> Ended {
    if let Err(other) = fikrem::linked() {
        return Ended { status: 2, output: String::new(), errors: format!("fikrem: {other}\n") };
    }
    let (status, output, errors) = match done(arguments) {
        Ok(output) => (0, output, String::new()),
        Err(Failed::Refused(words)) => (1, String::new(), words),
        Err(Failed::Disk(words)) => (2, String::new(), format!("fikrem: {words}\n")),
        Err(Failed::Call(words, help)) => {
            let usage: String =
                help.lines().take_while(|line| !line.is_empty()).map(|line| format!("{line}\n")).collect();
            (2, String::new(), format!("fikrem: {words}\n{usage}"))
        }
    };
    Ended { status, output, errors }
}

fn done(arguments: &[OsString]) -> Done {
    let Some((command, rest)) = arguments.split_first() else {
        return Err(Failed::Call("no command is given".to_string(), USAGE));
    };
    let help_wanted = rest.iter().any(|argument| argument == "--help" || argument == "-h");
    match command.to_str().unwrap_or_default() {
        "--help" | "-h" | "help" => Ok(help::PROGRAM.to_string()),
        "--version" | "-V" => Ok(format!("fikrem {}, interface {}\n", env!("CARGO_PKG_VERSION"), fikrem::raw::VERSION)),
        "template" if help_wanted => Ok(help::TEMPLATE.to_string()),
        "template" => templates(rest),
        "pack" if help_wanted => Ok(help::PACK.to_string()),
        "pack" => packing(rest),
        "show" if help_wanted => Ok(help::SHOW.to_string()),
        "show" => showing(rest),
        "quote" if help_wanted => Ok(help::QUOTE.to_string()),
        "quote" => quoting(rest),
        _ => Err(Failed::Call(format!("{} is no command", said(command)), USAGE)),
    }
}

const USAGE: &str = "fikrem template | pack | show | quote, each with --help\n";

fn said(argument: &OsStr) -> String {
    argument.to_string_lossy().into_owned()
}

fn read(name: &OsStr) -> Result<Vec<u8>, Failed> {
    disk::read(Path::new(name)).map_err(|error| Failed::Disk(format!("{} can't be read: {error}", said(name))))
}

fn templates(arguments: &[OsString]) -> Done {
    let filled = match arguments {
        [kind] if kind == "book" => template::BOOK,
        [kind] if kind == "request" => template::REQUEST,
        _ => return Err(Failed::Call("template takes one word, book or request".to_string(), help::TEMPLATE)),
    };
    match pack::packed(filled) {
        Ok((kind, bytes)) => Ok(text::of_file(kind, &bytes)),
        Err(faults) => Err(Failed::Refused(listed("template", &faults))),
    }
}

/// The faults of a text, a line each.
fn listed(name: &str, faults: &[Fault]) -> String {
    let line = |fault: &Fault| match fault.line {
        Some(line) => format!("{name}, line {line}: {}\n", fault.words),
        None => format!("{name}: {}\n", fault.words),
    };
    faults.iter().map(line).collect()
}

fn packing(arguments: &[OsString]) -> Done {
    let [from, to] = arguments else {
        return Err(Failed::Call("pack takes a text and a file".to_string(), help::PACK));
    };
    let (from_path, to_path) = (Path::new(from), Path::new(to));
    let bytes = read(from)?;
    if disk::same(from_path, to_path) {
        return Err(Failed::Call("the file would take the text's place".to_string(), help::PACK));
    }
    if bytes.contains(&0) {
        return Err(Failed::Refused(format!("{}: this is no text in UTF-8\n", said(from))));
    }
    let (kind, packed) = pack::packed(&String::from_utf8_lossy(&bytes))
        .map_err(|faults| Failed::Refused(listed(&said(from), &faults)))?;
    let kept = disk::replace(to_path, &packed, |written| {
        (kind.judge)(written).map_err(|refusal| quote::refused_file(kind, written, refusal).0)
    });
    match kept {
        Ok(Ok(())) => Ok(format!("{}: a {} of {} bytes\n", said(to), kind.name, packed.len())),
        Ok(Err(refused)) => Err(Failed::Refused(format!("{refused}\n"))),
        Err(error) => Err(Failed::Disk(format!("{} can't be written: {error}", said(to)))),
    }
}

/// The kind that a file is judged as: by its letters; otherwise the one whose fields it follows further.
fn kind_shown(bytes: &[u8]) -> &'static Kind {
    let reached = |kind: &Kind| match (kind.judge)(bytes) {
        Ok(()) => (true, 0),
        Err(refusal) => (refusal.reason == Reason::ValueNotListed, refusal.place),
    };
    file::kind_of(bytes).unwrap_or(if reached(&REQUEST) > reached(&BOOK) { &REQUEST } else { &BOOK })
}

/// The text of a file, or its refusal in words.
pub fn shown(bytes: &[u8]) -> Result<String, String> {
    let kind = kind_shown(bytes);
    (kind.judge)(bytes).map(|()| text::of_file(kind, bytes)).map_err(|refusal| {
        let (words, tag) = quote::refused_file(kind, bytes, refusal);
        let place = tag.map_or(String::new(), |tag| format!(" (field {tag:02X}, offset {})", refusal.place));
        format!("{words}{place}\n")
    })
}

fn showing(arguments: &[OsString]) -> Done {
    let [name] = arguments else {
        return Err(Failed::Call("show takes one file".to_string(), help::SHOW));
    };
    shown(&read(name)?).map_err(Failed::Refused)
}

/// What a quote prints.
enum Wanted {
    Slip,
    Page,
    /// The amounts of `--band`, two or four.
    Band(Vec<u64>),
}

/// The files of a quote, and what it prints.
fn quote_of(arguments: &[OsString]) -> Result<(Vec<&OsString>, Wanted), String> {
    let (mut files, mut wanted, mut rest) = (Vec::new(), Wanted::Slip, arguments);
    while let Some((argument, after)) = rest.split_first() {
        rest = after;
        match argument.to_str() {
            Some("--page" | "--band") if !matches!(wanted, Wanted::Slip) => {
                return Err("quote takes one of --page and --band".to_string());
            }
            Some("--page") => wanted = Wanted::Page,
            Some("--band") => {
                let mut amounts = leading_amounts(after);
                amounts.truncate(if amounts.len() < 4 { 2 } else { 4 });
                rest = after.get(amounts.len()..).unwrap_or_default();
                wanted = Wanted::Band(amounts);
            }
            Some(option) if option.starts_with("--") => return Err(format!("{option} is no option of quote")),
            _ => files.push(argument),
        }
    }
    match wanted {
        Wanted::Band(amounts) if amounts.len() < 2 => Err("--band takes two or four amounts of dollars".to_string()),
        wanted => Ok((files, wanted)),
    }
}

/// The amounts of dollars that the arguments begin with.
fn leading_amounts(arguments: &[OsString]) -> Vec<u64> {
    let amount = |argument: &OsString| argument.to_str().and_then(|text| Unit::Dollars.read(text).ok());
    arguments.iter().map_while(amount).collect()
}

fn quoting(arguments: &[OsString]) -> Done {
    let wrong = |words: String| Failed::Call(words, help::QUOTE);
    let (files, wanted) = quote_of(arguments).map_err(wrong)?;
    let [book, request] = files.as_slice() else {
        return Err(wrong("quote takes a rate book and a request".to_string()));
    };
    let (book, request) = (read(book)?, read(request)?);
    let refused = |refusal| Failed::Refused(format!("{}\n", quote::refused(&book, &request, refusal)));
    match wanted {
        Wanted::Slip => {
            fikrem::price(&book, &request).map_err(refused)?;
            Ok(format!("{}\n{}", quote::what_was_read(&book, &request), fikrem::slip_text(&book, &request)))
        }
        Wanted::Page => {
            let page = fikrem::page(&book, &request).map_err(refused)?;
            Ok(String::from_utf8_lossy(&page).into_owned())
        }
        Wanted::Band(amounts) => {
            let bands = band::bands(&amounts, &request);
            match fikrem::price_band(&book, &request, bands) {
                Ok(priced) => Ok(format!(
                    "{}{}\n{}",
                    quote::what_was_read(&book, &request),
                    band::named(bands),
                    band::lines(priced)
                )),
                Err(refusal) => match band::refused(bands, refusal) {
                    Some(words) => Err(Failed::Refused(format!("{words}\n"))),
                    None => Err(refused(refusal)),
                },
            }
        }
    }
}
