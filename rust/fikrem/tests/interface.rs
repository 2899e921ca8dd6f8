//! The three texts of the interface say the same: `include/fikrem.h`, `src/raw.rs` and the library's own code. Kinds are
//! compared in `raw.rs`'s words.

use fikrem::raw;
use std::collections::BTreeMap;
use std::path::{Path, PathBuf};
use std::{env, fs};

const HEADER: &str = "../../include/fikrem.h";
const RAW: &str = "src/raw.rs";
/// The library's crate, and what it has its sizes from.
const LIBRARY: &str = "../../crates/fikrem_c/src";
const SHARED: &str = "../../crates/quoting_unit/src";

/// A function's parameters, each with its kind, and the kind of its result.
type Function = (Vec<(String, String)>, String);

fn path(name: &str) -> PathBuf {
    Path::new(&env::var("CARGO_MANIFEST_DIR").expect("cargo sets it")).join(name)
}

fn read(file: &Path) -> String {
    fs::read_to_string(file).unwrap_or_else(|error| panic!("{}: {error}", file.display()))
}

fn text(name: &str) -> String {
    read(&path(name))
}

/// The texts of a folder's files, one after the other.
fn texts(folder: &str) -> String {
    let files = fs::read_dir(path(folder)).unwrap_or_else(|error| panic!("{folder}: {error}"));
    files.map(|file| read(&file.expect("an entry of the folder").path())).collect()
}

/// The part before the closing mark and the part after it.
fn split<'a>(text: &'a str, mark: &str) -> (&'a str, &'a str) {
    text.split_once(mark).unwrap_or_else(|| panic!("no '{mark}' in: {text}"))
}

/// A C text without its comments.
fn without_comments(mut text: &str) -> String {
    let mut kept = String::new();
    while let Some((before, comment)) = text.split_once("/*") {
        kept += before;
        text = split(comment, "*/").1;
    }
    kept + text
}

fn kind_of_c(kind: &str) -> String {
    match kind {
        "const uint8_t *" => "*const u8",
        "uint8_t *" => "*mut u8",
        "int64_t *" => "*mut i64",
        "uint64_t *" => "*mut u64",
        "uint16_t" => "u16",
        "uint32_t" => "u32",
        "uint64_t" => "u64",
        "size_t" => "usize",
        _ => panic!("no kind of the interface: {kind}"),
    }
    .to_string()
}

/// `uint64_t name(const uint8_t *book, size_t book_size, …);`
fn functions_of_header() -> BTreeMap<String, Function> {
    let header = without_comments(&text(HEADER));
    let header = header.lines().filter(|line| !line.starts_with('#')).collect::<Vec<_>>().join("\n");
    let mut functions = BTreeMap::new();
    for declaration in header.split(';').filter(|part| part.contains('(')) {
        let (head, parameters) = split(declaration, "(");
        let [.., result, name] = head.split_whitespace().collect::<Vec<_>>()[..] else {
            panic!("no function: {head}");
        };
        let parameters =
            split(parameters, ")").0.split(',').filter(|&parameter| parameter != "void").map(|parameter| {
                let parameter = parameter.trim();
                let name = parameter.rfind([' ', '*']).map_or(0, |end| end + 1);
                (parameter[name..].to_string(), kind_of_c(parameter[..name].trim_end()))
            });
        functions.insert(name.to_string(), (parameters.collect(), kind_of_c(result)));
    }
    functions
}

/// `name(book: *const u8, …) -> u64`, whatever follows; the parameters as they stand.
fn function_of_rust(text: &str) -> (String, Function) {
    let (name, rest) = split(text, "(");
    let (parameters, rest) = split(rest, ") -> ");
    let result = rest.split(|letter: char| !letter.is_alphanumeric()).next().unwrap_or_default();
    let parameters = parameters.split(',').map(str::trim).filter(|parameter| !parameter.is_empty());
    let parameters = parameters.map(|parameter| split(parameter, ": ")).map(|(name, kind)| (name.into(), kind.into()));
    (name.to_string(), (parameters.collect(), result.to_string()))
}

fn functions_of_raw() -> BTreeMap<String, Function> {
    let raw = text(RAW);
    let declared = split(split(&raw, "extern \"C\" {").1, "}").0;
    declared.split("pub fn ").skip(1).map(function_of_rust).collect()
}

/// A lent slice is a pointer and its size; of anything but bytes, a pointer and its places.
fn as_pointer((name, kind): (String, String)) -> Vec<(String, String)> {
    let (pointer, element) = match (kind.strip_prefix("&["), kind.strip_prefix("&mut [")) {
        (Some(element), _) => ("*const", element),
        (_, Some(element)) => ("*mut", element),
        _ => return vec![(name, kind)],
    };
    let element = element.trim_end_matches(']');
    let count = if element == "u8" { "size" } else { "places" };
    vec![(name.clone(), format!("{pointer} {element}")), (format!("{name}_{count}"), "usize".to_string())]
}

fn functions_of_library() -> BTreeMap<String, Function> {
    let library = texts(LIBRARY);
    let exported = library.split("#[unsafe(no_mangle)]").skip(1).map(|part| split(part, "pub extern \"C\" fn ").1);
    exported
        .map(function_of_rust)
        .map(|(name, (parameters, result))| (name, (parameters.into_iter().flat_map(as_pointer).collect(), result)))
        .collect()
}

#[test]
fn the_same_functions() {
    let (header, raw, library) = (functions_of_header(), functions_of_raw(), functions_of_library());
    assert_eq!(library.len(), 16);
    let names = |functions: &BTreeMap<String, Function>| functions.keys().cloned().collect::<Vec<_>>();
    assert_eq!(names(&header), names(&library), "names of {HEADER} and {LIBRARY}");
    assert_eq!(names(&raw), names(&library), "names of {RAW} and {LIBRARY}");
    for (name, function) in &library {
        assert_eq!(&header[name], function, "{name} of {HEADER} and {LIBRARY}");
        assert_eq!(&raw[name], function, "{name} of {RAW} and {LIBRARY}");
    }
}

/// The header's enumerators and sizes, without `FIKREM_`.
fn numbers_of_header() -> BTreeMap<String, String> {
    let header = without_comments(&text(HEADER));
    let enums = header.split("enum ").skip(1).map(|part| split(split(part, "{").1, "}").0);
    let enumerators = enums.flat_map(|body| body.split(',')).map(|enumerator| split(enumerator, " = "));
    let sizes = header.lines().filter_map(|line| line.strip_prefix("#define ")?.split_once(' '));
    let sizes = sizes.filter(|(name, _)| !name.contains('('));
    let named = enumerators.chain(sizes).map(|(name, value)| (split(name, "FIKREM_").1, value.trim()));
    named.map(|(name, value)| (name.to_string(), value.to_string())).collect()
}

/// `pub const NAME: kind = value;`
fn numbers_of_rust(text: &str) -> BTreeMap<String, String> {
    let constants = text.lines().filter_map(|line| line.trim_start_matches("pub ").strip_prefix("const "));
    constants
        .map(|constant| {
            let (name, rest) = split(constant, ": ");
            let value = split(split(rest, " = ").1, ";").0;
            (name.to_string(), value.replace('_', ""))
        })
        .collect()
}

#[test]
fn the_same_numbers() {
    let (header, raw) = (numbers_of_header(), numbers_of_rust(&text(RAW)));
    assert_eq!(raw, header, "{RAW} and {HEADER}");
    let library = numbers_of_rust(&(texts(LIBRARY) + &texts(SHARED)));
    for name in ["VERSION", "ANSWER", "FIGURES", "BAND"] {
        assert_eq!(library.get(name), header.get(name), "{name} of the library and {HEADER}");
    }
    assert_eq!(fikrem::LONGEST_SLIP.to_string(), header["TEXT_SIZE"]);
    assert_eq!(fikrem::PAGE.to_string(), header["PAGE_SIZE"]);
    assert_eq!(fikrem::LONGEST_FORM.to_string(), header["LEDGER_SIZE"]);
    assert_eq!(fikrem::LONGEST_OLD_FORM.to_string(), header["OLD_LEDGER_SIZE"]);
    assert_eq!(fikrem::LONGEST_TABLE.to_string(), header["TABLE_SIZE"]);
}

/// `#define FIKREM_NAME(result) ((result) …)`, each as `name`, `result …`.
fn parts_of_header() -> BTreeMap<String, String> {
    let header = text(HEADER);
    let macros = header.lines().filter_map(|line| line.strip_prefix("#define FIKREM_")?.split_once("(result) "));
    macros
        .map(|(name, body)| {
            let body =
                body.strip_prefix('(').and_then(|body| body.strip_suffix(')')).expect("a macro's body in brackets");
            (name.to_lowercase(), body.replace("(result)", "result"))
        })
        .collect()
}

/// `pub fn name(result: u64) -> u64 {` and, on the next line, what it is.
fn parts_of_raw() -> BTreeMap<String, String> {
    let raw = text(RAW);
    let functions = raw.split("pub fn ").filter_map(|function| function.split_once("(result: u64) -> u64 {\n"));
    functions.map(|(name, body)| (name.to_string(), split(body, "\n").0.trim().to_string())).collect()
}

#[test]
fn the_same_parts_of_a_result() {
    assert_eq!(parts_of_header().len(), 4);
    assert_eq!(parts_of_raw(), parts_of_header(), "{RAW} and {HEADER}");
}

/// Results, and the number, file, place and 'of ledger' that each stands for.
const RESULTS: [(u64, [u64; 4]); 8] = [
    (33, [1, 1, 0, 0]),
    (31_555, [3, 2, 123, 0]),
    (1_349, [5, 2, 5, 0]),
    (141, [13, 0, 0, 1]),
    (14, [14, 0, 0, 0]),
    (16, [16, 0, 0, 0]),
    (255, [31, 3, 0, 1]),
    (u64::MAX - 94, [1, 1, (1 << 56) - 1, 1]),
];

/// `raw.rs` takes them apart, and c/result.txt has the same of the header's macros, which c/check.sh holds against c/result.c.
#[test]
fn results_taken_apart() {
    let mut lines = String::new();
    for (result, parts) in RESULTS {
        assert_eq!(
            [raw::number(result), raw::file(result), raw::place(result), raw::of_ledger(result)],
            parts,
            "{result}"
        );
        let [number, file, place, of_ledger] = parts;
        lines += &format!("{result}: number {number}, file {file}, place {place}, of ledger {of_ledger}\n");
    }
    assert_eq!(lines, text("../../c/result.txt"));
}
