//! The programs that README.md shows are the files that are built.

use std::fs::read_to_string;
use std::path::Path;

fn text(name: &str) -> String {
    let path = Path::new(env!("CARGO_MANIFEST_DIR")).join("../..").join(name);
    read_to_string(&path).unwrap_or_else(|error| panic!("{}: {error}", path.display()))
}

/// README.md has the file whole, as a block of this language.
fn shows(language: &str, name: &str) {
    let block = format!("```{language}\n{}```\n", text(name));
    assert!(text("README.md").contains(&block), "README.md doesn't show {name} as it is");
}

#[test]
fn readme_shows_the_c_program() {
    shows("c", "c/quote.c");
}

#[test]
fn readme_shows_the_rust_program() {
    shows("rust", "rust/fikrem/examples/quote.rs");
}
