//! README's commands 'At the desk', run as they stand.

use std::path::Path;
use std::process::Command;
use std::{env, fs};

fn repository(name: &str) -> String {
    let path = Path::new(env!("CARGO_MANIFEST_DIR")).join("../..").join(name);
    fs::read_to_string(&path).unwrap_or_else(|error| panic!("{}: {error}", path.display()))
}

/// The commands of the program in README's section.
fn commands() -> Vec<String> {
    let readme = repository("README.md");
    let section = readme.split("\n## ").find(|section| section.starts_with("At the desk\n")).expect("the section");
    let lines = section.lines().filter_map(|line| line.strip_prefix("    "));
    lines.filter(|line| line.starts_with("fikrem ")).map(str::to_string).collect()
}

#[test]
fn five_commands_from_a_template_to_a_page() {
    let folder = env::temp_dir().join(format!("fikrem-desk-readme-{}", std::process::id()));
    fs::create_dir_all(&folder).expect("a folder for the test");
    let program = Path::new(env!("CARGO_BIN_EXE_fikrem")).parent().expect("its folder").to_path_buf();
    let path = env::join_paths([program].into_iter().chain(env::split_paths(&env::var_os("PATH").unwrap_or_default())));
    let path = path.expect("a path");
    let commands = commands();
    assert_eq!(commands.len(), 5, "{commands:?}");
    let mut printed = String::new();
    for command in &commands {
        let run = Command::new("sh").args(["-c", command]).current_dir(&folder).env("PATH", &path).output();
        let output = run.unwrap_or_else(|error| panic!("{command}: {error}"));
        assert!(output.status.success() && output.stderr.is_empty(), "{command}: {output:?}");
        printed = String::from_utf8_lossy(&output.stdout).into_owned();
    }
    let _ = fs::remove_dir_all(&folder);
    assert_eq!(printed, repository("crates/page/stdout"));
}
