//! The program `fikrem`; `fikrem --help` says what it does.

#![forbid(unsafe_code)]

use std::io::Write;
use std::process::ExitCode;

fn main() -> ExitCode {
    let arguments: Vec<_> = std::env::args_os().skip(1).collect();
    let ended = desk::command::run(&arguments);
    // where standard error is closed there is nobody to tell
    let _ = std::io::stderr().write_all(ended.errors.as_bytes());
    let mut output = std::io::stdout().lock();
    match output.write_all(ended.output.as_bytes()).and_then(|()| output.flush()) {
        Ok(()) => ExitCode::from(ended.status),
        Err(_) => ExitCode::from(2),
    }
}
