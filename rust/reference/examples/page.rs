//! The program `page`: it reads `rates.bin` and `job.bin` in the current folder as `slip` does and writes the page.

mod files;

use files::first_part;
use std::io::{self, Write};

fn main() -> io::Result<()> {
    io::stdout().write_all(&reference::page::printed(&first_part("rates.bin"), &first_part("job.bin")))
}
