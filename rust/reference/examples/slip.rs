//! The program `slip`: it "reads `rates.bin` and `job.bin`" in the current folder and writes the slip.

mod files;

use files::first_part;
use std::io::{self, Write};

fn main() -> io::Result<()> {
    io::stdout().write_all(&reference::slip(&first_part("rates.bin"), &first_part("job.bin")))
}
