//! Prints the slip of `rates.bin` and `job.bin` in the current folder and accepts the request on a new ledger.

use std::error::Error;
use std::fs::read;

fn main() -> Result<(), Box<dyn Error>> {
    fikrem::linked()?;
    let (book, request) = (read("rates.bin")?, read("job.bin")?);
    print!("{}", fikrem::slip_text(&book, &request));
    match fikrem::accept(&fikrem::new_ledger(), fikrem::LONGEST_TABLE, &book, &request) {
        Ok((accepted, stored)) => println!("{:?}, a ledger of {} bytes", accepted.answer, stored.len()),
        Err(refused) => println!("{refused}"),
    }
    Ok(())
}
