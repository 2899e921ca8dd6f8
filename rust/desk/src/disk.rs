//! Files on disk.

use std::ffi::OsString;
use std::fs::{self, File};
use std::io::{self, Read, Write};
use std::path::{Path, PathBuf};

/// No book, request or text is longer.
const MOST_BYTES: u64 = 1 << 20;

/// A file's bytes.
pub fn read(path: &Path) -> io::Result<Vec<u8>> {
    let mut bytes = Vec::new();
    File::open(path)?.take(MOST_BYTES + 1).read_to_end(&mut bytes)?;
    if bytes.len() as u64 > MOST_BYTES {
        return Err(io::Error::other("it has more than 1,048,576 bytes"));
    }
    Ok(bytes)
}

/// Whether both are the same file.
pub fn same(one: &Path, other: &Path) -> bool {
    matches!((fs::canonicalize(one), fs::canonicalize(other)), (Ok(one), Ok(other)) if one == other)
}

/// A name beside a file's place that no other run takes.
fn beside(path: &Path) -> io::Result<PathBuf> {
    let name = path.file_name().ok_or_else(|| io::Error::other("it is no name of a file"))?;
    let mut part = OsString::from(".");
    part.push(name);
    part.push(format!(".{}.part", std::process::id()));
    Ok(path.with_file_name(part))
}

/// Writes a file beside its place, reads it back, and puts it there if `keep` has nothing against what was read; what
/// stood there before is then gone, and otherwise left.
pub fn replace<E>(path: &Path, bytes: &[u8], keep: impl FnOnce(&[u8]) -> Result<(), E>) -> io::Result<Result<(), E>> {
    let part = beside(path)?;
    let kept = write(&part, bytes).and_then(|written| match keep(&written) {
        Ok(()) => fs::rename(&part, path).map(Ok),
        Err(refused) => Ok(Err(refused)),
    });
    if !matches!(kept, Ok(Ok(()))) {
        // there is none where it could not be made
        let _ = fs::remove_file(&part);
    }
    kept
}

/// Writes a new file down to the disk; what is read back from it.
fn write(part: &Path, bytes: &[u8]) -> io::Result<Vec<u8>> {
    let mut file = File::create_new(part)?;
    file.write_all(bytes)?;
    file.sync_all()?;
    read(part)
}
