//! The version of the interface: the linked library's must be the one that this crate has.

use crate::raw;
use std::fmt;

/// The linked library is of another version of the interface than this crate, so that its calls may be others.
#[derive(Debug, Clone, Copy, PartialEq, Eq)]
pub struct OtherVersion {
    /// The library's version; this crate's is [`raw::VERSION`].
    pub linked: u32,
}

/// Whether the linked library is of this crate's version of the interface. A library before version 5 doesn't link.
pub fn linked() -> Result<(), OtherVersion> {
    compared(raw::version())
}

fn compared(linked: u32) -> Result<(), OtherVersion> {
    if linked == raw::VERSION {
        Ok(())
    } else {
        Err(OtherVersion { linked })
    }
}

impl fmt::Display for OtherVersion {
    fn fmt(&self, f: &mut fmt::Formatter<'_>) -> fmt::Result {
        write!(f, "the linked library has version {} of the interface, needed is {}", self.linked, raw::VERSION)
    }
}

impl std::error::Error for OtherVersion {}

#[test]
fn the_linked_version_and_another() {
    assert_eq!(linked(), Ok(()));
    let other = compared(raw::VERSION + 1).expect_err("another version");
    assert_eq!(other.to_string(), "the linked library has version 6 of the interface, needed is 5");
    assert_eq!(compared(raw::VERSION - 1), Err(OtherVersion { linked: raw::VERSION - 1 }));
}
