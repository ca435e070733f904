//! Why a call is not done.

use std::fmt;

/// Why a call is not done.
#[derive(Clone, Debug, PartialEq, Eq)]
pub enum Error {
    /// A text is refused, with the status and the line of the program.
    Refused { status: u32, line: String },
    /// No memory was left.
    OutOfMemory,
    /// The attribute is no input of the node, or the number out of the range of the width.
    NotTaken,
    /// There is no such node or attribute, or the page is not laid out yet.
    Wrong,
}

impl fmt::Display for Error {
    fn fmt(&self, f: &mut fmt::Formatter<'_>) -> fmt::Result {
        match self {
            Error::Refused { status: _, line } => f.write_str(line.trim_end()),
            Error::OutOfMemory => f.write_str("no memory was left"),
            Error::NotTaken => f.write_str("no such input, or the number is out of range"),
            Error::Wrong => f.write_str("no such node or attribute, or the page is not laid out"),
        }
    }
}

impl std::error::Error for Error {}

/// What a call comes to.
pub type Result<T> = std::result::Result<T, Error>;
