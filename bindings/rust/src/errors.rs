//! Why a call has no answer.

use crate::Report;
use std::fmt;

/// Why a call has no answer.
#[derive(Clone, Debug, PartialEq, Eq)]
pub enum Error {
    /// Memory was refused, or a text has 4 GiB or more.
    OutOfMemory,
    /// No document was looked at, since this is reported of the schema.
    SchemaReported(Vec<Report>),
    /// The library has another version of its calls than this crate.
    OtherVersion,
    /// The library answered what this crate does not know.
    UnknownAnswer,
}

impl fmt::Display for Error {
    fn fmt(&self, f: &mut fmt::Formatter<'_>) -> fmt::Result {
        f.write_str(match self {
            Error::OutOfMemory => "out of memory",
            Error::SchemaReported(_) => "the schema is reported",
            Error::OtherVersion => "the library has another version of its calls",
            Error::UnknownAnswer => "the library answered in an unknown form",
        })
    }
}

impl std::error::Error for Error {}
