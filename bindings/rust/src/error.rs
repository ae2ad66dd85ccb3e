use crate::Value;
use std::convert::Infallible;
use std::fmt;

/// Why a call does not do what it is for. No name has changed then, but where it is [`Error::NoReply`].
#[derive(Debug, Clone, PartialEq, Eq)]
#[non_exhaustive]
pub enum Error {
    /// A line says no call, and this is its report, which ends in a line feed.
    BadLine(String),
    /// A call refuses what it was given, and this is the text of the refusal.
    Refused(String),
    /// This is no name that a line can have: a letter or `_`, and then letters, digits and `_`.
    NotAName(String),
    /// More than 64 arrays and maps stand one inside another.
    TooDeep,
    /// No memory was found.
    NoMemory,
    /// The line was run, and no memory was found for its reply.
    NoReply,
}

impl fmt::Display for Error {
    fn fmt(&self, f: &mut fmt::Formatter<'_>) -> fmt::Result {
        match self {
            Error::BadLine(report) => f.write_str(report),
            Error::Refused(text) => f.write_str(text),
            Error::NotAName(name) => write!(
                f,
                "{name:?} is no name: a letter or _, and then letters, digits and _"
            ),
            Error::TooDeep => f.write_str("More than 64 arrays and maps stand one inside another"),
            Error::NoMemory => f.write_str("Out of memory"),
            Error::NoReply => f.write_str("Out of memory for the reply"),
        }
    }
}

impl std::error::Error for Error {}

/// A value is not of the type that was asked for.
#[derive(Debug, Clone, PartialEq, Eq)]
pub struct Mismatch {
    /// The type that was asked for.
    pub expected: &'static str,
    /// The value, or the part of it that is not of that type.
    pub found: Value,
}

impl fmt::Display for Mismatch {
    fn fmt(&self, f: &mut fmt::Formatter<'_>) -> fmt::Result {
        write!(f, "expected {}, found {}", self.expected, self.found.kind())?;
        match &self.found {
            Value::U64(number) => write!(f, " {number}"),
            Value::I64(number) => write!(f, " {number}"),
            Value::U128(number) => write!(f, " {number}"),
            Value::I128(number) => write!(f, " {number}"),
            _ => Ok(()),
        }
    }
}

impl std::error::Error for Mismatch {}

impl From<Infallible> for Mismatch {
    fn from(never: Infallible) -> Mismatch {
        match never {}
    }
}
