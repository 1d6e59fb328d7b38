//! What can go wrong.

use std::fmt;
use std::io;

pub type Result<T> = std::result::Result<T, Error>;

#[derive(Debug)]
pub enum Error {
    /// A call of the system, and what it was for.
    Io(String, io::Error),
    /// A configuration or words that say nothing a host can do.
    Setup(String),
    /// What must not happen: members that differ, money that is made or lost, a run that takes too long.
    Fault(String),
}

impl fmt::Display for Error {
    fn fmt(&self, out: &mut fmt::Formatter) -> fmt::Result {
        match self {
            Error::Io(what, why) => write!(out, "{what}: {why}"),
            Error::Setup(why) => write!(out, "{why}"),
            Error::Fault(what) => write!(out, "fault: {what}"),
        }
    }
}

impl std::error::Error for Error {}

/// Says what a call of the system was for.
pub trait During<T> {
    fn during(self, what: impl fmt::Display) -> Result<T>;
}

impl<T> During<T> for io::Result<T> {
    fn during(self, what: impl fmt::Display) -> Result<T> {
        self.map_err(|why| Error::Io(what.to_string(), why))
    }
}

/// A line, a block or a value that is none.
#[derive(Clone, Debug, Eq, PartialEq)]
pub struct Malformed(pub &'static str);

impl fmt::Display for Malformed {
    fn fmt(&self, out: &mut fmt::Formatter) -> fmt::Result {
        write!(out, "not {}", self.0)
    }
}

impl std::error::Error for Malformed {}

/// A number in digits: no sign, no blank, below 2^63.
pub fn number(word: &str) -> std::result::Result<u64, Malformed> {
    let is_digits = !word.is_empty() && word.bytes().all(|byte| byte.is_ascii_digit());
    match word.parse() {
        Ok(value) if is_digits && value < 1 << 63 => Ok(value),
        _ => Err(Malformed("a number")),
    }
}
