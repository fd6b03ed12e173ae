//! Why a command did not do its work, and the exit status that says so.

use std::fmt::{self, Display, Formatter};
use std::process::ExitCode;

pub const FOUND: u8 = 4;

#[derive(Debug, PartialEq)]
pub enum Failure {
    /// An image or a text that is turned away.
    Refused(String),
    /// Words that ask for nothing that there is.
    Use(String),
    /// A file that cannot be read or written.
    File(String),
}

impl Failure {
    pub fn status(&self) -> ExitCode {
        ExitCode::from(match self {
            Failure::Refused(_) => 1,
            Failure::Use(_) => 2,
            Failure::File(_) => 3,
        })
    }
}

impl Display for Failure {
    fn fmt(&self, f: &mut Formatter<'_>) -> fmt::Result {
        let (Failure::Refused(words) | Failure::Use(words) | Failure::File(words)) = self;
        f.write_str(words.trim_end())
    }
}
