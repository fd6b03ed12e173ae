//! Why a call was refused, in document 01's numbers and in words.

use core::error::Error;
use core::fmt::{self, Display, Formatter};

/// A refused call: the number says why, the place where.
#[derive(Clone, Copy, Debug, PartialEq, Eq)]
pub struct Refusal {
    pub number: u8,
    /// The byte of the image that is at fault, for 12 the length needed, else 0.
    pub place: u64,
}

impl Refusal {
    /// Report text longer than the report; the place is the length needed.
    pub const REPORT_SHORT: u8 = 12;
    /// A sentence number not below the sentence count.
    pub const NO_SENTENCE: u8 = 13;
    /// A lent slice shorter than the expression.
    pub const EXPRESSION_SHORT: u8 = 17;

    /// The refusal in words, without its place.
    pub fn words(self) -> &'static str {
        words(self.number)
    }

    /// What the place means, if this number has one.
    pub fn at(self) -> Place {
        match self.number {
            5..=10 => Place::Byte(self.place),
            Refusal::REPORT_SHORT => Place::Needed(self.place),
            _ => Place::None,
        }
    }
}

/// What the place of a refusal means.
#[derive(Clone, Copy, Debug, PartialEq, Eq)]
pub enum Place {
    /// The fault concerns the whole call.
    None,
    /// A byte of the image.
    Byte(u64),
    /// So many bytes must be lent for the report.
    Needed(u64),
}

/// A refusal's number in words: those of `showclean_refusal_text` in bindings/c/showclean.h.
pub fn words(number: u8) -> &'static str {
    match number {
        0 => "not refused",
        1 => "an image shorter than 12 bytes or longer than 32,768",
        2 => "output shorter than the image",
        3 => "work with fewer entries than the image's bytes divided by 4, rounded up",
        4 => "the trailer's lengths do not fit the image",
        5 => "a byte that no record allows, or a record cut off",
        6 => "a name or number that is empty, above 63 bytes, or has a byte it cannot have",
        7 => "no character has this code",
        8 => "a span that starts after its end",
        9 => "a call or a block inside a pattern",
        10 => "brackets, calls and blocks nested above 32",
        11 => "the trailer's second field or counts do not agree with the body",
        12 => "report text longer than the report",
        13 => "a sentence number not below the sentence count",
        17 => "a lent slice shorter than the expression",
        _ => "no refusal has this number",
    }
}

impl Display for Refusal {
    fn fmt(&self, f: &mut Formatter<'_>) -> fmt::Result {
        write!(f, "refused {}: {}", self.number, self.words())?;
        match self.at() {
            Place::None => Ok(()),
            Place::Byte(place) => write!(f, ", at byte {place}"),
            Place::Needed(length) => write!(f, ", which needs {length} bytes"),
        }
    }
}

impl Error for Refusal {}
