//! Programs as text, in the notation of docs/NOTATION.md.

mod lexer;
mod parser;
mod printable;
mod quoted;
mod writer;

pub use parser::program_of;
pub use writer::{pattern_text, sentence_text, terms_text, text_of};

/// What is wrong with a text, and at which byte.
#[derive(Debug, PartialEq)]
pub struct Wrong {
    pub place: usize,
    pub words: String,
}

impl Wrong {
    pub fn new(place: usize, words: impl Into<String>) -> Wrong {
        Wrong { place, words: words.into() }
    }
}

pub fn is_plain_letter(byte: u8) -> bool {
    byte.is_ascii_alphanumeric() || byte == b'_' || byte == b'-'
}

/// What a variable's name may be without backquotes.
pub fn is_plain_variable(name: &[u8]) -> bool {
    !name.is_empty() && name.iter().copied().all(is_plain_letter)
}

/// What a function's or an identifier's name may be without backquotes.
pub fn is_plain_name(name: &[u8]) -> bool {
    is_plain_variable(name) && name[0].is_ascii_alphabetic()
}
