//! The text that a program was made of, and its lines.

use crate::program::Span;
use crate::text::{is_plain_name, Wrong};

#[derive(Debug)]
pub struct Source {
    pub name: String,
    text: Vec<u8>,
}

/// A place as people count: from 1, columns in characters.
#[derive(Clone, Copy, Debug, PartialEq, Eq)]
pub struct Line {
    pub number: usize,
    pub column: usize,
}

impl Source {
    pub fn new(name: &str, text: Vec<u8>) -> Source {
        Source { name: name.to_owned(), text }
    }

    /// The line of a byte, or of the text's end.
    fn line_of(&self, byte: usize) -> Line {
        let before = String::from_utf8_lossy(&self.text[..byte]);
        let begins = before.rfind('\n').map_or(0, |end| end + 1);
        Line { number: before.matches('\n').count() + 1, column: before[begins..].chars().count() + 1 }
    }

    /// Where a span begins, if the text is that long and the span says anything.
    pub fn line(&self, span: Span) -> Option<Line> {
        let told = span.start < span.end && span.end as usize <= self.text.len();
        told.then(|| self.line_of(span.start as usize))
    }

    /// Whether a name stands within a span; a span that says nothing, or a name that may be quoted, is no reason to doubt.
    pub fn may_hold(&self, name: &str, span: Span) -> bool {
        let part = self.text.get(span.start as usize..span.end as usize).unwrap_or_default();
        let told = span.start < span.end && is_plain_name(name.as_bytes());
        !told || part.windows(name.len()).any(|letters| letters == name.as_bytes())
    }

    /// What is wrong with the text: the place, the words, and the line with a mark under the place.
    pub fn complaint(&self, wrong: &Wrong) -> String {
        let Line { number, column } = self.line_of(wrong.place);
        let text = String::from_utf8_lossy(&self.text);
        let line = text.split('\n').nth(number - 1).unwrap_or_default().trim_end();
        let passed = (column - 1).saturating_sub(SHOWN / 2);
        let shown: String = line.chars().skip(passed).take(SHOWN).map(seen).collect();
        let blanks: String = shown.chars().map(blank).chain(std::iter::repeat(' ')).take(column - 1 - passed).collect();
        let told = format!("{}: line {number}, column {column}: {}", self.name, wrong.words);
        match shown.is_empty() {
            true => told,
            false => format!("{told}\n    {shown}\n    {blanks}^"),
        }
    }
}

/// The most letters of a wrong line that are shown.
const SHOWN: usize = 100;

/// A letter as a terminal may have it.
fn seen(letter: char) -> char {
    if letter.is_control() && letter != '\t' {
        char::REPLACEMENT_CHARACTER
    } else {
        letter
    }
}

/// As wide as the letter above it.
fn blank(letter: char) -> char {
    if letter == '\t' {
        '\t'
    } else {
        ' '
    }
}

/// Where a record stands, for people: by line with the source, else by the source's bytes, if the span says anything.
pub fn place_words(source: Option<&Source>, span: Span) -> Option<String> {
    match source.and_then(|source| source.line(span)) {
        Some(line) => Some(format!("line {}", line.number)),
        None if span.start < span.end => Some(format!("source bytes {} to {}", span.start, span.end - 1)),
        None => None,
    }
}

#[cfg(test)]
mod tests {
    use super::*;

    #[test]
    fn columns_count_characters() {
        let source = Source::new("x", "F {\n '\u{44f}' = ;\n}".into());
        assert_eq!(source.line(Span { start: 10, end: 11 }), Some(Line { number: 2, column: 6 }));
        assert_eq!(source.line(Span { start: 0, end: 0 }), None);
        assert_eq!(source.line(Span { start: 3, end: 400 }), None);
    }

    #[test]
    fn the_place_is_marked_under_its_line() {
        let source = Source::new("x", format!("F {{\n\t{}%", "a".repeat(90)).into_bytes());
        let told = source.complaint(&Wrong::new(95, "no"));
        let lines: Vec<&str> = told.lines().collect();
        assert_eq!(lines[0], "x: line 2, column 92: no");
        assert_eq!(lines[1].find('%'), lines[2].find('^'));
    }

    #[test]
    fn a_text_of_another_program_is_noticed() {
        let source = Source::new("x", "F { }\nG { }".into());
        assert!(source.may_hold("G", Span { start: 6, end: 11 }) && source.may_hold("Q", Span::default()));
        assert!(!source.may_hold("Q", Span { start: 6, end: 11 }) && !source.may_hold("G", Span { start: 6, end: 99 }));
    }

    #[test]
    fn places_without_a_source_are_bytes() {
        assert_eq!(place_words(None, Span { start: 3, end: 9 }), Some("source bytes 3 to 8".to_owned()));
        assert_eq!(place_words(None, Span::default()), None);
    }
}
