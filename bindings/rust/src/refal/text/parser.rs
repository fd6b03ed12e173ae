//! The program that a text writes, by plain descent over its tokens.

use super::lexer::{tokens_of, Sort, Token};
use super::quoted::pieces_of;
use super::{is_plain_name, is_plain_variable, Wrong};
use crate::program::{Condition, Declaration, Function, Kind, Program, Sentence, Span, Term, What};

const MOST_DECLARED: usize = 255;
const LONGEST_NAME: usize = 63;
const DEEPEST_NESTING: usize = 32;

/// The program of a text, within every limit of an image but its length.
pub fn program_of(text: &[u8]) -> Result<Program, Wrong> {
    if let Err(error) = std::str::from_utf8(text) {
        return Err(Wrong::new(error.valid_up_to(), "not UTF-8"));
    }
    let mut parser = Parser { tokens: tokens_of(text)?, next: 0 };
    parser.program()
}

/// A place among the tokens; what it takes it leaves behind.
struct Parser<'a> {
    tokens: Vec<Token<'a>>,
    next: usize,
}

/// Where terms stand: how much is open around them, and whether calls and blocks may come.
#[derive(Clone, Copy)]
struct Around {
    depth: usize,
    in_pattern: bool,
}

impl<'a> Parser<'a> {
    fn look(&self) -> Token<'a> {
        self.tokens[self.next]
    }

    /// Whether a sign comes next; only signs have these spellings.
    fn sees(&self, sign: &str) -> bool {
        self.look().text == sign.as_bytes()
    }

    fn take(&mut self) -> Token<'a> {
        self.next += 1;
        self.tokens[self.next - 1]
    }

    fn fail<T>(&self, words: impl Into<String>) -> Result<T, Wrong> {
        Err(Wrong::new(self.look().start, words))
    }

    fn expect(&mut self, sign: &str) -> Result<(), Wrong> {
        self.expect_or(sign, &format!("`{sign}` must stand here"))
    }

    fn expect_or(&mut self, sign: &str, words: &str) -> Result<(), Wrong> {
        if !self.sees(sign) {
            return self.fail(words);
        }
        self.take();
        Ok(())
    }

    /// From a byte to the end of the token taken last.
    fn span_from(&self, start: usize) -> Span {
        span(start, self.tokens[self.next - 1].end())
    }

    fn program(&mut self) -> Result<Program, Wrong> {
        let mut program = Program::default();
        while self.look().sort != Sort::End {
            if !self.sees("$EXTERN") {
                program.functions.push(self.function()?);
            } else if program.functions.is_empty() {
                program.declarations.push(self.declaration()?);
            } else {
                return self.fail("declarations come before all functions");
            }
        }
        Ok(program)
    }

    fn declaration(&mut self) -> Result<Declaration, Wrong> {
        let start = self.take().start;
        let mut names = Vec::new();
        while !self.sees(";") {
            if !names.is_empty() {
                self.expect(",")?;
            }
            if names.len() == MOST_DECLARED {
                return self.fail(format!("a declaration has at most {MOST_DECLARED} names"));
            }
            names.push(self.name()?);
        }
        self.take();
        Ok(Declaration { names, span: self.span_from(start) })
    }

    fn function(&mut self) -> Result<Function, Wrong> {
        let start = self.look().start;
        let entry = self.sees("$ENTRY");
        if entry {
            self.take();
        }
        let name = self.name()?;
        let sentences = self.sentences(0)?;
        Ok(Function { name, entry, sentences, span: self.span_from(start) })
    }

    fn name(&mut self) -> Result<String, Wrong> {
        if !matches!(self.look().sort, Sort::Word | Sort::Name) {
            return self.fail("a name must stand here");
        }
        let token = self.take();
        name_of(token.text, token.start, is_plain_name)
    }

    fn sentences(&mut self, depth: usize) -> Result<Vec<Sentence>, Wrong> {
        self.expect("{")?;
        let mut sentences = Vec::new();
        while !self.sees("}") {
            if self.look().sort == Sort::End {
                return self.fail("a sentence or `}` must stand here");
            }
            sentences.push(self.sentence(depth)?);
        }
        self.take();
        Ok(sentences)
    }

    fn sentence(&mut self, depth: usize) -> Result<Sentence, Wrong> {
        let start = self.look().start;
        let pattern = self.terms(Around { depth, in_pattern: true })?;
        let mut conditions = Vec::new();
        while self.sees(",") {
            conditions.push(self.condition(depth)?);
        }
        self.expect_or("=", "a term, `,` or `=` must stand here")?;
        let result = self.terms(Around { depth, in_pattern: false })?;
        self.expect_or(";", "a term or `;` must stand here")?;
        Ok(Sentence { pattern, conditions, result, span: self.span_from(start) })
    }

    fn condition(&mut self, depth: usize) -> Result<Condition, Wrong> {
        let start = self.take().start;
        let result = self.terms(Around { depth, in_pattern: false })?;
        self.expect_or(":", "a term or `:` must stand here")?;
        let pattern = self.terms(Around { depth, in_pattern: true })?;
        Ok(Condition { result, pattern, span: self.span_from(start) })
    }

    /// Terms as long as they come.
    fn terms(&mut self, around: Around) -> Result<Vec<Term>, Wrong> {
        let mut terms = Vec::new();
        loop {
            let token = self.look();
            match token.sort {
                Sort::Characters => terms.extend(characters_of(self.take())?),
                Sort::Word | Sort::Name | Sort::Variable => terms.push(named_term(self.take())?),
                Sort::Sign if matches!(token.text, b"(" | b"<" | b"[") => terms.push(self.nesting(around)?),
                Sort::Sign | Sort::End => return Ok(terms),
            }
        }
    }

    fn nesting(&mut self, around: Around) -> Result<Term, Wrong> {
        if around.in_pattern && !self.sees("(") {
            return self.fail("a call or a block cannot stand in a pattern");
        }
        let depth = around.depth + 1;
        if depth > DEEPEST_NESTING {
            return self.fail(format!("brackets, calls and blocks nest at most {DEEPEST_NESTING} deep"));
        }
        let opening = self.take();
        let inside = Around { depth, ..around };
        let what = match opening.text {
            b"(" => self.bracket(inside)?,
            b"<" => self.call(inside)?,
            _ => self.block(inside)?,
        };
        Ok(Term { what, span: self.span_from(opening.start) })
    }

    fn bracket(&mut self, inside: Around) -> Result<What, Wrong> {
        let terms = self.terms(inside)?;
        self.expect_or(")", "a term or `)` must stand here")?;
        Ok(What::Bracket(terms))
    }

    fn call(&mut self, inside: Around) -> Result<What, Wrong> {
        let name = self.name()?;
        let terms = self.terms(inside)?;
        self.expect_or(">", "a term or `>` must stand here")?;
        Ok(What::Call(name, terms))
    }

    fn block(&mut self, inside: Around) -> Result<What, Wrong> {
        let argument = self.terms(inside)?;
        self.expect_or(":", "a term or `:` must stand here")?;
        let sentences = self.sentences(inside.depth)?;
        self.expect("]")?;
        Ok(What::Block(argument, sentences))
    }
}

fn span(start: usize, end: usize) -> Span {
    Span { start: start as u32, end: end as u32 }
}

fn named_term(token: Token) -> Result<Term, Wrong> {
    let what = match (token.sort, token.text) {
        (Sort::Variable, text) => {
            What::Variable(kind_of(text[0]), name_of(&text[2..], token.start + 2, is_plain_variable)?)
        }
        (_, digits) if digits.iter().all(u8::is_ascii_digit) => What::Number(measured(digits, token.start)?),
        (_, text) => What::Identifier(name_of(text, token.start, is_plain_name)?),
    };
    Ok(Term { what, span: span(token.start, token.end()) })
}

fn kind_of(letter: u8) -> Kind {
    match letter {
        b's' => Kind::Symbol,
        b't' => Kind::Term,
        _ => Kind::Expression,
    }
}

/// A term for each character; the spans of the first and the last take in the quotes.
fn characters_of(token: Token) -> Result<Vec<Term>, Wrong> {
    let pieces = pieces_of(token.text, token.start)?;
    let term =
        |piece: &super::quoted::Piece| Term { what: What::Character(piece.letter), span: span(piece.start, piece.end) };
    let mut terms: Vec<Term> = pieces.iter().map(term).collect();
    match terms.first_mut() {
        Some(first) => first.span.start = token.start as u32,
        None => return Err(Wrong::new(token.start, "no character between the quotes")),
    }
    if let Some(last) = terms.last_mut() {
        last.span.end = token.end() as u32;
    }
    Ok(terms)
}

/// The name that is written plainly, or between backquotes.
fn name_of(text: &[u8], place: usize, plain: fn(&[u8]) -> bool) -> Result<String, Wrong> {
    if text[0] != b'`' {
        if !plain(text) {
            return Err(Wrong::new(place, "a name begins with a letter, or stands between backquotes"));
        }
        return measured(text, place);
    }
    let pieces = pieces_of(text, place)?;
    if let Some(bad) = pieces.iter().find(|piece| !('!'..='~').contains(&piece.letter)) {
        return Err(Wrong::new(bad.start, "a name holds only the codes 33 to 126"));
    }
    let name: Vec<u8> = pieces.iter().map(|piece| piece.letter as u8).collect();
    measured(&name, place)
}

/// A name or number in ASCII, if it is neither empty nor too long.
fn measured(name: &[u8], place: usize) -> Result<String, Wrong> {
    if !(1..=LONGEST_NAME).contains(&name.len()) {
        return Err(Wrong::new(place, format!("a name or number has 1 to {LONGEST_NAME} bytes")));
    }
    Ok(name.iter().map(|&byte| byte as char).collect())
}

#[cfg(test)]
mod tests {
    use super::*;

    #[test]
    fn spans_are_the_places_in_the_text() {
        let program = program_of(b"F {\n  'ab' (s.X) = <G>;\n}\n").expect("a right text");
        let function = &program.functions[0];
        let sentence = &function.sentences[0];
        assert_eq!(function.span, span(0, 25));
        assert_eq!(sentence.span, span(6, 23));
        let spans: Vec<Span> = sentence.pattern.iter().map(|term| term.span).collect();
        assert_eq!(spans, [span(6, 8), span(8, 10), span(11, 16)]);
        assert_eq!(sentence.result[0].span, span(19, 22));
    }

    #[test]
    fn wrong_texts_are_answered_at_their_place() {
        let cases = [
            ("F {", 3, "a sentence or `}` must stand here"),
            ("F { e.X ", 8, "a term, `,` or `=` must stand here"),
            ("F { (<G>) = ; }", 5, "a call or a block cannot stand in a pattern"),
            ("F { = e.; }", 7, "nothing of the notation begins here"),
            ("F { = 'A }", 6, "a quote that is not closed on its line"),
            ("F { = ''; }", 6, "no character between the quotes"),
            ("F { = '\\x{110000}'; }", 7, "no character has this code"),
            ("F { = `a b`; }", 8, "a name holds only the codes 33 to 126"),
            ("F {}\n$EXTERN G;", 5, "declarations come before all functions"),
        ];
        for (text, place, words) in cases {
            assert_eq!(program_of(text.as_bytes()), Err(Wrong::new(place, words)), "{text}");
        }
    }
}
