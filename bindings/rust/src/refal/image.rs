//! Images: the program of an accepted one, and the bytes of a program.

use crate::program::{Condition, Declaration, Function, Kind, Program, Sentence, Span, Term, What};

const TRAILER: usize = 12;
const CHARACTER: u8 = 1;
const IDENTIFIER: u8 = 2;
const NUMBER: u8 = 3;
const SYMBOL_VARIABLE: u8 = 4;
const TERM_VARIABLE: u8 = 5;
const EXPRESSION_VARIABLE: u8 = 6;
const BRACKET: u8 = 7;
const CALL: u8 = 8;
const BLOCK: u8 = 9;
const SENTENCE: u8 = 10;
const CONDITION: u8 = 11;
const RESULT: u8 = 12;
const CLOSE: u8 = 15;
const DECLARATION: u8 = 17;
const FUNCTION: u8 = 18;

// ------------------------------------------------------------------- decoding

/// The program of an image that the library has accepted; on other bytes it may panic.
pub fn decode(image: &[u8]) -> Program {
    let mut body = Body { rest: &image[..image.len() - TRAILER] };
    let mut program = Program::default();
    while !body.rest.is_empty() {
        match body.byte() {
            DECLARATION => program.declarations.push(body.declaration()),
            _ => program.functions.push(body.function()),
        }
    }
    program
}

/// The terms of an expression that the library has written; nothing closes it.
pub fn expression(bytes: &[u8]) -> Vec<Term> {
    let closed = [bytes, &[CLOSE]].concat();
    Body { rest: &closed }.terms()
}

/// What is left to read; each method takes one part from its front.
struct Body<'a> {
    rest: &'a [u8],
}

impl Body<'_> {
    fn take(&mut self, count: usize) -> &[u8] {
        let (taken, rest) = self.rest.split_at(count);
        self.rest = rest;
        taken
    }

    fn byte(&mut self) -> u8 {
        self.take(1)[0]
    }

    fn number(&mut self) -> u32 {
        u32::from_le_bytes(self.take(4).try_into().expect("four bytes"))
    }

    fn span(&mut self) -> Span {
        Span { start: self.number(), end: self.number() }
    }

    fn name(&mut self) -> String {
        let length = self.byte() as usize;
        self.take(length).iter().map(|&byte| byte as char).collect()
    }

    /// Parts up to a close, which is taken too; `read` is handed each part's mark.
    fn list<T>(&mut self, read: impl Fn(&mut Self, u8) -> T) -> Vec<T> {
        let mut parts = Vec::new();
        loop {
            match self.byte() {
                CLOSE => return parts,
                mark => parts.push(read(self, mark)),
            }
        }
    }

    fn declaration(&mut self) -> Declaration {
        let span = self.span();
        let count = self.byte();
        let names = (0..count).map(|_| self.name()).collect();
        Declaration { names, span }
    }

    fn function(&mut self) -> Function {
        let span = self.span();
        let entry = self.byte() == 1;
        Function { name: self.name(), entry, sentences: self.sentences(), span }
    }

    fn sentences(&mut self) -> Vec<Sentence> {
        self.list(|body, _| body.sentence())
    }

    fn sentence(&mut self) -> Sentence {
        let span = self.span();
        let pattern = self.terms();
        let mut conditions = Vec::new();
        while self.byte() == CONDITION {
            conditions.push(self.condition());
        }
        Sentence { pattern, conditions, result: self.terms(), span }
    }

    fn condition(&mut self) -> Condition {
        let span = self.span();
        Condition { result: self.terms(), pattern: self.terms(), span }
    }

    fn terms(&mut self) -> Vec<Term> {
        self.list(Self::term)
    }

    fn term(&mut self, mark: u8) -> Term {
        let span = self.span();
        let what = match mark {
            CHARACTER => What::Character(char::from_u32(self.number()).expect("a character's code")),
            IDENTIFIER => What::Identifier(self.name()),
            NUMBER => What::Number(self.name()),
            SYMBOL_VARIABLE => What::Variable(Kind::Symbol, self.name()),
            TERM_VARIABLE => What::Variable(Kind::Term, self.name()),
            EXPRESSION_VARIABLE => What::Variable(Kind::Expression, self.name()),
            BRACKET => What::Bracket(self.terms()),
            CALL => What::Call(self.name(), self.terms()),
            _ => What::Block(self.terms(), self.sentences()),
        };
        Term { what, span }
    }
}

// ------------------------------------------------------------------- encoding

/// The image of a program; nothing is checked, so that the library can refuse it.
pub fn encode(program: &Program) -> Vec<u8> {
    let mut image = Image::default();
    for declaration in &program.declarations {
        image.declaration(declaration);
    }
    let first_function = image.bytes.len();
    for function in &program.functions {
        image.function(function);
    }
    image.trailer(program, first_function);
    image.bytes
}

/// What is written so far; each method adds one part.
#[derive(Default)]
struct Image {
    bytes: Vec<u8>,
}

impl Image {
    fn number(&mut self, number: u32) {
        self.bytes.extend(number.to_le_bytes());
    }

    fn marked(&mut self, mark: u8, span: Span) {
        self.bytes.push(mark);
        self.number(span.start);
        self.number(span.end);
    }

    fn name(&mut self, name: &str) {
        self.bytes.push(name.len() as u8);
        self.bytes.extend(name.bytes());
    }

    fn declaration(&mut self, declaration: &Declaration) {
        self.marked(DECLARATION, declaration.span);
        self.bytes.push(declaration.names.len() as u8);
        for name in &declaration.names {
            self.name(name);
        }
    }

    fn function(&mut self, function: &Function) {
        self.marked(FUNCTION, function.span);
        self.bytes.push(function.entry as u8);
        self.name(&function.name);
        self.sentences(&function.sentences);
    }

    fn sentences(&mut self, sentences: &[Sentence]) {
        for sentence in sentences {
            self.sentence(sentence);
        }
        self.bytes.push(CLOSE);
    }

    fn sentence(&mut self, sentence: &Sentence) {
        self.marked(SENTENCE, sentence.span);
        self.terms(&sentence.pattern);
        for condition in &sentence.conditions {
            self.marked(CONDITION, condition.span);
            self.terms(&condition.result);
            self.terms(&condition.pattern);
        }
        self.bytes.push(RESULT);
        self.terms(&sentence.result);
    }

    fn terms(&mut self, terms: &[Term]) {
        for term in terms {
            self.marked(mark_of(&term.what), term.span);
            self.fields(&term.what);
        }
        self.bytes.push(CLOSE);
    }

    /// What stands behind a term's mark and span.
    fn fields(&mut self, what: &What) {
        match what {
            What::Character(letter) => self.number(*letter as u32),
            What::Identifier(name) | What::Number(name) | What::Variable(_, name) => self.name(name),
            What::Bracket(terms) => self.terms(terms),
            What::Call(name, terms) => {
                self.name(name);
                self.terms(terms);
            }
            What::Block(terms, sentences) => {
                self.terms(terms);
                self.sentences(sentences);
            }
        }
    }

    fn trailer(&mut self, program: &Program, first_function: usize) {
        let length = self.bytes.len();
        let back = if program.functions.is_empty() { 0 } else { length - first_function };
        let sentences = program.own_sentences().count();
        self.number(length as u32);
        self.number(back as u32);
        self.bytes.extend((program.functions.len() as u16).to_le_bytes());
        self.bytes.extend((sentences as u16).to_le_bytes());
    }
}

fn mark_of(what: &What) -> u8 {
    match what {
        What::Character(_) => CHARACTER,
        What::Identifier(_) => IDENTIFIER,
        What::Number(_) => NUMBER,
        What::Variable(Kind::Symbol, _) => SYMBOL_VARIABLE,
        What::Variable(Kind::Term, _) => TERM_VARIABLE,
        What::Variable(Kind::Expression, _) => EXPRESSION_VARIABLE,
        What::Bracket(_) => BRACKET,
        What::Call(..) => CALL,
        What::Block(..) => BLOCK,
    }
}

#[cfg(test)]
mod tests {
    use super::*;
    use crate::text::program_of;

    const EVERYTHING: &str =
        "$EXTERN A, B; $ENTRY Go { s.1 t.2 (e.3) 'x', <F 7 Abc> : e.4 = [e.3 : { = ; }] <F (<F>)>; } F { }";

    #[test]
    fn an_image_is_read_as_it_was_written() {
        let program = program_of(EVERYTHING.as_bytes()).expect("a right text");
        let image = encode(&program);
        assert_eq!(decode(&image), program);
        assert_eq!(showclean::check(&image), Ok(()));
    }

    #[test]
    fn nothing_is_twelve_zeros() {
        assert_eq!(encode(&Program::default()), [0; 12]);
    }
}
