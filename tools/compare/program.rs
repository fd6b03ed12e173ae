//! Programs as trees, and the encoder that makes images of them.

use std::rc::Rc;

pub type Name = Rc<[u8]>;

#[derive(Clone, Copy, Debug, Default, PartialEq)]
pub struct Span {
    pub start: u32,
    pub end: u32,
}

#[derive(Clone, Copy, Debug, PartialEq, Eq)]
pub enum Kind {
    Symbol,
    Term,
    Expression,
}

#[derive(Clone, Debug, PartialEq)]
pub enum Symbol {
    Character(u32),
    Identifier(Name),
    Number(Name),
}

#[derive(Clone, Debug, PartialEq)]
pub enum Shape {
    Symbol(Symbol),
    Variable(Kind, Name),
    Bracket(Vec<Term>),
    Call(Name, Vec<Term>),
    Block(Vec<Term>, Vec<Sentence>),
}

#[derive(Clone, Debug, PartialEq)]
pub struct Term {
    pub span: Span,
    pub shape: Shape,
}

#[derive(Clone, Debug, PartialEq)]
pub struct Condition {
    pub span: Span,
    pub result: Vec<Term>,
    pub pattern: Vec<Term>,
}

#[derive(Clone, Debug, PartialEq)]
pub struct Sentence {
    pub span: Span,
    pub pattern: Vec<Term>,
    pub conditions: Vec<Condition>,
    pub result: Vec<Term>,
}

#[derive(Clone, Debug, PartialEq)]
pub struct Declaration {
    pub span: Span,
    pub names: Vec<Name>,
}

#[derive(Clone, Debug, PartialEq)]
pub struct Function {
    pub span: Span,
    pub entry: bool,
    pub name: Name,
    pub sentences: Vec<Sentence>,
}

#[derive(Clone, Debug, Default, PartialEq)]
pub struct Program {
    pub declarations: Vec<Declaration>,
    pub functions: Vec<Function>,
}

impl Program {
    pub fn own_sentences(&self) -> usize {
        self.functions.iter().map(|f| f.sentences.len()).sum()
    }
}

pub const CHARACTER: u8 = 1;
pub const IDENTIFIER: u8 = 2;
pub const NUMBER: u8 = 3;
pub const SYMBOL_VARIABLE: u8 = 4;
pub const TERM_VARIABLE: u8 = 5;
pub const EXPRESSION_VARIABLE: u8 = 6;
pub const BRACKET: u8 = 7;
pub const CALL: u8 = 8;
pub const BLOCK: u8 = 9;
pub const SENTENCE: u8 = 10;
pub const CONDITION: u8 = 11;
pub const RESULT: u8 = 12;
pub const CLOSE: u8 = 15;
pub const DECLARATION: u8 = 17;
pub const FUNCTION: u8 = 18;

/// The last 12 bytes of an image.
#[derive(Clone, Copy, PartialEq)]
pub struct Trailer {
    pub body_length: u32,
    pub first_function: u32,
    pub functions: u16,
    pub sentences: u16,
}

impl Trailer {
    pub const LENGTH: usize = 12;

    /// The trailer that agrees with a body.
    pub fn of(program: &Program, body_length: usize, first: Option<usize>) -> Trailer {
        Trailer {
            body_length: body_length as u32,
            first_function: first.map_or(0, |place| body_length - place) as u32,
            functions: program.functions.len() as u16,
            sentences: program.own_sentences() as u16,
        }
    }

    pub fn put(self, image: &mut Vec<u8>) {
        image.extend(self.body_length.to_le_bytes());
        image.extend(self.first_function.to_le_bytes());
        image.extend(self.functions.to_le_bytes());
        image.extend(self.sentences.to_le_bytes());
    }
}

/// The image of a program; nothing is checked, so that bad images can be made too.
pub fn encode(program: &Program) -> Vec<u8> {
    let mut image = Vec::new();
    for declaration in &program.declarations {
        put_mark(&mut image, DECLARATION, declaration.span);
        image.push(declaration.names.len() as u8);
        for name in &declaration.names {
            put_name(&mut image, name);
        }
    }
    let first = (!program.functions.is_empty()).then_some(image.len());
    for function in &program.functions {
        put_mark(&mut image, FUNCTION, function.span);
        image.push(function.entry as u8);
        put_name(&mut image, &function.name);
        put_sentences(&mut image, &function.sentences);
    }
    Trailer::of(program, image.len(), first).put(&mut image);
    image
}

fn put_mark(image: &mut Vec<u8>, mark: u8, span: Span) {
    image.push(mark);
    image.extend(span.start.to_le_bytes());
    image.extend(span.end.to_le_bytes());
}

fn put_name(image: &mut Vec<u8>, name: &[u8]) {
    image.push(name.len() as u8);
    image.extend(name);
}

fn put_sentences(image: &mut Vec<u8>, sentences: &[Sentence]) {
    for sentence in sentences {
        put_mark(image, SENTENCE, sentence.span);
        put_terms(image, &sentence.pattern);
        for condition in &sentence.conditions {
            put_mark(image, CONDITION, condition.span);
            put_terms(image, &condition.result);
            put_terms(image, &condition.pattern);
        }
        image.push(RESULT);
        put_terms(image, &sentence.result);
    }
    image.push(CLOSE);
}

fn put_terms(image: &mut Vec<u8>, terms: &[Term]) {
    for term in terms {
        put_term(image, term);
    }
    image.push(CLOSE);
}

fn put_term(image: &mut Vec<u8>, term: &Term) {
    put_mark(image, mark_of(&term.shape), term.span);
    match &term.shape {
        Shape::Symbol(Symbol::Character(code)) => image.extend(code.to_le_bytes()),
        Shape::Symbol(Symbol::Identifier(name) | Symbol::Number(name)) => put_name(image, name),
        Shape::Variable(_, name) => put_name(image, name),
        Shape::Bracket(terms) => put_terms(image, terms),
        Shape::Call(name, argument) => {
            put_name(image, name);
            put_terms(image, argument);
        }
        Shape::Block(argument, sentences) => {
            put_terms(image, argument);
            put_sentences(image, sentences);
        }
    }
}

fn mark_of(shape: &Shape) -> u8 {
    match shape {
        Shape::Symbol(Symbol::Character(_)) => CHARACTER,
        Shape::Symbol(Symbol::Identifier(_)) => IDENTIFIER,
        Shape::Symbol(Symbol::Number(_)) => NUMBER,
        Shape::Variable(Kind::Symbol, _) => SYMBOL_VARIABLE,
        Shape::Variable(Kind::Term, _) => TERM_VARIABLE,
        Shape::Variable(Kind::Expression, _) => EXPRESSION_VARIABLE,
        Shape::Bracket(_) => BRACKET,
        Shape::Call(..) => CALL,
        Shape::Block(..) => BLOCK,
    }
}
