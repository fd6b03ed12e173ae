//! A second reader of images by plain descent, as tools/reader.py reads them.

use crate::program::*;

pub const SMALLEST_IMAGE: usize = 12;
pub const LARGEST_IMAGE: usize = 32768;
const LONGEST_NAME: u8 = 63;
const DEEPEST_NESTING: usize = 32;

#[derive(Clone, Copy, Debug, PartialEq)]
pub struct Refusal {
    pub number: u8,
    pub place: usize,
}

type Read<T> = Result<T, Refusal>;

fn refused<T>(number: u8, place: usize) -> Read<T> {
    Err(Refusal { number, place })
}

/// The program of an accepted image, else refusal 1 or one of 4 to 11.
pub fn read(image: &[u8]) -> Read<Program> {
    if !(SMALLEST_IMAGE..=LARGEST_IMAGE).contains(&image.len()) {
        return refused(1, 0);
    }
    let (body, last) = image.split_at(image.len() - Trailer::LENGTH);
    let trailer = trailer_of(last);
    if trailer.body_length as usize != body.len() || trailer.first_function > trailer.body_length {
        return refused(4, 0);
    }
    let (program, first) = read_body(body)?;
    match trailer == Trailer::of(&program, body.len(), first) {
        true => Ok(program),
        false => refused(11, 0),
    }
}

pub fn trailer_of(last: &[u8]) -> Trailer {
    let number = |place: usize| u32::from_le_bytes(last[place..place + 4].try_into().unwrap());
    let short = |place: usize| u16::from_le_bytes(last[place..place + 2].try_into().unwrap());
    Trailer {
        body_length: number(0),
        first_function: number(4),
        functions: short(8),
        sentences: short(10),
    }
}

/// The body's program, and the place of its first function if it has one.
pub fn read_body(body: &[u8]) -> Read<(Program, Option<usize>)> {
    let mut cursor = Cursor { body, place: 0 };
    let mut program = Program::default();
    let mut first = None;
    while cursor.place < body.len() {
        let place = cursor.place;
        match cursor.byte()? {
            DECLARATION if first.is_none() => program.declarations.push(cursor.declaration()?),
            FUNCTION => {
                first = first.or(Some(place));
                program.functions.push(cursor.function()?);
            }
            _ => return refused(5, place),
        }
    }
    Ok((program, first))
}

/// A place in the body; what it takes it leaves behind.
struct Cursor<'a> {
    body: &'a [u8],
    place: usize,
}

impl Cursor<'_> {
    fn need(&self, length: usize) -> Read<()> {
        match self.body.len() - self.place < length {
            true => refused(5, self.body.len()),
            false => Ok(()),
        }
    }

    fn byte(&mut self) -> Read<u8> {
        self.need(1)?;
        self.place += 1;
        Ok(self.body[self.place - 1])
    }

    fn number(&mut self) -> Read<u32> {
        self.need(4)?;
        let bytes = &self.body[self.place..self.place + 4];
        self.place += 4;
        Ok(u32::from_le_bytes(bytes.try_into().unwrap()))
    }

    fn span(&mut self) -> Read<Span> {
        let place = self.place;
        self.need(8)?;
        let (start, end) = (self.number()?, self.number()?);
        match start > end {
            true => refused(8, place),
            false => Ok(Span { start, end }),
        }
    }

    fn code(&mut self) -> Read<u32> {
        let place = self.place;
        let code = self.number()?;
        match code > 1_114_111 || (55_296..=57_343).contains(&code) {
            true => refused(7, place),
            false => Ok(code),
        }
    }

    fn name(&mut self) -> Read<Name> {
        self.spelling(33, 126)
    }

    /// Bytes are judged one by one, so that a bad one is met before a cut after it.
    fn spelling(&mut self, first: u8, last: u8) -> Read<Name> {
        let place = self.place;
        let length = self.byte()?;
        if length == 0 || length > LONGEST_NAME {
            return refused(6, place);
        }
        let start = self.place;
        for _ in 0..length {
            let place = self.place;
            let byte = self.byte()?;
            if byte < first || byte > last {
                return refused(6, place);
            }
        }
        Ok(self.body[start..self.place].into())
    }

    fn declaration(&mut self) -> Read<Declaration> {
        let span = self.span()?;
        let count = self.byte()?;
        let names = (0..count).map(|_| self.name()).collect::<Read<_>>()?;
        Ok(Declaration { span, names })
    }

    fn function(&mut self) -> Read<Function> {
        let span = self.span()?;
        let place = self.place;
        let visibility = self.byte()?;
        if visibility > 1 {
            return refused(5, place);
        }
        let name = self.name()?;
        let sentences = self.sentences(0)?;
        let entry = visibility == 1;
        Ok(Function {
            span,
            entry,
            name,
            sentences,
        })
    }

    fn sentences(&mut self, depth: usize) -> Read<Vec<Sentence>> {
        let mut sentences = Vec::new();
        loop {
            let place = self.place;
            match self.byte()? {
                CLOSE => return Ok(sentences),
                SENTENCE => sentences.push(self.sentence(depth)?),
                _ => return refused(5, place),
            }
        }
    }

    fn sentence(&mut self, depth: usize) -> Read<Sentence> {
        let span = self.span()?;
        let pattern = self.terms(depth, true)?;
        let mut conditions = Vec::new();
        loop {
            let place = self.place;
            match self.byte()? {
                CONDITION => conditions.push(self.condition(depth)?),
                RESULT => break,
                _ => return refused(5, place),
            }
        }
        let result = self.terms(depth, false)?;
        Ok(Sentence {
            span,
            pattern,
            conditions,
            result,
        })
    }

    fn condition(&mut self, depth: usize) -> Read<Condition> {
        let span = self.span()?;
        let result = self.terms(depth, false)?;
        let pattern = self.terms(depth, true)?;
        Ok(Condition {
            span,
            result,
            pattern,
        })
    }

    /// Terms up to a close, with so many brackets, calls and blocks open around them.
    fn terms(&mut self, depth: usize, in_pattern: bool) -> Read<Vec<Term>> {
        let mut terms = Vec::new();
        loop {
            let place = self.place;
            match self.byte()? {
                CLOSE => return Ok(terms),
                mark => terms.push(self.term(mark, place, depth, in_pattern)?),
            }
        }
    }

    /// The mark alone decides 5, 9 and 10, before its span is read.
    fn term(&mut self, mark: u8, place: usize, depth: usize, in_pattern: bool) -> Read<Term> {
        if !(CHARACTER..=BLOCK).contains(&mark) {
            return refused(5, place);
        }
        if in_pattern && (mark == CALL || mark == BLOCK) {
            return refused(9, place);
        }
        if mark >= BRACKET && depth + 1 > DEEPEST_NESTING {
            return refused(10, place);
        }
        let span = self.span()?;
        let shape = self.shape(mark, depth, in_pattern)?;
        Ok(Term { span, shape })
    }

    fn shape(&mut self, mark: u8, depth: usize, in_pattern: bool) -> Read<Shape> {
        Ok(match mark {
            CHARACTER => Shape::Symbol(Symbol::Character(self.code()?)),
            IDENTIFIER => Shape::Symbol(Symbol::Identifier(self.name()?)),
            NUMBER => Shape::Symbol(Symbol::Number(self.spelling(b'0', b'9')?)),
            SYMBOL_VARIABLE => Shape::Variable(Kind::Symbol, self.name()?),
            TERM_VARIABLE => Shape::Variable(Kind::Term, self.name()?),
            EXPRESSION_VARIABLE => Shape::Variable(Kind::Expression, self.name()?),
            BRACKET => Shape::Bracket(self.terms(depth + 1, in_pattern)?),
            CALL => Shape::Call(self.name()?, self.terms(depth + 1, false)?),
            _ => Shape::Block(self.terms(depth + 1, false)?, self.sentences(depth + 1)?),
        })
    }
}
