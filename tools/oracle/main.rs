//! Answers questions about images with the Rust that document 01 names.
//!
//! Requests come on standard input and answers go to standard output, one answer
//! for each request and in their order, until the input ends. Numbers are
//! little-endian; "bytes" is a u32 length and then that many bytes.
//!
//!     request CLEAN:   u8 1, bytes image
//!     answer:          bytes cleaned image, bytes report text (its last line as
//!                      document 02 asks for it: departures.rs), u8 request whose
//!                      last line that is (0: the Rust's own)
//!
//!     request OVERLAP: u8 2, bytes image, u32 first, u32 second
//!     answer:          u8 verdict (0 Disjoint, 1 Overlap, 2 Unknown),
//!                      u32 entries spent by the outermost pair
//!
//! Sentences are numbered over the functions' own sentences in file order, from 0.
//! Every image must have been accepted by tools/reader.py and every number must
//! be below the sentence count; anything else ends the process with a message.

mod departures;

use std::io::{self, BufReader, BufWriter, Read, Write};

use departures::{Figures, departing_line};
use refal_ast::{Span, VariableKind, Visibility};
use refal_core::{
    CleanReport, CoreCondition, CoreDeclaration, CoreFunction, CoreProgram, CoreSentence, CoreTerm,
    CoreTermKind, PatternCompatibility, clean_residual_program, format_clean_report,
    oracle_overlap_spent, oracle_patterns_overlap,
};

const CHARACTER: u8 = 1;
const IDENTIFIER: u8 = 2;
const NUMBER: u8 = 3;
const SYMBOL_VARIABLE: u8 = 4;
const TERM_VARIABLE: u8 = 5;
const EXPRESSION_VARIABLE: u8 = 6;
const BRACKET: u8 = 7;
const CALL: u8 = 8;
const BLOCK: u8 = 9;
const SENTENCE: u8 = 10;
const CONDITION: u8 = 11;
const RESULT: u8 = 12;
const CLOSE: u8 = 15;
const DECLARATION: u8 = 17;
const FUNCTION: u8 = 18;
const TRAILER_LENGTH: usize = 12;

const REQUEST_CLEAN: u8 = 1;
const REQUEST_OVERLAP: u8 = 2;

fn main() -> io::Result<()> {
    let mut input = BufReader::new(io::stdin().lock());
    let mut output = BufWriter::new(io::stdout().lock());
    while let Some(kind) = read_kind(&mut input)? {
        match kind {
            REQUEST_CLEAN => answer_clean(&mut input, &mut output)?,
            REQUEST_OVERLAP => answer_overlap(&mut input, &mut output)?,
            other => panic!("request of unknown kind {other}"),
        }
        // The asker waits for this answer before it asks again.
        output.flush()?;
    }
    Ok(())
}

fn answer_clean(input: &mut impl Read, output: &mut impl Write) -> io::Result<()> {
    let image = read_bytes(input)?;
    let (cleaned, report) = clean_residual_program(&decode(&image));
    let (text, request) = report_text(&report);
    write_bytes(output, &encode(&cleaned))?;
    write_bytes(output, text.as_bytes())?;
    output.write_all(&[request])
}

/// The text of a report, and the request that changed its last line, or 0.
/// Every report that the tools hold to the product's comes from here.
fn report_text(report: &CleanReport) -> (String, u8) {
    let text = format_clean_report(report);
    let last = text[..text.len() - 1].rfind('\n').map_or(0, |end| end + 1);
    match departing_line(&figures_of(report)) {
        Some((request, line)) => (text[..last].to_owned() + &line, request),
        None => (text, 0),
    }
}

fn figures_of(report: &CleanReport) -> Figures {
    Figures {
        functions: report.functions,
        undecided: report.undecided.len(),
        uncovered: report.uncovered.len(),
        uncharacterised: report.uncharacterised.len(),
        dynamic_dispatch: report.dynamic_dispatch,
    }
}

fn answer_overlap(input: &mut impl Read, output: &mut impl Write) -> io::Result<()> {
    let image = read_bytes(input)?;
    let first = read_u32(input)? as usize;
    let second = read_u32(input)? as usize;
    let program = decode(&image);
    let patterns = own_patterns(&program);
    let (verdict, spent) = oracle_overlap_spent(patterns[first], patterns[second]);
    // The search that was kept must say what the cleaner is told.
    assert_eq!(verdict, oracle_patterns_overlap(patterns[first], patterns[second]));
    output.write_all(&[verdict_number(verdict)])?;
    output.write_all(&(spent as u32).to_le_bytes())
}

fn own_patterns(program: &CoreProgram) -> Vec<&[CoreTerm]> {
    let sentences = program.functions.iter().flat_map(|function| &function.sentences);
    sentences.map(|sentence| sentence.pattern.as_slice()).collect()
}

fn verdict_number(verdict: PatternCompatibility) -> u8 {
    match verdict {
        PatternCompatibility::Disjoint => 0,
        PatternCompatibility::Overlap => 1,
        PatternCompatibility::Unknown => 2,
    }
}

// ------------------------------------------------------------------- framing

fn read_kind(input: &mut impl Read) -> io::Result<Option<u8>> {
    let mut kind = [0];
    let count = input.read(&mut kind)?;
    Ok((count == 1).then_some(kind[0]))
}

fn read_u32(input: &mut impl Read) -> io::Result<u32> {
    let mut bytes = [0; 4];
    input.read_exact(&mut bytes)?;
    Ok(u32::from_le_bytes(bytes))
}

fn read_bytes(input: &mut impl Read) -> io::Result<Vec<u8>> {
    let length = read_u32(input)? as usize;
    let mut bytes = vec![0; length];
    input.read_exact(&mut bytes)?;
    Ok(bytes)
}

fn write_bytes(output: &mut impl Write, bytes: &[u8]) -> io::Result<()> {
    output.write_all(&(bytes.len() as u32).to_le_bytes())?;
    output.write_all(bytes)
}

// ------------------------------------------------------------------ decoding

/// The program of an accepted image.
fn decode(image: &[u8]) -> CoreProgram {
    let body = &image[..image.len() - TRAILER_LENGTH];
    let mut cursor = Cursor { body, place: 0 };
    let mut program = CoreProgram {
        declarations: Vec::new(),
        functions: Vec::new(),
    };
    while cursor.place < body.len() {
        match cursor.byte() {
            DECLARATION => program.declarations.push(cursor.declaration()),
            FUNCTION => program.functions.push(cursor.function()),
            other => panic!("no record begins with {other}"),
        }
    }
    program
}

/// A place in the body; each method reads one part and moves past it.
struct Cursor<'a> {
    body: &'a [u8],
    place: usize,
}

impl Cursor<'_> {
    fn byte(&mut self) -> u8 {
        self.place += 1;
        self.body[self.place - 1]
    }

    fn number(&mut self) -> u32 {
        let bytes = [self.byte(), self.byte(), self.byte(), self.byte()];
        u32::from_le_bytes(bytes)
    }

    fn span(&mut self) -> Span {
        let start = self.number() as usize;
        let end = self.number() as usize;
        Span { start, end }
    }

    fn name(&mut self) -> String {
        let length = self.byte();
        (0..length).map(|_| self.byte() as char).collect()
    }

    fn declaration(&mut self) -> CoreDeclaration {
        let span = self.span();
        let count = self.byte();
        let names = (0..count).map(|_| self.name()).collect();
        CoreDeclaration { names, span }
    }

    fn function(&mut self) -> CoreFunction {
        let span = self.span();
        let visibility = match self.byte() {
            0 => Visibility::Local,
            1 => Visibility::Entry,
            other => panic!("visibility {other}"),
        };
        let name = self.name();
        let sentences = self.sentences();
        CoreFunction {
            name,
            visibility,
            sentences,
            span,
        }
    }

    fn sentences(&mut self) -> Vec<CoreSentence> {
        let mut sentences = Vec::new();
        loop {
            match self.byte() {
                CLOSE => return sentences,
                SENTENCE => sentences.push(self.sentence()),
                other => panic!("no sentence begins with {other}"),
            }
        }
    }

    fn sentence(&mut self) -> CoreSentence {
        let span = self.span();
        let pattern = self.terms();
        let mut conditions = Vec::new();
        loop {
            match self.byte() {
                CONDITION => conditions.push(self.condition()),
                RESULT => break,
                other => panic!("no part of a sentence begins with {other}"),
            }
        }
        let result = self.terms();
        CoreSentence {
            pattern,
            conditions,
            result,
            span,
        }
    }

    fn condition(&mut self) -> CoreCondition {
        let span = self.span();
        let result = self.terms();
        let pattern = self.terms();
        CoreCondition {
            result,
            pattern,
            span,
        }
    }

    fn terms(&mut self) -> Vec<CoreTerm> {
        let mut terms = Vec::new();
        loop {
            match self.byte() {
                CLOSE => return terms,
                mark => terms.push(self.term(mark)),
            }
        }
    }

    fn term(&mut self, mark: u8) -> CoreTerm {
        let span = self.span();
        let kind = match mark {
            CHARACTER => CoreTermKind::Char(self.character()),
            IDENTIFIER => CoreTermKind::Identifier(self.name()),
            NUMBER => CoreTermKind::Number(self.name()),
            SYMBOL_VARIABLE => self.variable(VariableKind::Symbol),
            TERM_VARIABLE => self.variable(VariableKind::Term),
            EXPRESSION_VARIABLE => self.variable(VariableKind::Expression),
            BRACKET => CoreTermKind::Bracket(self.terms()),
            CALL => CoreTermKind::Call {
                name: self.name(),
                args: self.terms(),
            },
            BLOCK => CoreTermKind::Block {
                argument: self.terms(),
                sentences: self.sentences(),
            },
            other => panic!("no term begins with {other}"),
        };
        CoreTerm { kind, span }
    }

    fn character(&mut self) -> char {
        char::from_u32(self.number()).expect("a character code")
    }

    fn variable(&mut self, kind: VariableKind) -> CoreTermKind {
        let name = self.name();
        CoreTermKind::Variable { kind, name }
    }
}

// ------------------------------------------------------------------ encoding

/// The image of a program, trailer included.
fn encode(program: &CoreProgram) -> Vec<u8> {
    let mut image = Vec::new();
    for declaration in &program.declarations {
        put_declaration(&mut image, declaration);
    }
    let first_function = image.len();
    for function in &program.functions {
        put_function(&mut image, function);
    }
    put_trailer(&mut image, program, first_function);
    image
}

fn put_trailer(image: &mut Vec<u8>, program: &CoreProgram, first_function: usize) {
    let body_length = image.len();
    let distance = match program.functions.len() {
        0 => 0,
        _ => body_length - first_function,
    };
    let sentences: usize = program.functions.iter().map(|f| f.sentences.len()).sum();
    put_number(image, body_length);
    put_number(image, distance);
    image.extend((program.functions.len() as u16).to_le_bytes());
    image.extend((sentences as u16).to_le_bytes());
}

fn put_number(image: &mut Vec<u8>, number: usize) {
    image.extend((number as u32).to_le_bytes());
}

fn put_marked(image: &mut Vec<u8>, mark: u8, span: Span) {
    image.push(mark);
    put_number(image, span.start);
    put_number(image, span.end);
}

fn put_name(image: &mut Vec<u8>, name: &str) {
    image.push(name.len() as u8);
    image.extend(name.bytes());
}

fn put_declaration(image: &mut Vec<u8>, declaration: &CoreDeclaration) {
    put_marked(image, DECLARATION, declaration.span);
    image.push(declaration.names.len() as u8);
    for name in &declaration.names {
        put_name(image, name);
    }
}

fn put_function(image: &mut Vec<u8>, function: &CoreFunction) {
    put_marked(image, FUNCTION, function.span);
    image.push((function.visibility == Visibility::Entry) as u8);
    put_name(image, &function.name);
    put_sentences(image, &function.sentences);
}

fn put_sentences(image: &mut Vec<u8>, sentences: &[CoreSentence]) {
    for sentence in sentences {
        put_marked(image, SENTENCE, sentence.span);
        put_terms(image, &sentence.pattern);
        for condition in &sentence.conditions {
            put_marked(image, CONDITION, condition.span);
            put_terms(image, &condition.result);
            put_terms(image, &condition.pattern);
        }
        image.push(RESULT);
        put_terms(image, &sentence.result);
    }
    image.push(CLOSE);
}

fn put_terms(image: &mut Vec<u8>, terms: &[CoreTerm]) {
    for term in terms {
        put_term(image, term);
    }
    image.push(CLOSE);
}

fn put_term(image: &mut Vec<u8>, term: &CoreTerm) {
    put_marked(image, mark_of(&term.kind), term.span);
    match &term.kind {
        CoreTermKind::Char(character) => put_number(image, *character as usize),
        CoreTermKind::Identifier(name)
        | CoreTermKind::Number(name)
        | CoreTermKind::Variable { name, .. } => put_name(image, name),
        CoreTermKind::Bracket(terms) => put_terms(image, terms),
        CoreTermKind::Call { name, args } => {
            put_name(image, name);
            put_terms(image, args);
        }
        CoreTermKind::Block {
            argument,
            sentences,
        } => {
            put_terms(image, argument);
            put_sentences(image, sentences);
        }
    }
}

fn mark_of(kind: &CoreTermKind) -> u8 {
    match kind {
        CoreTermKind::Char(_) => CHARACTER,
        CoreTermKind::Identifier(_) => IDENTIFIER,
        CoreTermKind::Number(_) => NUMBER,
        CoreTermKind::Variable { kind, .. } => match kind {
            VariableKind::Symbol => SYMBOL_VARIABLE,
            VariableKind::Term => TERM_VARIABLE,
            VariableKind::Expression => EXPRESSION_VARIABLE,
        },
        CoreTermKind::Bracket(_) => BRACKET,
        CoreTermKind::Call { .. } => CALL,
        CoreTermKind::Block { .. } => BLOCK,
    }
}
