//! Raw and cleaned programs, run on the same inputs, answers and limits.

use crate::asking::Compared;
use crate::dice::Dice;
use crate::interpreter::{Ending, Event, Given, Item, Played, play};
use crate::lent::{self, Lengths};
use crate::maker::swapped;
use crate::program::*;
use crate::reader::read;

/// The runs of one program.
const RUNS: usize = 5;

pub const ENDINGS: [&str; 6] = [
    "the root's value",
    "no root",
    "no answer left",
    "nothing fitting",
    "variable unbound",
    "call limit",
];

#[derive(Default)]
pub struct Counts {
    pub programs: usize,
    pub shortened_programs: usize,
    pub runs: usize,
    pub shortened_runs: usize,
    pub met_runs: usize,
    pub given_up: usize,
    pub endings: [usize; 6],
    pub calls: usize,
    pub chosen: usize,
    pub longest: usize,
}

/// Cleans an image and runs it some times before and after.
pub fn ask(image: &[u8], dice: &mut Dice, counts: &mut Counts) -> Compared<()> {
    let Ok(mut raw) = read(image) else {
        return Err("the image is refused".into());
    };
    let written = cleaned(image, dice)?;
    let told = |refusal| format!("the cleaned image is refused: {refusal:?}");
    let mut left = read(&written).map_err(told)?;
    let shortened = written.len() < image.len();
    counts.programs += 1;
    counts.shortened_programs += shortened as usize;
    drop_spans(&mut raw);
    drop_spans(&mut left);
    for _ in 0..RUNS {
        let given = Inputs::new(&raw, dice).given();
        let Some(before) = play(&raw, &given) else {
            counts.given_up += 1;
            continue;
        };
        compare(&before, play(&left, &given).as_ref(), &given)?;
        counts.shortened_runs += shortened as usize;
        counts.met_runs += meets_shortened(&before, &raw, &left) as usize;
        note(&before, counts);
    }
    Ok(())
}

/// The image that Clean writes.
fn cleaned(image: &[u8], dice: &mut Dice) -> Compared<Vec<u8>> {
    let mut report = 4096;
    loop {
        let lengths = Lengths {
            output: image.len(),
            work: image.len().div_ceil(4),
            report,
        };
        let answer = lent::clean(image, lengths, dice);
        match answer.word & 0xff {
            0 => return Ok(answer.output.now()[..(answer.word >> 8 & 0xffff) as usize].to_vec()),
            12 => report = (answer.word >> 24) as usize,
            _ => return Err(format!("Clean answers {:#x}", answer.word)),
        }
    }
}

/// The cleaned program tries no more than the raw one, so it cannot take longer.
fn compare(before: &Played, after: Option<&Played>, given: &Given) -> Compared<()> {
    if after == Some(before) {
        return Ok(());
    }
    let Given {
        input,
        answers,
        limit,
    } = given;
    let given = format!("input {input:?}, answers {answers:?}, limit {limit}");
    Err(format!(
        "the runs differ: {given}\nraw: {before:?}\ncleaned: {after:?}"
    ))
}

/// Whether a call entered a function that has lost a sentence.
fn meets_shortened(played: &Played, raw: &Program, left: &Program) -> bool {
    let lost = |name: &Name| {
        let place = raw
            .functions
            .iter()
            .position(|f| f.name.eq_ignore_ascii_case(name));
        place.is_some_and(|p| raw.functions[p].sentences != left.functions[p].sentences)
    };
    let called = |event: &Event| matches!(event, Event::Called(name, _) if lost(name));
    played.events.iter().any(called)
}

fn note(played: &Played, counts: &mut Counts) {
    counts.runs += 1;
    counts.longest = counts.longest.max(played.events.len());
    for event in &played.events {
        match event {
            Event::Called(..) => counts.calls += 1,
            Event::Chosen(_) => counts.chosen += 1,
        }
    }
    let ending = match played.ending {
        Ending::Value(_) => 0,
        Ending::NoRoot => 1,
        Ending::NoAnswer => 2,
        Ending::NothingFits => 3,
        Ending::Unbound => 4,
        Ending::Limit => 5,
    };
    counts.endings[ending] += 1;
}

// ---------------------------------------------------------------------- spans

/// Events name sentences without spans, so they are dropped before a run.
fn drop_spans(program: &mut Program) {
    for function in &mut program.functions {
        drop_in_sentences(&mut function.sentences);
    }
}

fn drop_in_sentences(sentences: &mut [Sentence]) {
    for sentence in sentences {
        sentence.span = Span::default();
        drop_in_terms(&mut sentence.pattern);
        drop_in_terms(&mut sentence.result);
        for condition in &mut sentence.conditions {
            condition.span = Span::default();
            drop_in_terms(&mut condition.result);
            drop_in_terms(&mut condition.pattern);
        }
    }
}

fn drop_in_terms(terms: &mut [Term]) {
    for term in terms {
        term.span = Span::default();
        match &mut term.shape {
            Shape::Bracket(terms) | Shape::Call(_, terms) => drop_in_terms(terms),
            Shape::Block(terms, sentences) => {
                drop_in_terms(terms);
                drop_in_sentences(sentences);
            }
            _ => {}
        }
    }
}

// --------------------------------------------------------------------- inputs

/// Makes inputs that often match: patterns of the program with their variables filled.
struct Inputs<'a> {
    program: &'a Program,
    dice: &'a mut Dice,
    symbols: Vec<Symbol>,
    filled: Vec<(Kind, Name, Vec<Item>)>,
}

impl Inputs<'_> {
    fn new<'a>(program: &'a Program, dice: &'a mut Dice) -> Inputs<'a> {
        let mut symbols = vec![Symbol::Character('A' as u32), Symbol::Character('B' as u32)];
        for sentence in program.functions.iter().flat_map(|f| &f.sentences) {
            collect_symbols(&sentence.pattern, &mut symbols);
        }
        Inputs {
            program,
            dice,
            symbols,
            filled: Vec::new(),
        }
    }

    fn given(&mut self) -> Given {
        let functions = &self.program.functions;
        let entry = functions.iter().find(|function| function.entry);
        let root = entry.or(functions.first());
        let patterns = root.map_or(vec![], |function| {
            patterns_of(std::slice::from_ref(function))
        });
        let input = self.value(&patterns);
        let patterns = patterns_of(functions);
        let count = self.dice.between(0, 5);
        let answers = (0..count).map(|_| self.value(&patterns)).collect();
        let limit = match self.dice.between(1, 10) {
            1 => self.dice.between(0, 3),
            2..=4 => self.dice.between(4, 15),
            _ => 60,
        };
        Given {
            input,
            answers,
            limit,
        }
    }

    fn value(&mut self, patterns: &[&[Term]]) -> Vec<Item> {
        if patterns.is_empty() || self.dice.chance(15) {
            return self.items(0, 3);
        }
        self.filled.clear();
        let pattern = self.dice.pick(patterns);
        self.fill(pattern)
    }

    /// A repeated variable is filled with the same value, sometimes in another case.
    fn fill(&mut self, pattern: &[Term]) -> Vec<Item> {
        let mut items = Vec::new();
        for term in pattern {
            match &term.shape {
                Shape::Symbol(symbol) => items.push(self.symbol_like(symbol)),
                Shape::Variable(kind, name) => items.extend(self.filling(*kind, name)),
                Shape::Bracket(inside) => items.push(Item::Bracket(self.fill(inside).into())),
                Shape::Call(..) | Shape::Block(..) => {}
            }
        }
        items
    }

    fn symbol_like(&mut self, symbol: &Symbol) -> Item {
        match symbol {
            Symbol::Identifier(name) if self.dice.chance(25) => {
                Item::Symbol(Symbol::Identifier(swapped(name)))
            }
            _ => Item::Symbol(symbol.clone()),
        }
    }

    fn filling(&mut self, kind: Kind, name: &Name) -> Vec<Item> {
        let same =
            |(k, n, _): &&(Kind, Name, Vec<Item>)| *k == kind && n.eq_ignore_ascii_case(name);
        if let Some((_, _, value)) = self.filled.iter().find(same) {
            return value.clone();
        }
        let value = match kind {
            Kind::Symbol => vec![self.symbol()],
            Kind::Term => vec![self.item(0)],
            Kind::Expression => self.items(0, 3),
        };
        self.filled.push((kind, name.clone(), value.clone()));
        value
    }

    fn symbol(&mut self) -> Item {
        let symbol = self.dice.pick(&self.symbols);
        self.symbol_like(&symbol)
    }

    fn item(&mut self, depth: usize) -> Item {
        match depth < 2 && self.dice.chance(25) {
            true => Item::Bracket(self.items(depth + 1, 2).into()),
            false => self.symbol(),
        }
    }

    fn items(&mut self, depth: usize, most: usize) -> Vec<Item> {
        let count = self.dice.between(0, most);
        (0..count).map(|_| self.item(depth)).collect()
    }
}

fn collect_symbols(terms: &[Term], symbols: &mut Vec<Symbol>) {
    for term in terms {
        match &term.shape {
            Shape::Symbol(symbol) => symbols.push(symbol.clone()),
            Shape::Bracket(inside) => collect_symbols(inside, symbols),
            _ => {}
        }
    }
}

/// The patterns of functions' own sentences and of their conditions.
fn patterns_of(functions: &[Function]) -> Vec<&[Term]> {
    let mut patterns = Vec::new();
    for sentence in functions.iter().flat_map(|f| &f.sentences) {
        patterns.push(&sentence.pattern[..]);
        patterns.extend(sentence.conditions.iter().map(|c| &c.pattern[..]));
    }
    patterns
}
