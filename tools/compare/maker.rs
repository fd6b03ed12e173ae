//! Random programs of few names and symbols, so that much is rejected, repeated and listed.
//!
//! A pattern or an argument has at most three `e.` and two bracket levels (or one chain of
//! brackets), because the Rust can take practically for ever on more; only `greedy` makes
//! many `e.`, all side by side.

use crate::dice::Dice;
use crate::program::*;

const MOST_OPEN: usize = 3;
const DEEPEST_BRACKET: usize = 2;
const DEEPEST_NESTING: usize = 32;

/// What a program is to have that no image may have.
#[derive(Clone, Copy, PartialEq)]
pub enum Fault {
    None,
    Span,
    Name,
    Code,
    CallInPattern,
    Nesting,
}

pub const FAULTS: [Fault; 5] = [
    Fault::Span,
    Fault::Name,
    Fault::Code,
    Fault::CallInPattern,
    Fault::Nesting,
];

/// What differs between programs that are only cleaned and programs that are also run.
#[derive(Clone, Copy)]
pub struct Habits {
    /// Percent of variables from nowhere, and of functions whose last sentence takes all.
    pub unbound: usize,
    pub lenient: usize,
    pub most_functions: usize,
}

#[derive(Clone, Copy, PartialEq)]
enum Spans {
    Zero,
    Few,
    Any,
}

pub struct Maker<'a> {
    dice: &'a mut Dice,
    fault: Fault,
    names: Vec<Name>,
    letters: Vec<Symbol>,
    spans: Spans,
    habits: Habits,
    /// Percent of unusual spellings and codes, and of computed arguments.
    wild: usize,
    computed: usize,
    /// How many `e.` the pattern or argument in hand may still have.
    open_left: usize,
    /// The variables that the sentence in hand has bound so far.
    scope: Vec<(Kind, Name)>,
}

pub fn name(text: &str) -> Name {
    text.as_bytes().into()
}

fn character(letter: char) -> Symbol {
    Symbol::Character(letter as u32)
}

fn usual_letters() -> Vec<Symbol> {
    let mut letters: Vec<Symbol> = "ABA'C".chars().map(character).collect();
    letters.extend(["Abc", "aBC", "'A'", "e.X"].map(|text| Symbol::Identifier(name(text))));
    letters.extend(["7", "007", "0", "00"].map(|text| Symbol::Number(name(text))));
    letters
}

/// Few whole numbers in many spellings, so that leading zeros decide much.
fn numbers_alone() -> Vec<Symbol> {
    ["7", "007", "07", "0", "00"].map(|text| Symbol::Number(name(text))).to_vec()
}

pub fn swapped(name: &Name) -> Name {
    let swap = |byte: &u8| match byte.is_ascii_alphabetic() {
        true => byte ^ 32,
        false => *byte,
    };
    name.iter().map(swap).collect()
}

impl Maker<'_> {
    pub fn new(dice: &mut Dice, fault: Fault, habits: Habits) -> Maker<'_> {
        let mut letters = usual_letters();
        for _ in 0..dice.between(0, 8) {
            letters.remove(dice.between(0, letters.len() - 1));
        }
        if dice.chance(10) {
            letters = numbers_alone();
        }
        let spans = dice.pick(&[Spans::Zero, Spans::Few, Spans::Any]);
        let wild = dice.pick(&[0, 0, 0, 3, 25]);
        let computed = dice.pick(&[0, 0, 5, 20]);
        Maker {
            dice,
            fault,
            names: Vec::new(),
            letters,
            spans,
            habits,
            wild,
            computed,
            open_left: 0,
            scope: Vec::new(),
        }
    }

    pub fn program(mut self) -> Program {
        self.choose_names();
        let declared = self.dice.pick(&[0, 0, 0, 1, 2]);
        let declarations = (0..declared).map(|_| self.declaration()).collect();
        let least = !self.dice.chance(2) as usize;
        let count = self.dice.between(least, self.habits.most_functions);
        let functions = (0..count).map(|number| self.function(number)).collect();
        let mut program = Program {
            declarations,
            functions,
        };
        if count > 0 && (self.fault == Fault::Nesting || self.dice.chance(3)) {
            let deep = self.deep_sentence();
            let chosen = self.dice.between(0, count - 1);
            program.functions[chosen].sentences.push(deep);
        }
        program
    }

    fn choose_names(&mut self) {
        self.names = ["Go", "F", "G", "H-1", "H_1"].map(name).to_vec();
        self.names.truncate(self.dice.between(1, 5));
        if self.dice.chance(5) {
            self.names.extend(["@x", "`x"].map(name));
        }
        for number in 0..self.habits.most_functions / 8 {
            self.names.push(name(&format!("Fn{number}")));
        }
        if self.dice.chance(4) {
            let special = self.dice.pick(&["Mu", "Up", "mU", "UP"]);
            self.names.push(name(special));
        }
    }

    fn declaration(&mut self) -> Declaration {
        let count = self.dice.pick(&[0, 1, 2, 4]);
        let names = (0..count).map(|_| self.called()).collect();
        Declaration {
            span: self.span(),
            names,
        }
    }

    fn function(&mut self, number: usize) -> Function {
        let own = number < self.names.len() && self.dice.chance(75);
        let name = if own {
            self.names[number].clone()
        } else {
            self.called()
        };
        let count = self.dice.pick(&[0, 1, 2, 2, 3, 4, 5]);
        let count = if number == 0 {
            count.clamp(1, 3)
        } else {
            count
        };
        let mut sentences: Vec<Sentence> = (0..count).map(|_| self.sentence(0)).collect();
        if self.dice.chance(self.habits.lenient) {
            sentences.push(self.lenient_sentence());
        }
        Function {
            span: self.span(),
            entry: self.dice.chance(12),
            name,
            sentences,
        }
    }

    /// A sentence with so many calls and blocks open around it.
    fn sentence(&mut self, depth: usize) -> Sentence {
        let around = self.scope.len();
        let pattern = self.pattern(3);
        let count = self.dice.pick(&[0, 0, 0, 0, 1, 2]);
        let conditions = (0..count).map(|_| self.condition(depth)).collect();
        let result = self.result(depth);
        self.scope.truncate(around);
        Sentence {
            span: self.span(),
            pattern,
            conditions,
            result,
        }
    }

    fn lenient_sentence(&mut self) -> Sentence {
        let pattern = vec![self.fresh(Kind::Expression)];
        let result = self.result(0);
        self.scope.clear();
        Sentence {
            span: self.span(),
            pattern,
            conditions: vec![],
            result,
        }
    }

    fn condition(&mut self, depth: usize) -> Condition {
        let result = self.result(depth + 1);
        let pattern = self.pattern(2);
        Condition {
            span: self.span(),
            result,
            pattern,
        }
    }

    // ------------------------------------------------------------- patterns

    fn pattern(&mut self, longest: usize) -> Vec<Term> {
        self.open_left = MOST_OPEN;
        let mut terms = self.pattern_terms(longest, 0);
        if self.dice.chance(35) && self.open_left > 0 {
            self.open_left -= 1;
            terms.push(self.fresh(Kind::Expression));
        }
        if self.faulty(Fault::CallInPattern) {
            let call = self.call(0);
            let block = self.block(1);
            terms.push(self.dice.pick(&[call, block]));
        }
        terms
    }

    fn pattern_terms(&mut self, longest: usize, depth: usize) -> Vec<Term> {
        let count = self.dice.between(0, longest);
        (0..count).map(|_| self.pattern_term(depth)).collect()
    }

    fn pattern_term(&mut self, depth: usize) -> Term {
        match self.dice.between(1, 100) {
            1..=20 if depth < DEEPEST_BRACKET => {
                let inside = self.pattern_terms(2, depth + 1);
                self.spanned(Shape::Bracket(inside))
            }
            1..=55 => {
                let kind = self.kind();
                self.fresh(kind)
            }
            _ => self.letter(),
        }
    }

    fn kind(&mut self) -> Kind {
        let kind = self
            .dice
            .pick(&[Kind::Symbol, Kind::Term, Kind::Expression]);
        match kind == Kind::Expression && self.open_left == 0 {
            true => Kind::Symbol,
            false => {
                self.open_left -= (kind == Kind::Expression) as usize;
                kind
            }
        }
    }

    /// A variable of few names, so that many are repeated.
    fn fresh(&mut self, kind: Kind) -> Term {
        let name = self.word(&["X", "x", "Y", "Z", "1"]);
        self.scope.push((kind, name.clone()));
        self.spanned(Shape::Variable(kind, name))
    }

    // -------------------------------------------------------------- results

    fn result(&mut self, depth: usize) -> Vec<Term> {
        let mut terms = Vec::new();
        for _ in 0..self.dice.pick(&[0, 0, 1, 1, 2]) {
            terms.push(self.plain(0));
        }
        for _ in 0..self.dice.pick(&[0, 1, 1, 2]) {
            terms.push(self.call(depth));
        }
        if depth < 2 && self.dice.chance(8) {
            terms.push(self.block(depth));
        }
        terms
    }

    fn plain(&mut self, depth: usize) -> Term {
        match self.dice.between(1, 100) {
            1..=20 if depth < DEEPEST_BRACKET => {
                let count = self.dice.between(0, 2);
                let inside = (0..count).map(|_| self.plain(depth + 1)).collect();
                self.spanned(Shape::Bracket(inside))
            }
            1..=60 => self.bound(),
            _ => self.letter(),
        }
    }

    /// Mostly a variable of the sentence, and otherwise any, or a letter where none would do.
    fn bound(&mut self) -> Term {
        let (kind, name) = match self.dice.chance(self.habits.unbound) {
            true => (self.kind(), self.word(&["X", "W"])),
            false if self.scope.is_empty() => return self.letter(),
            false => self.dice.pick(&self.scope),
        };
        if kind == Kind::Expression && self.open_left == 0 {
            return self.letter();
        }
        self.open_left -= (kind == Kind::Expression) as usize;
        let name = if self.dice.chance(10) {
            swapped(&name)
        } else {
            name
        };
        self.spanned(Shape::Variable(kind, name))
    }

    fn call(&mut self, depth: usize) -> Term {
        self.open_left = MOST_OPEN;
        let mut argument = Vec::new();
        if self.dice.chance(50) {
            argument.push(self.letter());
        }
        for _ in 0..self.dice.between(0, 2) {
            argument.push(self.plain(0));
        }
        if depth < 3 && self.dice.chance(self.computed) {
            let inner = self.computed_term(depth + 1);
            argument.push(inner);
        }
        self.open_left = MOST_OPEN;
        let name = self.called();
        self.spanned(Shape::Call(name, argument))
    }

    fn computed_term(&mut self, depth: usize) -> Term {
        match self.dice.between(1, 4) {
            1 => self.block(depth),
            2 => {
                let inner = self.call(depth);
                self.spanned(Shape::Bracket(vec![inner]))
            }
            _ => self.call(depth),
        }
    }

    fn block(&mut self, depth: usize) -> Term {
        let count = self.dice.between(0, 2);
        let mut argument: Vec<Term> = (0..count).map(|_| self.plain(0)).collect();
        if self.dice.chance(15) {
            argument.push(self.call(depth + 1));
        }
        let count = self.dice.pick(&[0, 1, 2, 2, 3]);
        let sentences = (0..count).map(|_| self.sentence(depth + 1)).collect();
        self.spanned(Shape::Block(argument, sentences))
    }

    // -------------------------------------------------------------- nesting

    /// One chain of terms, down to the deepest that is allowed or one deeper.
    fn deep_sentence(&mut self) -> Sentence {
        let deeper = (self.fault == Fault::Nesting) as usize;
        let depth = self.dice.pick(&[8, DEEPEST_NESTING, DEEPEST_NESTING]) + deeper;
        let in_pattern = self.dice.chance(40);
        let mut terms = vec![self.letter()];
        for _ in 0..depth {
            terms = vec![self.wrapped(terms, in_pattern)];
        }
        let (pattern, result) = if in_pattern {
            (terms, vec![])
        } else {
            (vec![], terms)
        };
        Sentence {
            span: self.span(),
            pattern,
            conditions: vec![],
            result,
        }
    }

    fn wrapped(&mut self, inside: Vec<Term>, in_pattern: bool) -> Term {
        let shape = match self.dice.between(1, 5) {
            1 | 2 if !in_pattern => Shape::Call(self.called(), inside),
            3 if !in_pattern => Shape::Block(inside, vec![]),
            4 if !in_pattern => Shape::Block(vec![], vec![plain_sentence(vec![], inside)]),
            _ => Shape::Bracket(inside),
        };
        self.spanned(shape)
    }

    // -------------------------------------------------- names, symbols, spans

    fn called(&mut self) -> Name {
        if self.dice.chance(4) {
            return self.word(&["Out", "Gone"]);
        }
        let name = self.dice.pick(&self.names);
        match self.dice.chance(12) {
            true => swapped(&name),
            false => name,
        }
    }

    fn letter(&mut self) -> Term {
        let symbol = match self.dice.chance(self.wild) || self.faulty(Fault::Code) {
            true => self.wild_symbol(),
            false => self.dice.pick(&self.letters),
        };
        self.spanned(Shape::Symbol(symbol))
    }

    fn wild_symbol(&mut self) -> Symbol {
        match self.dice.between(1, 4) {
            1 => Symbol::Identifier(self.spelling(33, 126)),
            2 => Symbol::Number(self.spelling(b'0', b'9')),
            _ => Symbol::Character(self.code()),
        }
    }

    fn code(&mut self) -> u32 {
        if self.faulty(Fault::Code) {
            return self
                .dice
                .pick(&[55_296, 57_343, 56_000, 1_114_112, u32::MAX]);
        }
        let edges = [
            0, 10, 34, 39, 126, 127, 128, 255, 2047, 2048, 55_295, 57_344, 65_535, 65_536,
            1_114_111,
        ];
        match self.dice.chance(50) {
            true => self.dice.pick(&edges),
            false => self.dice.between(0, 55_295) as u32,
        }
    }

    fn word(&mut self, usual: &[&str]) -> Name {
        match self.dice.chance(self.wild) || self.faulty(Fault::Name) {
            true => self.spelling(33, 126),
            false => name(self.dice.pick(usual)),
        }
    }

    fn spelling(&mut self, first: u8, last: u8) -> Name {
        let length = match self.faulty(Fault::Name) {
            true => self.dice.pick(&[0, 0, 64, 200]),
            false => self.dice.pick(&[1, 1, 2, 3, 62, 63]),
        };
        let (low, high) = match self.faulty(Fault::Name) {
            true => (first - 1, last + 1),
            false => (first, last),
        };
        let letters = (0..length).map(|_| self.dice.between(low as usize, high as usize) as u8);
        letters.collect()
    }

    fn spanned(&mut self, shape: Shape) -> Term {
        Term {
            span: self.span(),
            shape,
        }
    }

    fn span(&mut self) -> Span {
        if self.fault == Fault::Span && self.dice.chance(2) {
            let end = self.dice.pick(&[0, 1, 255, u32::MAX - 1]);
            return Span {
                start: end + 1,
                end,
            };
        }
        match self.spans {
            Spans::Zero => Span::default(),
            Spans::Few => self.dice.pick(&[(0, 0), (0, 0), (1, 2)].map(span_of)),
            Spans::Any => self.any_span(),
        }
    }

    fn any_span(&mut self) -> Span {
        let start = self.dice.next() as u32 >> self.dice.pick(&[0, 12, 24]);
        let length = self.dice.pick(&[0, 1, 300, u32::MAX]);
        let end = start.saturating_add(length);
        Span { start, end }
    }

    fn faulty(&mut self, fault: Fault) -> bool {
        self.fault == fault && self.dice.chance(15)
    }
}

fn span_of((start, end): (u32, u32)) -> Span {
    Span { start, end }
}

// ---------------------------------------------------------------------- greedy

fn bare(shape: Shape) -> Term {
    Term {
        span: Span::default(),
        shape,
    }
}

fn letters(letter: char, count: usize) -> Vec<Term> {
    vec![bare(Shape::Symbol(character(letter))); count]
}

fn in_brackets(terms: Vec<Term>, levels: usize) -> Vec<Term> {
    (0..levels).fold(terms, |inside, _| vec![bare(Shape::Bracket(inside))])
}

fn plain_sentence(pattern: Vec<Term>, result: Vec<Term>) -> Sentence {
    Sentence {
        span: Span::default(),
        pattern,
        conditions: vec![],
        result,
    }
}

fn plain_program(functions: [(&str, Vec<Sentence>); 2]) -> Program {
    let functions = functions.map(|(text, sentences)| Function {
        span: Span::default(),
        entry: false,
        name: name(text),
        sentences,
    });
    Program {
        declarations: vec![],
        functions: functions.to_vec(),
    }
}

/// A search that spends 4,032 entries and one more for each letter before: 64 use up the fuel.
pub fn edge(before: usize, levels: usize) -> Program {
    let argument = in_brackets(letters('A', before + 26), levels);
    let call = bare(Shape::Call(name("F"), argument.clone()));
    let open = bare(Shape::Variable(Kind::Expression, name("X")));
    let pattern = [letters('A', before), vec![open; 3], letters('B', 1)].concat();
    let pattern = in_brackets(pattern, levels);
    let sentences = [pattern, argument].map(|pattern| plain_sentence(pattern, vec![]));
    let root = vec![plain_sentence(vec![], vec![call])];
    plain_program([("Go", root), ("F", sentences.to_vec())])
}

/// A program whose searches come near the end of their fuel, or meet it.
pub fn greedy(dice: &mut Dice) -> Program {
    let levels = dice.pick(&[0, 0, 1, 2]);
    let mut result = Vec::new();
    for _ in 0..dice.between(1, 3) {
        let argument = in_brackets(letters('A', dice.between(3, 30)), levels);
        result.push(bare(Shape::Call(name("F"), argument)));
    }
    let mut sentences = Vec::new();
    for _ in 0..dice.between(2, 5) {
        let pattern = in_brackets(greedy_pattern(dice), levels);
        sentences.push(plain_sentence(pattern, vec![]));
    }
    let root = vec![plain_sentence(vec![], result)];
    plain_program([("Go", root), ("F", sentences)])
}

/// Many `e.` before a letter that may be missing, or letters only.
fn greedy_pattern(dice: &mut Dice) -> Vec<Term> {
    if dice.chance(40) {
        return letters('A', dice.between(3, 30));
    }
    let open = bare(Shape::Variable(Kind::Expression, name("X")));
    let mut pattern = vec![open; dice.between(1, 12)];
    let last = dice.pick(&['A', 'B', 'B']);
    pattern.extend(letters(last, dice.between(0, 2)));
    pattern
}
