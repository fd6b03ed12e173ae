//! A run as document 01 tells it: events, one of six endings, and the root's value.

use std::rc::Rc;

use crate::program::*;

/// A term of a value.
#[derive(Clone, Debug, PartialEq)]
pub enum Item {
    Symbol(Symbol),
    Bracket(Rc<[Item]>),
}

#[derive(Clone, Debug, PartialEq)]
pub enum Ending {
    Value(Vec<Item>),
    NoRoot,
    NoAnswer,
    NothingFits,
    Unbound,
    Limit,
}

#[derive(Debug, PartialEq)]
pub enum Event<'p> {
    Called(Name, Vec<Item>),
    Chosen(&'p Sentence),
}

#[derive(Debug, PartialEq)]
pub struct Played<'p> {
    pub events: Vec<Event<'p>>,
    pub ending: Ending,
}

/// What a run is given besides the program.
pub struct Given {
    pub input: Vec<Item>,
    pub answers: Vec<Vec<Item>>,
    pub limit: usize,
}

/// Why nothing further is evaluated.
enum Stop {
    Ended(Ending),
    Tired,
}

type Going<T> = Result<T, Stop>;

#[derive(Clone)]
struct Binding {
    kind: Kind,
    name: Name,
    value: Rc<[Item]>,
}

type Bindings = Vec<Binding>;

/// A pattern against a value, and what is to be matched after it.
struct Pair<'f> {
    pattern: &'f [Term],
    value: &'f [Item],
    after: Option<&'f Pair<'f>>,
}

/// What is asked of each match: whether it is the one to stay with.
type Then<'t, 'p, 'g> = &'t mut dyn FnMut(&mut Run<'p, 'g>, &mut Bindings) -> Going<bool>;

struct Run<'p, 'g> {
    program: &'p Program,
    given: &'g Given,
    answered: usize,
    calls: usize,
    steps: usize,
    events: Vec<Event<'p>>,
}

/// More steps than that, or a larger value, are not worth waiting for.
const MOST_STEPS: usize = 20_000;
const LARGEST_VALUE: usize = 400;

/// The run of a program whose sentences have no spans, or nothing where it takes too long.
pub fn play<'p>(program: &'p Program, given: &Given) -> Option<Played<'p>> {
    let mut run = Run {
        program,
        given,
        answered: 0,
        calls: 0,
        steps: 0,
        events: Vec::new(),
    };
    let ending = match run.root() {
        Ok(value) => Ending::Value(value),
        Err(Stop::Ended(ending)) => ending,
        Err(Stop::Tired) => return None,
    };
    let events = run.events;
    Some(Played { events, ending })
}

impl<'p, 'g> Run<'p, 'g> {
    /// The first Entry function, else the first, is entered by place.
    fn root(&mut self) -> Going<Vec<Item>> {
        let functions = &self.program.functions;
        let entry = functions.iter().find(|function| function.entry);
        let Some(root) = entry.or(functions.first()) else {
            return Err(Stop::Ended(Ending::NoRoot));
        };
        let input = self.given.input.clone();
        self.count_call(&root.name, &input)?;
        self.choose(&root.sentences, &input, &Vec::new())
    }

    fn count_call(&mut self, name: &Name, argument: &[Item]) -> Going<()> {
        if self.calls == self.given.limit {
            return Err(Stop::Ended(Ending::Limit));
        }
        self.calls += 1;
        self.events
            .push(Event::Called(name.clone(), argument.to_vec()));
        Ok(())
    }

    fn call(&mut self, name: &Name, argument: Vec<Item>) -> Going<Vec<Item>> {
        self.count_call(name, &argument)?;
        let functions = &self.program.functions;
        let found = functions.iter().find(|f| f.name.eq_ignore_ascii_case(name));
        match found {
            Some(function) => self.choose(&function.sentences, &argument, &Vec::new()),
            None => self.answer(),
        }
    }

    fn answer(&mut self) -> Going<Vec<Item>> {
        let Some(answer) = self.given.answers.get(self.answered) else {
            return Err(Stop::Ended(Ending::NoAnswer));
        };
        self.answered += 1;
        Ok(answer.clone())
    }

    /// The value of the first sentence that fits, with the bindings around it kept.
    fn choose(
        &mut self,
        sentences: &'p [Sentence],
        value: &[Item],
        around: &Bindings,
    ) -> Going<Vec<Item>> {
        for sentence in sentences {
            if let Some(bindings) = self.fit(sentence, value, around)? {
                self.events.push(Event::Chosen(sentence));
                return self.evaluate(&sentence.result, &bindings);
            }
        }
        Err(Stop::Ended(Ending::NothingFits))
    }

    /// The bindings of the first match whose conditions hold.
    fn fit(
        &mut self,
        sentence: &'p Sentence,
        value: &[Item],
        around: &Bindings,
    ) -> Going<Option<Bindings>> {
        let pair = Pair {
            pattern: &sentence.pattern,
            value,
            after: None,
        };
        let mut found = None;
        let mut then = |run: &mut Self, bindings: &mut Bindings| {
            run.conditions(&sentence.conditions, bindings, &mut found)
        };
        self.matches(&pair, &mut around.clone(), &mut then)?;
        Ok(found)
    }

    /// Whether the conditions hold in some way; if so their bindings are found.
    fn conditions(
        &mut self,
        conditions: &'p [Condition],
        bindings: &mut Bindings,
        found: &mut Option<Bindings>,
    ) -> Going<bool> {
        let Some((condition, others)) = conditions.split_first() else {
            *found = Some(bindings.clone());
            return Ok(true);
        };
        let value = self.evaluate(&condition.result, bindings)?;
        let pair = Pair {
            pattern: &condition.pattern,
            value: &value,
            after: None,
        };
        let mut then =
            |run: &mut Self, bindings: &mut Bindings| run.conditions(others, bindings, found);
        self.matches(&pair, bindings, &mut then)
    }

    // ------------------------------------------------------------- evaluation

    fn evaluate(&mut self, terms: &'p [Term], bindings: &Bindings) -> Going<Vec<Item>> {
        let mut value = Vec::new();
        for term in terms {
            match &term.shape {
                Shape::Symbol(symbol) => value.push(Item::Symbol(symbol.clone())),
                Shape::Variable(kind, name) => match bound(bindings, *kind, name) {
                    Some(binding) => value.extend(binding.value.iter().cloned()),
                    None => return Err(Stop::Ended(Ending::Unbound)),
                },
                Shape::Bracket(inside) => {
                    value.push(Item::Bracket(self.evaluate(inside, bindings)?.into()));
                }
                Shape::Call(name, argument) => {
                    let argument = self.evaluate(argument, bindings)?;
                    value.extend(self.call(name, argument)?);
                }
                Shape::Block(argument, sentences) => {
                    let argument = self.evaluate(argument, bindings)?;
                    value.extend(self.choose(sentences, &argument, bindings)?);
                }
            }
            self.tire(1)?;
            if size(&value) > LARGEST_VALUE {
                return Err(Stop::Tired);
            }
        }
        Ok(value)
    }

    fn tire(&mut self, steps: usize) -> Going<()> {
        self.steps += steps;
        match self.steps > MOST_STEPS {
            true => Err(Stop::Tired),
            false => Ok(()),
        }
    }

    // --------------------------------------------------------------- matching

    /// Tries the matches, the leftmost `e.` shortest first, until one is stayed with.
    fn matches(
        &mut self,
        pair: &Pair,
        bindings: &mut Bindings,
        then: Then<'_, 'p, 'g>,
    ) -> Going<bool> {
        self.tire(1)?;
        let Some((term, pattern)) = pair.pattern.split_first() else {
            return self.matched(pair, bindings, then);
        };
        let rest = |value| Pair {
            pattern,
            value,
            after: pair.after,
        };
        match (&term.shape, pair.value.split_first()) {
            (Shape::Variable(kind, name), _) => {
                self.variable((*kind, name), rest(pair.value), bindings, then)
            }
            (Shape::Symbol(wanted), Some((Item::Symbol(symbol), value)))
                if same_symbol(wanted, symbol) =>
            {
                self.matches(&rest(value), bindings, then)
            }
            (Shape::Bracket(inside), Some((Item::Bracket(items), value))) => {
                let inner = Pair {
                    pattern: inside,
                    value: items,
                    after: Some(&rest(value)),
                };
                self.matches(&inner, bindings, then)
            }
            _ => Ok(false),
        }
    }

    /// A pattern's end fits a value's end only, and then comes what is after it.
    fn matched(
        &mut self,
        pair: &Pair,
        bindings: &mut Bindings,
        then: Then<'_, 'p, 'g>,
    ) -> Going<bool> {
        match pair.after {
            _ if !pair.value.is_empty() => Ok(false),
            Some(after) => self.matches(after, bindings, then),
            None => then(self, bindings),
        }
    }

    /// A bound variable takes what equals its value; a new one takes what its kind may.
    fn variable(
        &mut self,
        (kind, name): (Kind, &Name),
        rest: Pair,
        bindings: &mut Bindings,
        then: Then<'_, 'p, 'g>,
    ) -> Going<bool> {
        let value = rest.value;
        if let Some(binding) = bound(bindings, kind, name) {
            let length = binding.value.len();
            if length > value.len() || !same_items(&binding.value, &value[..length]) {
                return Ok(false);
            }
            let value = &value[length..];
            return self.matches(&Pair { value, ..rest }, bindings, then);
        }
        for length in lengths(kind, value) {
            let (taken, value) = value.split_at(length);
            bindings.push(Binding {
                kind,
                name: name.clone(),
                value: taken.into(),
            });
            if self.matches(&Pair { value, ..rest }, bindings, then)? {
                return Ok(true);
            }
            bindings.pop();
        }
        Ok(false)
    }
}

/// How many symbols and brackets a value has, at any depth.
fn size(items: &[Item]) -> usize {
    let each = items.iter().map(|item| match item {
        Item::Symbol(_) => 1,
        Item::Bracket(inside) => 1 + size(inside),
    });
    each.sum()
}

/// How many items a new variable may take, the fewest first.
fn lengths(kind: Kind, value: &[Item]) -> std::ops::Range<usize> {
    match (kind, value.first()) {
        (Kind::Expression, _) => 0..value.len() + 1,
        (Kind::Term, Some(_)) | (Kind::Symbol, Some(Item::Symbol(_))) => 1..2,
        _ => 0..0,
    }
}

fn same_symbol(first: &Symbol, second: &Symbol) -> bool {
    match (first, second) {
        (Symbol::Identifier(first), Symbol::Identifier(second)) => {
            first.eq_ignore_ascii_case(second)
        }
        (Symbol::Number(first), Symbol::Number(second)) => significant(first) == significant(second),
        _ => first == second,
    }
}

/// The digits after the leading zeros.
fn significant(digits: &[u8]) -> &[u8] {
    let zeros = digits.iter().take_while(|digit| **digit == b'0').count();
    &digits[zeros..]
}

fn same_items(first: &[Item], second: &[Item]) -> bool {
    let same = |(first, second): (&Item, &Item)| match (first, second) {
        (Item::Symbol(first), Item::Symbol(second)) => same_symbol(first, second),
        (Item::Bracket(first), Item::Bracket(second)) => same_items(first, second),
        _ => false,
    };
    first.len() == second.len() && first.iter().zip(second).all(same)
}

fn bound<'b>(bindings: &'b Bindings, kind: Kind, name: &Name) -> Option<&'b Binding> {
    let same = |b: &&Binding| b.kind == kind && b.name.eq_ignore_ascii_case(name);
    bindings.iter().find(same)
}
