//! Warnings: what an image may hold, and what its author hardly meant.

use crate::calls::sites;
use crate::cover::covers;
use crate::program::{dispatches, Kind, Program, Sentence, Span, Term, What};
use crate::progress::Progress;
use crate::text::terms_text;

#[derive(Debug, PartialEq)]
pub struct Warning {
    pub span: Span,
    /// The function that holds it.
    pub function: String,
    pub words: String,
}

/// All warnings, in the order of the program.
pub fn warnings(program: &Program) -> Vec<Warning> {
    let mut found = unknown_names(program);
    found.extend(defined_twice(program));
    let mut progress = Progress::new("sentences looked at", program.own_sentences().count());
    for (f, s, _) in program.own_sentences() {
        let function = &program.functions[f];
        Sentences { function: &function.name, found: &mut found }.check(&function.sentences, s, &[]);
        progress.step();
    }
    found.sort_by_key(|warning| warning.span.start);
    found
}

// ---------------------------------------------------------------------- names

fn unknown_names(program: &Program) -> Vec<Warning> {
    let known = |name: &str| program.function_named(name).is_some() || program.declares(name) || dispatches(name);
    let unknown = sites(program).into_iter().filter(|site| !known(site.name));
    unknown
        .map(|site| {
            let words = match nearest(program, site.name) {
                Some(name) => format!("`{}` is neither defined nor declared; did you mean `{name}`?", site.name),
                None => {
                    format!("`{0}` is neither defined nor declared; if it is another's, add `$EXTERN {0};`", site.name)
                }
            };
            Warning { span: site.span, function: program.functions[site.function].name.clone(), words }
        })
        .collect()
}

/// The name that is spelled most alike, if it is close enough to be meant.
fn nearest<'a>(program: &'a Program, name: &str) -> Option<&'a str> {
    let declared = program.declarations.iter().flat_map(|declaration| &declaration.names);
    let names = program.functions.iter().map(|function| &function.name).chain(declared);
    let near = names.map(|known| (distance(known, name), known.as_str()));
    let (steps, known) = near.min_by_key(|(steps, _)| *steps)?;
    (steps <= 2 && steps < name.len()).then_some(known)
}

/// How many letters must be put in, taken out or changed, case ignored.
fn distance(left: &str, right: &str) -> usize {
    let right = right.to_ascii_lowercase().into_bytes();
    let mut row: Vec<usize> = (0..=right.len()).collect();
    for (number, letter) in left.to_ascii_lowercase().bytes().enumerate() {
        let mut corner = number;
        row[0] = number + 1;
        for (place, &other) in right.iter().enumerate() {
            let changed = corner + usize::from(letter != other);
            corner = row[place + 1];
            row[place + 1] = changed.min(corner + 1).min(row[place] + 1);
        }
    }
    row[right.len()]
}

fn defined_twice(program: &Program) -> Vec<Warning> {
    let functions = program.functions.iter().enumerate();
    let again = functions.filter(|(number, function)| program.function_named(&function.name) != Some(*number));
    again
        .map(|(_, function)| Warning {
            span: function.span,
            function: function.name.clone(),
            words: format!("`{}` is defined already, case ignored; calls enter the first", function.name),
        })
        .collect()
}

// ------------------------------------------------------------------ sentences

/// A variable is its kind and its caseless name.
type Variable = (Kind, String);

struct Sentences<'a> {
    function: &'a str,
    found: &'a mut Vec<Warning>,
}

impl Sentences<'_> {
    /// One sentence of a function or of a block, with the variables that are bound around it.
    fn check(&mut self, sentences: &[Sentence], number: usize, around: &[Variable]) {
        let sentence = &sentences[number];
        if let Some(earlier) = sentences[..number].iter().find(|earlier| is_covered(earlier, sentence, around)) {
            let covering = terms_text(&earlier.pattern, "");
            self.warn(sentence.span, format!("an earlier sentence takes all that comes here: `{covering}`"));
        }
        self.sentence(sentence, around.to_vec());
    }

    fn sentence(&mut self, sentence: &Sentence, mut bound: Vec<Variable>) {
        bind(&sentence.pattern, &mut bound);
        for condition in &sentence.conditions {
            self.terms(&condition.result, &bound);
            bind(&condition.pattern, &mut bound);
        }
        self.terms(&sentence.result, &bound);
    }

    /// Terms that are evaluated, with what is bound there.
    fn terms(&mut self, terms: &[Term], bound: &[Variable]) {
        for term in terms {
            match &term.what {
                What::Variable(kind, name) if !bound.contains(&variable(*kind, name)) => {
                    let written = terms_text(std::slice::from_ref(term), "");
                    self.warn(term.span, format!("`{written}` is not bound by a pattern before it"));
                }
                What::Bracket(inside) | What::Call(_, inside) => self.terms(inside, bound),
                What::Block(argument, sentences) => {
                    self.terms(argument, bound);
                    (0..sentences.len()).for_each(|number| self.check(sentences, number, bound));
                }
                _ => {}
            }
        }
    }

    fn warn(&mut self, span: Span, words: String) {
        self.found.push(Warning { span, function: self.function.to_owned(), words });
    }
}

/// Certain only if the earlier sentence has no conditions, and none of its variables has a value already.
fn is_covered(earlier: &Sentence, later: &Sentence, around: &[Variable]) -> bool {
    let mut own = Vec::new();
    bind(&earlier.pattern, &mut own);
    let free = own.iter().all(|variable| !around.contains(variable));
    earlier.conditions.is_empty() && free && covers(&earlier.pattern, &later.pattern)
}

fn variable(kind: Kind, name: &str) -> Variable {
    (kind, name.to_ascii_lowercase())
}

fn bind(pattern: &[Term], bound: &mut Vec<Variable>) {
    for term in pattern {
        match &term.what {
            What::Variable(kind, name) => bound.push(variable(*kind, name)),
            What::Bracket(inside) => bind(inside, bound),
            _ => {}
        }
    }
}

#[cfg(test)]
mod tests {
    use super::*;
    use crate::text::program_of;

    fn warned(text: &str) -> Vec<String> {
        let program = program_of(text.as_bytes()).expect("a right text");
        warnings(&program).into_iter().map(|warning| warning.words).collect()
    }

    #[test]
    fn a_program_without_faults_has_no_warnings() {
        let text =
            "$EXTERN Prout; Go { e.X, e.X : s.Y e.Z = <Prout s.Y> <go e.x> [e.Z : { t.1 e.X = t.1; }] <Mu e.X>; = ; }";
        assert_eq!(warned(text), Vec::<String>::new());
    }

    #[test]
    fn unknown_names_are_told_with_the_nearest() {
        let told = warned("$EXTERN Prout; Load { = <Luod> <Zebra>; }");
        assert_eq!(told[0], "`Luod` is neither defined nor declared; did you mean `Load`?");
        assert_eq!(told[1], "`Zebra` is neither defined nor declared; if it is another's, add `$EXTERN Zebra;`");
    }

    #[test]
    fn unbound_variables_are_told_wherever_they_stand() {
        let told = warned("F { s.X, e.Y : e.Z = e.X (e.Z) [s.X : { e.1 = e.1 t.1; }] <F s.Q>; }");
        let named: Vec<&str> = told.iter().map(|words| words.split('`').nth(1).expect("a name")).collect();
        assert_eq!(named, ["e.Y", "e.X", "t.1", "s.Q"]);
    }

    #[test]
    fn functions_and_sentences_that_come_too_late_are_told() {
        let told = warned("F { e.X = ; 'A' = ; } f { s.X, s.X : 'A' = ; s.X = ; 'A' = ; }");
        assert_eq!(told.len(), 3);
        assert!(
            told[0].contains("`e.X`") && told[1].contains("`f` is defined already") && told[2].contains("`s.X`"),
            "{told:?}"
        );
    }

    #[test]
    fn a_variable_bound_around_a_block_takes_one_value_only() {
        assert_eq!(warned("F { e.X = [e.X : { e.X = ; e.Y = ; }]; }"), Vec::<String>::new());
        assert_eq!(warned("F { e.X = [e.X : { e.Z = ; e.Y = ; }]; }").len(), 1);
    }

    #[test]
    fn letters_are_counted() {
        for (left, right, steps) in
            [("Load", "Luod", 2), ("Load", "LOAD", 0), ("", "ab", 2), ("abc", "ca", 3), ("kitten", "sitting", 3)]
        {
            assert_eq!((distance(left, right), distance(right, left)), (steps, steps), "{left} {right}");
        }
    }
}
