//! Whether every expression that one pattern matches is matched by another.

use crate::program::{Kind, Term, What};

/// Steps after which the answer is no: it only has to be right when it is yes.
const PATIENCE: usize = 20_000;

/// True only if whatever matches `special` matches `general` too.
///
/// The general pattern is matched against the special one, whose variables stand for unknown values: a variable of
/// the general one takes terms that are within its kind whatever those values are. So what it takes is found again in
/// every expression that the special one matches.
pub fn covers(general: &[Term], special: &[Term]) -> bool {
    let mut matching = Matching { bound: Vec::new(), steps: 0 };
    matching.all(&mut vec![(general, special)])
}

/// Variables of the general pattern with the terms that they took.
struct Matching<'a> {
    bound: Vec<(Kind, &'a str, &'a [Term])>,
    steps: usize,
}

/// Sequences that are still to be matched, the innermost last.
type Pairs<'a> = Vec<(&'a [Term], &'a [Term])>;

impl<'a> Matching<'a> {
    fn all(&mut self, pairs: &mut Pairs<'a>) -> bool {
        self.steps += 1;
        let Some((general, special)) = pairs.pop() else {
            return true;
        };
        let answer = self.steps <= PATIENCE && self.pair(general, special, pairs);
        pairs.push((general, special));
        answer
    }

    /// The first term of the general sequence, then what is left; `pairs` is as it was if the answer is no.
    fn pair(&mut self, general: &'a [Term], special: &'a [Term], pairs: &mut Pairs<'a>) -> bool {
        let Some((first, rest)) = general.split_first() else {
            return special.is_empty() && self.all(pairs);
        };
        match &first.what {
            What::Variable(Kind::Expression, name) => (0..=special.len())
                .any(|count| self.takes(Kind::Expression, name, special.split_at(count), rest, pairs)),
            What::Variable(kind, name) => {
                let fits = special.first().is_some_and(|term| within(*kind, term));
                fits && self.takes(*kind, name, special.split_at(1), rest, pairs)
            }
            _ => special.split_first().is_some_and(|(other, left)| self.literal(first, other, (rest, left), pairs)),
        }
    }

    /// A symbol or a bracket of the general pattern.
    fn literal(
        &mut self,
        first: &'a Term,
        other: &'a Term,
        left: (&'a [Term], &'a [Term]),
        pairs: &mut Pairs<'a>,
    ) -> bool {
        let before = pairs.len();
        pairs.push(left);
        let fits = match (&first.what, &other.what) {
            (What::Bracket(general), What::Bracket(special)) => {
                pairs.push((general, special));
                true
            }
            (general, special) => same_symbol(general, special),
        };
        let answer = fits && self.all(pairs);
        pairs.truncate(before);
        answer
    }

    /// A variable takes terms, or is bound to such already.
    fn takes(
        &mut self,
        kind: Kind,
        name: &'a str,
        split: (&'a [Term], &'a [Term]),
        rest: &'a [Term],
        pairs: &mut Pairs<'a>,
    ) -> bool {
        let (taken, left) = split;
        let known = self.bound.iter().find(|(other, called, _)| *other == kind && called.eq_ignore_ascii_case(name));
        if known.is_some_and(|(_, _, terms)| !same_terms(terms, taken)) {
            return false;
        }
        let before = self.bound.len();
        self.bound.push((kind, name, taken));
        pairs.push((rest, left));
        let answer = self.all(pairs);
        pairs.pop();
        self.bound.truncate(before);
        answer
    }
}

/// Whether a term of the special pattern always is one symbol, or one term.
fn within(kind: Kind, term: &Term) -> bool {
    match &term.what {
        What::Variable(Kind::Expression, _) => false,
        What::Variable(Kind::Term, _) | What::Bracket(_) => kind == Kind::Term,
        _ => true,
    }
}

fn same_symbol(left: &What, right: &What) -> bool {
    match (left, right) {
        (What::Character(left), What::Character(right)) => left == right,
        (What::Identifier(left), What::Identifier(right)) => left.eq_ignore_ascii_case(right),
        (What::Number(left), What::Number(right)) => left.trim_start_matches('0') == right.trim_start_matches('0'),
        _ => false,
    }
}

/// Whether two parts of the special pattern always have equal values.
fn same_terms(left: &[Term], right: &[Term]) -> bool {
    let same = |(left, right): (&Term, &Term)| match (&left.what, &right.what) {
        (What::Variable(kind, name), What::Variable(other, called)) => {
            kind == other && name.eq_ignore_ascii_case(called)
        }
        (What::Bracket(left), What::Bracket(right)) => same_terms(left, right),
        (left, right) => same_symbol(left, right),
    };
    left.len() == right.len() && left.iter().zip(right).all(same)
}

#[cfg(test)]
mod tests {
    use super::*;
    use crate::text::program_of;

    fn covered(general: &str, special: &str) -> bool {
        let text = format!("F {{ {general} = ; {special} = ; }}");
        let program = program_of(text.as_bytes()).expect("a right text");
        let [first, second] = &program.functions[0].sentences[..] else {
            panic!("two sentences");
        };
        covers(&first.pattern, &second.pattern)
    }

    #[test]
    fn what_is_more_general_covers() {
        for (general, special) in [
            ("e.X", "'A' (e.Y) s.Z"),
            ("", ""),
            ("t.X e.Y", "(e.Z) s.1"),
            ("e.1 'A' e.2", "s.X 'A' 'A'"),
            ("(e.X) e.Y", "('A' s.1) e.Y"),
            ("Abc 7", "ABC 007"),
            ("s.X s.X", "s.Y s.y"),
            ("e.X e.X", "(s.1) 'A' (S.1) 'A'".replace("S.1", "s.1").as_str()),
            ("e.1 (e.2 'A' e.3) e.4", "(s.X) ('A') e.Y"),
        ] {
            assert!(covered(general, special), "{general} covers {special}");
        }
    }

    #[test]
    fn what_is_not_does_not() {
        for (general, special) in [
            ("s.X", "t.X"),
            ("s.X", "e.X"),
            ("t.X", "e.X"),
            ("s.X", "()"),
            ("", "e.X"),
            ("s.X s.X", "s.Y s.Z"),
            ("e.X e.X", "e.Y"),
            ("'A'", "A"),
            ("'A' e.X", "s.Y e.X"),
            ("(e.X)", "t.X"),
            ("e.1 'A' e.2", "e.X"),
            ("(s.X) s.X", "('A') 'B'"),
        ] {
            assert!(!covered(general, special), "{general} does not cover {special}");
        }
    }

    /// All sequences of at most so many of the terms that a text lists.
    fn sequences(text: &str, longest: usize) -> Vec<Vec<Term>> {
        let program = program_of(format!("F {{ {text} = ; }}").as_bytes()).expect("a right text");
        let terms = &program.functions[0].sentences[0].pattern;
        let mut all = vec![vec![]];
        let mut last = all.clone();
        for _ in 0..longest {
            let longer = |sequence: &Vec<Term>| -> Vec<Vec<Term>> {
                terms.iter().map(|term| [&sequence[..], std::slice::from_ref(term)].concat()).collect()
            };
            last = last.iter().flat_map(longer).collect();
            all.extend(last.iter().cloned());
        }
        all
    }

    #[test]
    fn whatever_matches_the_covered_pattern_matches_the_covering_one() {
        let patterns = sequences("'A' s.X s.Y t.X e.X e.Y (e.X) (s.X e.Y)", 2);
        let expressions = sequences("'A' 'B' () ('A') ('B' 'A')", 3);
        let mut covered = 0;
        for general in &patterns {
            for special in patterns.iter().filter(|special| covers(general, special)) {
                covered += 1;
                // An expression is a pattern without variables, so that covering it is matching it.
                for expression in expressions.iter().filter(|expression| covers(special, expression)) {
                    assert!(covers(general, expression), "{general:?} {special:?} {expression:?}");
                }
            }
        }
        assert!(covered > patterns.len(), "{covered}");
    }

    #[test]
    fn a_long_search_ends_with_no() {
        let general: String = (0..24).map(|number| format!("e.{number} ")).collect::<String>() + "'B'";
        assert!(!covered(&general, &format!("'{}'", "A".repeat(60))));
    }
}
