//! Call sites: where a program calls, and with what argument.

use crate::program::{Program, Sentence, Span, Term, What};

pub struct Site<'a> {
    /// The function and the sentence that hold the call, blocks' sentences counted to their function's.
    pub function: usize,
    pub sentence: usize,
    pub name: &'a str,
    pub argument: &'a [Term],
    pub span: Span,
}

impl Site<'_> {
    /// Whether nothing in the argument has to be computed first.
    pub fn is_plain(&self) -> bool {
        is_plain(self.argument)
    }
}

fn is_plain(terms: &[Term]) -> bool {
    terms.iter().all(|term| match &term.what {
        What::Bracket(inside) => is_plain(inside),
        What::Call(..) | What::Block(..) => false,
        _ => true,
    })
}

/// All sites, an outer call before those in its argument.
pub fn sites(program: &Program) -> Vec<Site<'_>> {
    let mut found = Vec::new();
    for (function, sentence, held) in program.own_sentences() {
        let mut add = |name, argument, span| found.push(Site { function, sentence, name, argument, span });
        in_sentence(held, &mut add);
    }
    found
}

type Add<'a, 'b> = &'b mut dyn FnMut(&'a str, &'a [Term], Span);

fn in_sentence<'a>(sentence: &'a Sentence, add: Add<'a, '_>) {
    in_terms(&sentence.result, add);
    for condition in &sentence.conditions {
        in_terms(&condition.result, add);
    }
}

fn in_terms<'a>(terms: &'a [Term], add: Add<'a, '_>) {
    for term in terms {
        match &term.what {
            What::Bracket(inside) => in_terms(inside, add),
            What::Call(name, argument) => {
                add(name, argument, term.span);
                in_terms(argument, add);
            }
            What::Block(argument, sentences) => {
                in_terms(argument, add);
                sentences.iter().for_each(|sentence| in_sentence(sentence, add));
            }
            _ => {}
        }
    }
}

#[cfg(test)]
mod tests {
    use super::*;
    use crate::text::program_of;

    #[test]
    fn sites_come_in_order() {
        let text = b"F { , <A> : = <B (<C>)> [<D> : { = <E 'x'>; }]; = <G>; }";
        let program = program_of(text).expect("a right text");
        let found: Vec<(&str, usize, bool)> =
            sites(&program).iter().map(|site| (site.name, site.sentence, site.is_plain())).collect();
        assert_eq!(
            found,
            [("B", 0, false), ("C", 0, true), ("D", 0, true), ("E", 0, true), ("A", 0, true), ("G", 1, true)]
        );
    }
}
