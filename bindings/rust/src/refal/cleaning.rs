//! Asking the proved library to clean and to compare, with the memory that it needs.

use showclean::{Place, Refusal, Verdict};

use crate::image;
use crate::program::{Function, Program, Sentence, Span, Term};

pub struct Cleaned {
    pub image: Vec<u8>,
    pub report: Vec<u8>,
}

/// Cleans an image of any length; a first call without a report tells how long that is.
pub fn clean(image: &[u8]) -> Result<Cleaned, Refusal> {
    let mut output = vec![0; image.len()];
    let mut work = vec![0; showclean::work_needed(image.len())];
    let mut report = Vec::new();
    loop {
        match showclean::clean(image, &mut output, &mut work, &mut report) {
            Ok(lengths) => {
                output.truncate(lengths.output);
                report.truncate(lengths.report);
                return Ok(Cleaned { image: output, report });
            }
            Err(refusal) => match refusal.at() {
                Place::Needed(length) => report.resize(length as usize, 0),
                _ => return Err(refusal),
            },
        }
    }
}

/// For each function, which of its sentences a cleaned program still has.
pub fn kept(raw: &Program, cleaned: &Program) -> Vec<Vec<bool>> {
    let functions = raw.functions.iter().zip(&cleaned.functions);
    functions.map(|(before, after)| kept_sentences(&before.sentences, &after.sentences)).collect()
}

/// Cleaning keeps the order, and of sentences that are alike it keeps all or none.
fn kept_sentences(before: &[Sentence], after: &[Sentence]) -> Vec<bool> {
    let mut left = after.iter().peekable();
    before.iter().map(|sentence| left.next_if_eq(&sentence).is_some()).collect()
}

/// The verdict on two patterns, in a small image of their own: they stand in one image, so that it is not too long.
pub fn verdict(first: &[Term], second: &[Term]) -> Result<Verdict, Refusal> {
    let sentence = |pattern: &[Term]| Sentence {
        pattern: pattern.to_vec(),
        conditions: vec![],
        result: vec![],
        span: Span::default(),
    };
    let sentences = vec![sentence(first), sentence(second)];
    let function = Function { name: "F".to_owned(), entry: false, sentences, span: Span::default() };
    let pair = image::encode(&Program { declarations: vec![], functions: vec![function] });
    Ok(showclean::overlap(&pair, 0, 1)?.verdict)
}

#[cfg(test)]
mod tests {
    use super::*;
    use crate::text::program_of;

    const WORKED: &[u8] = b"$ENTRY Go { e.X = <F 'A' e.X>; } F { 'A' e.Y = e.Y; (e.Z) = 'B'; (e.Z) = 'B'; 'A' = ; }";

    #[test]
    fn what_goes_is_told_from_what_stays() {
        let program = program_of(WORKED).expect("a right text");
        let cleaned = clean(&image::encode(&program)).expect("an accepted image");
        let after = image::decode(&cleaned.image);
        assert_eq!(kept(&program, &after), [vec![true], vec![true, false, false, true]]);
        assert!(cleaned.report.starts_with(b"functions: 2\nsentences: 5 -> 3\n"));
    }

    #[test]
    fn verdicts_come_from_the_library() {
        let program = program_of(b"F { s.X = ; () = ; e.1 e.2 e.3 'B' = ; 'AAAAAAAAAAAAAAAAAAAAAAAAAAA' = ; }")
            .expect("a right text");
        let patterns: Vec<&[Term]> = program.own_sentences().map(|(_, _, sentence)| &sentence.pattern[..]).collect();
        assert_eq!(verdict(patterns[0], patterns[1]), Ok(Verdict::Disjoint));
        assert_eq!(verdict(patterns[1], patterns[1]), Ok(Verdict::Overlap));
        assert_eq!(verdict(patterns[2], patterns[3]), Ok(Verdict::Unknown));
    }
}
