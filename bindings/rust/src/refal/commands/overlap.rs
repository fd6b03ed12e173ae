//! The sentences by number, and the verdict on two of them.

use showclean::{overlap, Compared};

use super::Outcome;
use crate::explain;
use crate::failure::Failure;
use crate::input::Input;
use crate::source::place_words;
use crate::text::terms_text;
use crate::words::{number, Words};

const FUEL: u32 = 4096;

pub fn run(words: &Words) -> Result<Outcome, Failure> {
    let input = Input::read(words.place(0), None)?;
    let lines = sentence_lines(&input);
    match (words.place(1), words.place(2)) {
        (Some(first), Some(second)) => compare(&input, &lines, number(first)?, number(second)?),
        (None, _) => Ok(Outcome::text(lines.concat())),
        _ => Err(Failure::Use("two numbers are needed; without any, the sentences are listed".to_owned())),
    }
}

fn compare(input: &Input, lines: &[String], first: usize, second: usize) -> Result<Outcome, Failure> {
    match overlap(&input.image, first, second) {
        Ok(Compared { verdict, spent }) => Ok(Outcome::text(format!(
            "{verdict:?}, spent {spent} of {FUEL} entries\n{}{}",
            lines[first], lines[second]
        ))),
        Err(refusal) => Err(Failure::Refused(explain::refused(refusal, &input.image))),
    }
}

/// A line for each sentence, by its number.
pub fn sentence_lines(input: &Input) -> Vec<String> {
    let mut lines = Vec::new();
    for (f, _, sentence) in input.program.own_sentences() {
        let (number, name) = (lines.len(), &input.program.functions[f].name);
        let place = place_words(input.source.as_ref(), sentence.span).unwrap_or_default();
        let line = format!("{number:>5}  {name} {{{}}}    {place}", terms_text(&sentence.pattern, ""));
        lines.push(line.trim_end().to_owned() + "\n");
    }
    lines
}
