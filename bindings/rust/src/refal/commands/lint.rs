//! Warnings, a line each.

use super::Outcome;
use crate::failure::Failure;
use crate::input::Input;
use crate::lint::{warnings, Warning};
use crate::source::{place_words, Line};
use crate::words::Words;

pub fn run(words: &Words) -> Result<Outcome, Failure> {
    let input = Input::read(words.place(0), words.value("--source"))?;
    let warnings = warnings(&input.program);
    let lines: String = warnings.iter().map(|warning| line(&input, warning)).collect();
    let notes = format!("{}\n", super::counted(warnings.len(), "warning"));
    let found = words.has("--strict") && !warnings.is_empty();
    Ok(Outcome { notes, found, ..Outcome::text(lines) })
}

/// As compilers write it where the line is known, so that editors find the place.
fn line(input: &Input, warning: &Warning) -> String {
    let source = input.source.as_ref();
    let Warning { span, function, words } = warning;
    match source.and_then(|source| Some((&source.name, source.line(*span)?))) {
        Some((name, Line { number, column })) => format!("{name}:{number}:{column}: warning: in {function}: {words}\n"),
        None => {
            let place = place_words(None, *span).map_or_else(String::new, |place| format!("{place}: "));
            format!("{}: {place}warning: in {function}: {words}\n", input.name)
        }
    }
}
