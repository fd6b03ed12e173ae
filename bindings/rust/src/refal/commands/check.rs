//! Whether a text or an image is accepted.

use super::Outcome;
use crate::failure::Failure;
use crate::input::Input;
use crate::words::Words;

pub fn run(words: &Words) -> Result<Outcome, Failure> {
    let input = Input::read(words.place(0), None)?;
    let program = &input.program;
    let sentences = program.own_sentences().count();
    let root = program.functions.get(program.root()).map_or("none", |function| &function.name);
    let figures = [(input.image.len(), "byte"), (program.functions.len(), "function"), (sentences, "sentence")];
    let counted: Vec<String> = figures.iter().map(|(count, what)| super::counted(*count, what)).collect();
    Ok(Outcome::text(format!("{}: accepted: {}; root: {root}\n", input.name, counted.join(", "))))
}
