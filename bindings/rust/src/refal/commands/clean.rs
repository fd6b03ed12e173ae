//! The report and the cleaned image.

use super::Outcome;
use crate::cleaning;
use crate::explain;
use crate::failure::Failure;
use crate::files;
use crate::input::Input;
use crate::words::Words;

pub fn run(words: &Words) -> Result<Outcome, Failure> {
    let input = Input::read(words.place(0), None)?;
    if input.source.is_some() {
        // An image may be cleaned in its place, a text may not.
        files::apart(words.place(0), words.place(1))?;
    }
    let cleaned = cleaned(&input)?;
    match words.place(1) {
        None => Ok(Outcome::text(cleaned.report)),
        Some(files::STANDARD) => Ok(Outcome {
            notes: String::from_utf8_lossy(&cleaned.report).into_owned(),
            ..Outcome::image(cleaned.image)
        }),
        Some(name) => files::write(name, &cleaned.image).map(|()| Outcome::text(cleaned.report)),
    }
}

/// An input's program cleaned; it was accepted, so that nothing is refused.
pub fn cleaned(input: &Input) -> Result<cleaning::Cleaned, Failure> {
    cleaning::clean(&input.image).map_err(|refusal| Failure::Refused(explain::refused(refusal, &input.image)))
}
