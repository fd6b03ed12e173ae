//! Texts to images and back.

use super::Outcome;
use crate::failure::Failure;
use crate::files;
use crate::input::{is_text, shown, Input};
use crate::text::text_of;
use crate::words::Words;

pub fn encode(words: &Words) -> Result<Outcome, Failure> {
    let name = words.place(0).unwrap_or(files::STANDARD);
    let text = files::read(name)?;
    if showclean::check(&text).is_ok() {
        return Err(Failure::Refused(format!(
            "{} is an image already; `refal decode` makes a text of it",
            shown(name)
        )));
    }
    let input = Input::of_text(name, text)?;
    written(words, Outcome::image(input.image))
}

pub fn decode(words: &Words) -> Result<Outcome, Failure> {
    let name = words.place(0).unwrap_or(files::STANDARD);
    let image = files::read(name)?;
    if is_text(&image) {
        return Err(Failure::Refused(format!(
            "{} is text and no image; `refal encode` makes an image of it",
            shown(name)
        )));
    }
    let input = Input::of_image(name, image, None)?;
    written(words, Outcome::text(text_of(&input.program)))
}

/// Leads an outcome's output to the file that the second word names, if there is one.
pub fn written(words: &Words, outcome: Outcome) -> Result<Outcome, Failure> {
    match words.place(1) {
        None | Some(files::STANDARD) => Ok(outcome),
        Some(name) => {
            files::apart(words.place(0), Some(name))?;
            files::write(name, &outcome.output).map(|()| Outcome::default())
        }
    }
}
