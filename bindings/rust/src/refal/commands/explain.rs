//! A refusal's number in words, and its place in an image.

use super::Outcome;
use crate::explain;
use crate::failure::Failure;
use crate::files;
use crate::words::{number, Words};

pub fn run(words: &Words) -> Result<Outcome, Failure> {
    let Some(word) = words.place(0) else {
        return Err(Failure::Use("a refusal's number is missing".to_owned()));
    };
    let Some(mut text) = explain::number(number(word)?) else {
        let last = (1..u8::MAX).filter(|number| explain::number(*number).is_some()).max().unwrap_or_default();
        return Err(Failure::Use(format!("no refusal has the number {word}: they go from 1 to {last}")));
    };
    match (words.place(1), words.place(2)) {
        (Some(place), Some(image)) => text += &explain::shown(&files::read(image)?, number(place)?),
        (None, _) => {}
        _ => return Err(Failure::Use("name the image too, so that the place can be shown".to_owned())),
    }
    Ok(Outcome::text(text))
}
