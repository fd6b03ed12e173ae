//! What a command is about: a program, from an image or from a text.

use showclean::LARGEST_IMAGE;

use crate::explain;
use crate::failure::Failure;
use crate::files;
use crate::image;
use crate::program::Program;
use crate::source::Source;
use crate::text::{program_of, Wrong};

#[derive(Debug)]
pub struct Input {
    pub name: String,
    pub image: Vec<u8>,
    pub program: Program,
    pub source: Option<Source>,
}

impl Input {
    /// Reads a text or an image, whichever it is; `source` names the text that an image was made of.
    pub fn read(name: Option<&str>, source: Option<&str>) -> Result<Input, Failure> {
        let name = name.unwrap_or(files::STANDARD);
        let bytes = files::read(name)?;
        if is_text(&bytes) {
            return Input::of_text(name, bytes);
        }
        let source = source.map(|path| Ok(Source::new(path, files::read(path)?))).transpose()?;
        Input::of_image(name, bytes, source)
    }

    /// The program of a text.
    pub fn of_text(name: &str, text: Vec<u8>) -> Result<Input, Failure> {
        let made = program_of(&text).and_then(|program| Ok((image_within(&program, text.len())?, program)));
        let source = Source::new(shown(name), text);
        match made {
            Ok((image, program)) => Ok(Input { name: shown(name).to_owned(), image, program, source: Some(source) }),
            Err(wrong) => Err(Failure::Refused(source.complaint(&wrong))),
        }
    }

    /// The program of an image, if the library accepts it.
    pub fn of_image(name: &str, image: Vec<u8>, source: Option<Source>) -> Result<Input, Failure> {
        match showclean::check(&image) {
            Ok(()) => {
                let program = image::decode(&image);
                let source = source.map(|source| fitting(source, &program)).transpose()?;
                Ok(Input { name: shown(name).to_owned(), program, image, source })
            }
            Err(refusal) => Err(Failure::Refused(format!("{}: {}", shown(name), explain::refused(refusal, &image)))),
        }
    }
}

/// A source that can be an image's: each function's name stands where its span says.
fn fitting(source: Source, program: &Program) -> Result<Source, Failure> {
    let missing = program.functions.iter().find(|function| !source.may_hold(&function.name, function.span));
    match missing {
        None => Ok(source),
        Some(function) => {
            let words =
                format!("{} is not the text of this image: {} is not where its span says", source.name, function.name);
            Err(Failure::Use(words))
        }
    }
}

/// A file's name in messages.
pub fn shown(name: &str) -> &str {
    match name {
        files::STANDARD => "standard input",
        _ => name,
    }
}

/// Every image has a byte 0, in its trailer's first field, and no text needs one.
pub fn is_text(bytes: &[u8]) -> bool {
    !bytes.is_empty() && !bytes.contains(&0)
}

/// The image of a text's program, if it is not too long; the fault's place is the text's end.
fn image_within(program: &Program, end: usize) -> Result<Vec<u8>, Wrong> {
    let image = image::encode(program);
    match image.len() > LARGEST_IMAGE {
        true => Err(Wrong::new(
            end,
            format!("the image would have {} bytes, more than {LARGEST_IMAGE}; divide the program", image.len()),
        )),
        false => Ok(image),
    }
}

#[cfg(test)]
mod tests {
    use super::*;

    #[test]
    fn texts_and_images_are_told_apart() {
        assert!(is_text(b"F { }"));
        assert!(!is_text(&[0; 12]));
        assert!(!is_text(b""));
    }

    #[test]
    fn a_text_can_be_too_long_for_an_image() {
        let text = format!("F {{ = '{}'; }}", "A".repeat(2600));
        let Err(Failure::Refused(words)) = Input::of_text("x", text.into_bytes()) else {
            panic!("it was accepted");
        };
        assert!(words.starts_with("x: line 1, column 2612: the image would have 33837 bytes"), "{words}");
    }
}
