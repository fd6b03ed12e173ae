//! One expression that matches the patterns of two sentences: why a call may meet both.

use showclean::{overlap_expression, Verdict, EXPRESSION_ROOM};

use super::overlap::sentence_lines;
use super::Outcome;
use crate::explain;
use crate::failure::Failure;
use crate::image;
use crate::input::Input;
use crate::text::terms_text;
use crate::words::{number, Words};

pub fn run(words: &Words) -> Result<Outcome, Failure> {
    let (Some(first), Some(second)) = (words.place(1), words.place(2)) else {
        return Err(Failure::Use("two sentence numbers are needed; `refal overlap IN` lists them".to_owned()));
    };
    let (first, second) = (number(first)?, number(second)?);
    let input = Input::read(words.place(0), None)?;
    let mut room = vec![0; EXPRESSION_ROOM];
    let shared = overlap_expression(&input.image, first, second, &mut room)
        .map_err(|refusal| Failure::Refused(explain::refused(refusal, &input.image)))?;
    let text = match shared.verdict {
        Verdict::Overlap => format!("{}\n", terms_text(&image::expression(&room[..shared.length]), "")),
        Verdict::Disjoint => "Disjoint: no expression matches both\n".to_owned(),
        Verdict::Unknown => "Unknown: the search ran out of fuel before it found one\n".to_owned(),
    };
    let lines = sentence_lines(&input);
    Ok(Outcome { notes: format!("{}{}", lines[first], lines[second]), ..Outcome::text(text) })
}
