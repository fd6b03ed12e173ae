//! Pictures of a program.

use super::clean::cleaned;
use super::convert::written;
use super::{counted, Outcome};
use crate::cleaning::kept;
use crate::explain;
use crate::failure::Failure;
use crate::graph::{dot, svg, Drawing};
use crate::image;
use crate::input::Input;
use crate::words::Words;

pub fn run(words: &Words) -> Result<Outcome, Failure> {
    let out = words.place(1);
    if words.has("--svg") && words.has("--dot") {
        return Err(Failure::Use("--dot and --svg exclude each other".to_owned()));
    }
    let as_svg = words.has("--svg") || !words.has("--dot") && out.is_some_and(|name| name.ends_with(".svg"));
    let input = Input::read(words.place(0), words.value("--source"))?;
    let drawing = drawing_of(&input)?;
    written(words, Outcome::text(if as_svg { svg(&drawing) } else { dot(&drawing) }))
}

fn drawing_of(input: &Input) -> Result<Drawing, Failure> {
    let after = image::decode(&cleaned(input)?.image);
    let kept = kept(&input.program, &after);
    let removed = kept.iter().flatten().filter(|stays| !**stays).count();
    let all = counted(input.program.own_sentences().count(), "sentence");
    let title = format!("{}: {removed} of {all} removed", input.name);
    let drawing = Drawing::of(&input.program, &kept, input.source.as_ref(), title);
    drawing.map_err(|refusal| Failure::Refused(explain::refused(refusal, &input.image)))
}
