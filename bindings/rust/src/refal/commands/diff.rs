//! What cleaning removes, laid out like the output of diff.

use super::clean::cleaned;
use super::Outcome;
use crate::cleaning::kept;
use crate::failure::Failure;
use crate::image;
use crate::input::Input;
use crate::source::place_words;
use crate::text::sentence_text;
use crate::words::Words;

pub fn run(words: &Words) -> Result<Outcome, Failure> {
    let input = Input::read(words.place(0), words.value("--source"))?;
    let after = image::decode(&cleaned(&input)?.image);
    let kept = kept(&input.program, &after);
    let removed: Vec<_> = input.program.own_sentences().filter(|&(f, s, _)| !kept[f][s]).collect();
    let mut text = format!("--- {}\n+++ cleaned\n", input.name);
    for &(f, s, sentence) in &removed {
        let place =
            place_words(input.source.as_ref(), sentence.span).map_or_else(String::new, |place| format!(", {place}"));
        text += &format!("@@ {}, sentence {}{place} @@\n", input.program.functions[f].name, s + 1);
        text.extend(sentence_text(sentence, "").lines().map(|line| format!("-{line}\n")));
    }
    let all = super::counted(input.program.own_sentences().count(), "sentence");
    let notes = format!("{} of {all} removed\n", removed.len());
    let found = words.has("--strict") && !removed.is_empty();
    let output = if removed.is_empty() { String::new() } else { text };
    Ok(Outcome { notes, found, ..Outcome::text(output) })
}
