//! Refusals in words: whose fault, what to do next, and the place shown in the bytes.

use std::fmt::Write;

use showclean::{words, Place, Refusal};

const ROW: usize = 16;
/// The rows shown before and behind the one with the place.
const AROUND: usize = 1;

/// A refusal's number with whom it comes from and what to do; none if there is no such number.
pub fn number(number: u8) -> Option<String> {
    let (cause, next) = causes(number)?;
    Some(format!("refusal {number}: {}\ncause: {cause}\nwhat to do: {next}\n", words(number)))
}

/// Who can cause a refusal, and what helps.
fn causes(number: u8) -> Option<(&'static str, &'static str)> {
    let caller = "the code that calls the cleaner";
    let file = "the file";
    let author = "the program's author";
    let again = "the file is damaged, cut short or no image: copy it again, or make it again with `refal encode`";
    let encoder = "the file is damaged, or what made it is wrong: copy it again, or make it again with `refal encode`";
    Some(match number {
        1 => (file, "see that the file is whole and an image; a program that is too long has to be divided"),
        2 => (caller, "lend an output of at least as many bytes as the image has"),
        3 => (caller, "lend work of the image's length divided by 4, rounded up, in 32-bit entries"),
        4 | 5 => (file, again),
        6..=8 | 11 => (file, encoder),
        9 => (author, "move the call or the block into a condition or into the result"),
        10 => (author, "give what is nested so deep to a function of its own"),
        12 => (caller, "lend a report as long as the place says; `refal clean` does so by itself"),
        13 => (caller, "number the functions' own sentences in file order from 0; `refal overlap IN` lists them"),
        17 => (caller, "lend 131,072 bytes, which are enough for every expression; `refal witness` does so by itself"),
        _ => return None,
    })
}

/// Everything there is to say of a refused image.
pub fn refused(refusal: Refusal, image: &[u8]) -> String {
    let mut told = format!("{refusal}\n");
    if let Place::Byte(place) = refusal.at() {
        told += &shown(image, place as usize);
    }
    if let Some((_, next)) = causes(refusal.number) {
        let _ = writeln!(told, "what to do: {next}");
    }
    told
}

/// The bytes around a place, sixteen a row, with a mark under it.
pub fn shown(image: &[u8], place: usize) -> String {
    let row = place / ROW;
    let mut text = String::new();
    for number in row.saturating_sub(AROUND)..=row + AROUND {
        let bytes = &image[image.len().min(number * ROW)..image.len().min((number + 1) * ROW)];
        if !bytes.is_empty() {
            text += &row_text(number * ROW, bytes);
        }
        if number == row {
            let _ = writeln!(text, "{}^^ byte {place}{}", " ".repeat(10 + 3 * (place % ROW)), meaning(image, place));
        }
    }
    text
}

fn row_text(start: usize, bytes: &[u8]) -> String {
    let numbers: Vec<String> = bytes.iter().map(|byte| format!("{byte:02x}")).collect();
    let letters: String = bytes.iter().map(|&byte| if byte.is_ascii_graphic() { byte as char } else { '.' }).collect();
    format!("{start:>8}  {:<width$}  {letters}\n", numbers.join(" "), width = 3 * ROW - 1)
}

/// What stands at a place, where that helps.
fn meaning(image: &[u8], place: usize) -> String {
    let body = image.len().saturating_sub(12);
    match image.get(place) {
        Some(byte) if place < body => format!(", {byte} in decimal"),
        _ if place == body => ", the end of the body, where a record is cut off".to_owned(),
        _ => ", which is outside the body".to_owned(),
    }
}

#[cfg(test)]
mod tests {
    use super::*;

    #[test]
    fn every_refusal_has_words() {
        for refusal in (1..=13).chain([17]) {
            let told = number(refusal).expect("a refusal");
            assert!(told.contains(words(refusal)) && told.contains("what to do: "), "{told}");
        }
        assert_eq!(number(0), None);
        assert_eq!(number(14), None);
    }

    #[test]
    fn the_place_is_marked_in_the_bytes() {
        let image: Vec<u8> = (0..40).collect();
        let rows: Vec<String> = shown(&image, 18).lines().map(str::to_owned).collect();
        assert_eq!(rows[1], format!("      16  10 11 12 13 14 15 16 17 18 19 1a 1b 1c 1d 1e 1f  {}", ".".repeat(16)));
        assert_eq!(rows[2], "                ^^ byte 18, 18 in decimal");
        assert!(rows[1][16..].starts_with("12"));
    }

    #[test]
    fn a_place_at_the_end_of_the_body_is_said_to_be() {
        assert!(shown(&[0; 14], 2).contains("the end of the body"));
        assert!(shown(&[0; 14], 99).contains("outside"));
    }
}
