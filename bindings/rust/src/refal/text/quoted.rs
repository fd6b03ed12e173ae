//! What stands between quotes: letters and escapes.

use super::Wrong;

/// A letter or an escape: its code, and from where to where it is written.
pub struct Piece {
    pub letter: char,
    pub start: usize,
    pub end: usize,
}

/// The pieces of a quoted token's text, whose opening quote is at `place`.
pub fn pieces_of(quoted: &[u8], place: usize) -> Result<Vec<Piece>, Wrong> {
    let inside = std::str::from_utf8(&quoted[1..quoted.len() - 1]).expect("quotes do not cut letters");
    let mut rest = inside;
    let mut start = place + 1;
    let mut pieces = Vec::new();
    while let Some(first) = rest.chars().next() {
        let (letter, length) = match first {
            '\\' => escape(rest, start)?,
            letter => (letter, letter.len_utf8()),
        };
        pieces.push(Piece { letter, start, end: start + length });
        rest = &rest[length..];
        start += length;
    }
    Ok(pieces)
}

/// The letter of the escape that begins a text, and the escape's length.
fn escape(text: &str, place: usize) -> Result<(char, usize), Wrong> {
    if let Some(digits) = hexadecimal(text) {
        let code = u32::from_str_radix(digits, 16).unwrap_or(u32::MAX);
        let letter = char::from_u32(code).ok_or_else(|| Wrong::new(place, "no character has this code"))?;
        return Ok((letter, digits.len() + "\\x{}".len()));
    }
    let letter = match text.as_bytes()[1] {
        b'n' => '\n',
        b'r' => '\r',
        b't' => '\t',
        byte @ (b'\\' | b'\'' | b'"' | b'`') => byte as char,
        _ => return Err(Wrong::new(place, "no such escape")),
    };
    Ok((letter, 2))
}

/// The digits of an escape by code.
fn hexadecimal(text: &str) -> Option<&str> {
    let (digits, _) = text.strip_prefix("\\x{")?.split_once('}')?;
    let all = !digits.is_empty() && digits.bytes().all(|byte| byte.is_ascii_hexdigit());
    all.then_some(digits)
}
