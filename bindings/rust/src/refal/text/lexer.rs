//! A text's tokens: what it is made of once blanks and comments are passed over.

use super::{is_plain_letter, Wrong};

#[derive(Clone, Copy, Debug, PartialEq, Eq)]
pub enum Sort {
    Variable,
    /// A plain name or a number.
    Word,
    /// Characters between quotes, which the token keeps.
    Characters,
    /// A name between backquotes, which the token keeps.
    Name,
    Sign,
    End,
}

#[derive(Clone, Copy, Debug)]
pub struct Token<'a> {
    pub sort: Sort,
    pub text: &'a [u8],
    pub start: usize,
}

impl Token<'_> {
    pub fn end(&self) -> usize {
        self.start + self.text.len()
    }
}

/// The tokens in order, and one for the end.
pub fn tokens_of(text: &[u8]) -> Result<Vec<Token<'_>>, Wrong> {
    let mut tokens = Vec::new();
    let mut place = 0;
    while place < text.len() {
        let passed = passed_over(text, place);
        if passed > 0 {
            place += passed;
            continue;
        }
        let Some((sort, length)) = token_at(&text[place..]) else {
            return Err(Wrong::new(place, why_no_token(&text[place..])));
        };
        tokens.push(Token { sort, text: &text[place..place + length], start: place });
        place += length;
    }
    tokens.push(Token { sort: Sort::End, text: b"", start: place });
    Ok(tokens)
}

/// How many bytes of blanks, or of one comment, stand at a place.
fn passed_over(text: &[u8], place: usize) -> usize {
    let rest = &text[place..];
    let blanks = length_while(rest, |byte| matches!(byte, b' ' | b'\t' | b'\r' | b'\n'));
    let begins_line = place == 0 || text[place - 1] == b'\n';
    if blanks > 0 {
        blanks
    } else if begins_line && rest[0] == b'*' {
        length_while(rest, |byte| byte != b'\n')
    } else if rest.starts_with(b"/*") {
        let closed = rest[2..].windows(2).position(|pair| pair == b"*/");
        closed.map_or(0, |inside| inside + 4)
    } else {
        0
    }
}

fn length_while(bytes: &[u8], test: impl Fn(u8) -> bool) -> usize {
    bytes.iter().take_while(|&&byte| test(byte)).count()
}

/// The token that begins a text, by its sort and its length.
fn token_at(rest: &[u8]) -> Option<(Sort, usize)> {
    if let Some(length) = variable_at(rest) {
        return Some((Sort::Variable, length));
    }
    let word = length_while(rest, is_plain_letter);
    if word > 0 {
        return Some((Sort::Word, word));
    }
    match rest[0] {
        b'\'' | b'"' => quoted_length(rest).map(|length| (Sort::Characters, length)),
        b'`' => quoted_length(rest).map(|length| (Sort::Name, length)),
        b'[' | b']' | b'(' | b')' | b'{' | b'}' | b'<' | b'>' | b'=' | b',' | b':' | b';' => Some((Sort::Sign, 1)),
        _ => keyword_at(rest).map(|length| (Sort::Sign, length)),
    }
}

fn variable_at(rest: &[u8]) -> Option<usize> {
    let ([b's' | b't' | b'e', b'.'], name) = rest.split_at_checked(2)? else {
        return None;
    };
    let plain = length_while(name, is_plain_letter);
    match name.first()? {
        b'`' => quoted_length(name).map(|length| length + 2),
        _ => (plain > 0).then_some(plain + 2),
    }
}

fn keyword_at(rest: &[u8]) -> Option<usize> {
    let keyword = [&b"$ENTRY"[..], b"$EXTERN"].into_iter().find(|keyword| rest.starts_with(keyword))?;
    let goes_on = rest.get(keyword.len()).is_some_and(|&byte| byte.is_ascii_alphanumeric() || byte == b'_');
    (!goes_on).then_some(keyword.len())
}

/// The length up to the quote that closes the first byte, on its line; a backslash takes a byte along.
fn quoted_length(rest: &[u8]) -> Option<usize> {
    let mut place = 1;
    loop {
        match rest.get(place)? {
            b'\n' => return None,
            b'\\' if *rest.get(place + 1)? == b'\n' => return None,
            b'\\' => place += 2,
            &byte if byte == rest[0] => return Some(place + 1),
            _ => place += 1,
        }
    }
}

fn why_no_token(rest: &[u8]) -> &'static str {
    match rest {
        [b'\'' | b'"' | b'`', ..] => "a quote that is not closed on its line",
        [b'/', b'*', ..] => "a comment that is not closed",
        _ => "nothing of the notation begins here",
    }
}
