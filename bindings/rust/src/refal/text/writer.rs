//! A program's text, laid out anew; spans are not written.

use super::printable::is_printable;
use super::{is_plain_name, is_plain_variable};
use crate::program::{Condition, Declaration, Function, Kind, Program, Sentence, Term, What};

/// The whole text: declarations, then functions with an empty line before each.
pub fn text_of(program: &Program) -> String {
    let declarations: String = program.declarations.iter().map(declaration_text).collect();
    let functions = program.functions.iter().map(function_text);
    let parts: Vec<String> = std::iter::once(declarations).chain(functions).filter(|part| !part.is_empty()).collect();
    parts.join("\n")
}

fn declaration_text(declaration: &Declaration) -> String {
    let names: Vec<String> = declaration.names.iter().map(|name| name_text(name, is_plain_name)).collect();
    format!("$EXTERN {};\n", names.join(", "))
}

fn function_text(function: &Function) -> String {
    let entry = if function.entry { "$ENTRY " } else { "" };
    let name = name_text(&function.name, is_plain_name);
    format!("{entry}{name} {}\n", sentences_text(&function.sentences, ""))
}

/// A line for each sentence, two blanks further in than the line that they begin on.
fn sentences_text(sentences: &[Sentence], margin: &str) -> String {
    let inner = format!("{margin}  ");
    let lines: String =
        sentences.iter().map(|sentence| format!("{inner}{}\n", sentence_text(sentence, &inner))).collect();
    format!("{{\n{lines}{margin}}}")
}

/// A sentence with its `;`; what it has on further lines stands behind the margin.
pub fn sentence_text(sentence: &Sentence, margin: &str) -> String {
    spaced(&[&pattern_text(sentence, margin), "=", &terms_text(&sentence.result, margin)]) + ";"
}

/// A sentence up to its `=`.
pub fn pattern_text(sentence: &Sentence, margin: &str) -> String {
    let conditions: String = sentence.conditions.iter().map(|condition| condition_text(condition, margin)).collect();
    terms_text(&sentence.pattern, margin) + &conditions
}

fn condition_text(condition: &Condition, margin: &str) -> String {
    spaced(&[",", &terms_text(&condition.result, margin), ":", &terms_text(&condition.pattern, margin)])
}

fn spaced(parts: &[&str]) -> String {
    let parts: Vec<&str> = parts.iter().copied().filter(|part| !part.is_empty()).collect();
    parts.join(" ")
}

/// Terms with a blank between them; neighbouring characters share their quotes.
pub fn terms_text(terms: &[Term], margin: &str) -> String {
    let both_characters = |left: &Term, right: &Term| is_character(left) && is_character(right);
    let runs = terms.chunk_by(both_characters);
    let texts: Vec<String> = runs.map(|run| run_text(run, margin)).collect();
    texts.join(" ")
}

fn is_character(term: &Term) -> bool {
    matches!(term.what, What::Character(_))
}

/// Characters between one pair of quotes, or one other term.
fn run_text(run: &[Term], margin: &str) -> String {
    let letters = run.iter().filter_map(|term| match term.what {
        What::Character(letter) => Some(letter),
        _ => None,
    });
    match &run[0].what {
        What::Character(_) => characters_text(letters.collect()),
        What::Identifier(name) => name_text(name, is_plain_name),
        What::Number(digits) => digits.clone(),
        What::Variable(kind, name) => format!("{}.{}", kind_letter(*kind), name_text(name, is_plain_variable)),
        What::Bracket(terms) => format!("({})", terms_text(terms, margin)),
        What::Call(name, terms) => {
            format!("<{}>", spaced(&[&name_text(name, is_plain_name), &terms_text(terms, margin)]))
        }
        What::Block(terms, sentences) => {
            format!("[{}]", spaced(&[&terms_text(terms, margin), ":", &sentences_text(sentences, margin)]))
        }
    }
}

fn kind_letter(kind: Kind) -> char {
    match kind {
        Kind::Symbol => 's',
        Kind::Term => 't',
        Kind::Expression => 'e',
    }
}

fn name_text(name: &str, plain: fn(&[u8]) -> bool) -> String {
    match plain(name.as_bytes()) {
        true => name.to_owned(),
        false => quoted(name, '`'),
    }
}

/// Double quotes where they save an escape, as in a report.
fn characters_text(letters: String) -> String {
    let double = letters.contains('\'') && !letters.contains('"');
    quoted(&letters, if double { '"' } else { '\'' })
}

fn quoted(letters: &str, quote: char) -> String {
    let inside: String = letters.chars().map(|letter| letter_text(letter, quote)).collect();
    format!("{quote}{inside}{quote}")
}

fn letter_text(letter: char, quote: char) -> String {
    match letter {
        '\n' => "\\n".to_owned(),
        '\r' => "\\r".to_owned(),
        '\t' => "\\t".to_owned(),
        _ if letter == '\\' || letter == quote => format!("\\{letter}"),
        _ if is_printable(letter) => letter.to_string(),
        _ => format!("\\x{{{:X}}}", letter as u32),
    }
}

#[cfg(test)]
mod tests {
    use super::*;
    use crate::text::program_of;

    #[test]
    fn a_text_is_laid_out_anew() {
        let text = "$EXTERN A,`+`;$ENTRY Go{'a' 'b' \"'\",e.1:s.`*`=[e.1:{=;}]<A 007>;}F{}";
        let laid_out =
            "$EXTERN A, `+`;\n\n$ENTRY Go {\n  \"ab'\", e.1 : s.`*` = [e.1 : {\n    =;\n  }] <A 007>;\n}\n\nF {\n}\n";
        let written = text_of(&program_of(text.as_bytes()).expect("a right text"));
        assert_eq!(written, laid_out);
        assert_eq!(text_of(&program_of(written.as_bytes()).expect("a right text")), laid_out);
    }

    #[test]
    fn characters_that_cannot_be_seen_are_escaped() {
        assert_eq!(quoted("\u{41f}\u{200b}\n\\'", '\''), "'\u{41f}\\x{200B}\\n\\\\\\''");
    }
}
