//! What pictures are drawn with: colours, letters, and their places in SVG.

use std::fmt::Write;

/// A letter's width.
pub const LETTER: f64 = 7.25;
/// Letters of a row; the rest is in its tooltip.
const LONGEST: usize = 46;
/// One for each function, over and over; then those of what went and of calls that meet nothing.
pub const COLOURS: [&str; 10] =
    ["#1f5fa8", "#a8511f", "#2b7a3d", "#7a2b78", "#8a6d00", "#0f7c7c", "#a12b45", "#4a4aa8", "#c4bcbc", "#c0202c"];

/// The colours of functions.
pub const OWN: usize = 8;
pub const GONE: usize = OWN;
pub const NOTHING: usize = OWN + 1;

pub const STYLE: &str = "\
text { font: 12px 'DejaVu Sans Mono', 'Liberation Mono', Menlo, Consolas, monospace; fill: #1d1d1f; }
.title { font-size: 15px; font-weight: bold; }
.name { font-weight: bold; fill: #fff; }
.note { fill: #c9d6e6; font-size: 11px; }
.line { fill: #9a9aa0; font-size: 10px; }
.call { fill: #41506b; }
.outside { fill: #8b8b92; }
.uncovered { fill: #c0202c; font-weight: bold; }
.gone { fill: #9b5a5f; text-decoration: line-through; }
.edge { fill: none; stroke-width: 1.4; }
";

/// A tip for edges of each colour.
pub fn markers() -> String {
    let marker = |(number, colour): (usize, &&str)| {
        format!("<marker id=\"tip{number}\" viewBox=\"0 0 8 8\" refX=\"7\" refY=\"4\" markerWidth=\"7\" markerHeight=\"7\" orient=\"auto\"><path d=\"M0 1L8 4L0 7z\" fill=\"{colour}\"/></marker>")
    };
    let all: String = COLOURS.iter().enumerate().map(marker).collect();
    format!("<defs>{all}</defs>")
}

/// An edge in the colour of that number.
pub fn edge_path(out: &mut String, path: &str, colour: usize, dashes: &str) {
    let _ = writeln!(
        out,
        "<path class=\"edge\" d=\"{path}\" stroke=\"{}\" stroke-dasharray=\"{dashes}\" marker-end=\"url(#tip{colour})\"/>",
        COLOURS[colour]
    );
}

/// How wide a text is.
pub fn wide(text: &str) -> f64 {
    text.chars().map(letters_wide).sum::<f64>() * LETTER
}

/// Letters of the East and signs take the room of two.
fn letters_wide(letter: char) -> f64 {
    match letter as u32 {
        0x1100..=0x115f | 0x2e80..=0xa4cf | 0xac00..=0xd7a3 | 0xf900..=0xfaff | 0xfe30..=0xfe6f | 0xff00..=0xff60 => {
            2.0
        }
        0x1f300.. => 2.0,
        _ => 1.0,
    }
}

/// A text that fits a row.
pub fn shortened(text: &str) -> String {
    match text.chars().count() > LONGEST {
        true => text.chars().take(LONGEST - 1).chain(['…']).collect(),
        false => text.to_owned(),
    }
}

/// Words with the left end of their line at a place.
pub fn text(out: &mut String, class: &str, x: f64, y: f64, words: &str) {
    if !words.is_empty() {
        let _ = writeln!(
            out,
            "<text class=\"{class}\" x=\"{x:.1}\" y=\"{y:.1}\" xml:space=\"preserve\">{}</text>",
            escaped(words)
        );
    }
}

/// Text between XML tags; control characters, which XML cannot have, as a sign.
pub fn escaped(text: &str) -> String {
    let letter = |letter: char| match letter {
        '&' => "&amp;".to_owned(),
        '<' => "&lt;".to_owned(),
        '>' => "&gt;".to_owned(),
        '"' => "&quot;".to_owned(),
        _ if letter.is_control() => "\u{fffd}".to_owned(),
        _ => letter.to_string(),
    };
    text.chars().map(letter).collect()
}

#[cfg(test)]
mod tests {
    use super::*;

    #[test]
    fn letters_of_xml_are_escaped() {
        assert_eq!(escaped("<F \"&'\n"), "&lt;F &quot;&amp;'\u{fffd}");
    }

    #[test]
    fn long_rows_are_shortened_by_letters() {
        assert_eq!(shortened(&"\u{44f}".repeat(LONGEST)).chars().count(), LONGEST);
        assert!(shortened(&"\u{44f}".repeat(LONGEST + 1)).ends_with('…'));
    }
}
