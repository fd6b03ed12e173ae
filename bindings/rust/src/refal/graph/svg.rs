//! A drawing as SVG, laid out here.

use std::fmt::Write;

use super::layout::{Layout, Wire};
use super::model::{Drawing, Edge, Meets, Panel, Row, Sort};
use super::paths::{Columns, Router};
use super::pen::{edge_path, escaped, markers, shortened, text, wide, COLOURS, GONE, LETTER, NOTHING, OWN, STYLE};

const ROW: f64 = 19.0;
const HEAD: f64 = 26.0;
const PAD: f64 = 9.0;
const INDENT: f64 = 16.0;
const MARGIN: f64 = 28.0;
const TITLE: f64 = 54.0;
/// Between columns.
const ROOM: f64 = 110.0;

/// The whole picture.
pub fn svg(drawing: &Drawing) -> String {
    let page = Page::of(drawing);
    let mut out = String::new();
    let _ = writeln!(
        out,
        "<svg xmlns=\"http://www.w3.org/2000/svg\" width=\"{0:.0}\" height=\"{1:.0}\" viewBox=\"0 0 {0:.0} {1:.0}\">",
        page.width, page.height
    );
    let _ =
        writeln!(out, "<style>\n{STYLE}</style>\n<rect width=\"100%\" height=\"100%\" fill=\"#fff\"/>\n{}", markers());
    text(&mut out, "title", MARGIN, 30.0, &drawing.title);
    let _ = writeln!(out, "<g transform=\"translate(0 {TITLE})\">");
    page.edges(&mut out);
    for (number, drawn) in drawing.boxes.iter().enumerate() {
        page.function(&mut out, number, drawn);
    }
    out += "</g>\n";
    page.legend(&mut out);
    out + "</svg>\n"
}

/// A drawing with its places.
struct Page<'a> {
    drawing: &'a Drawing,
    layout: Layout,
    columns: Columns,
    sides: Vec<(f64, f64)>,
    gutter: f64,
    width: f64,
    height: f64,
}

impl Page<'_> {
    fn of(drawing: &Drawing) -> Page<'_> {
        let heights: Vec<f64> =
            drawing.boxes.iter().map(|drawn| HEAD + ROW * drawn.rows.len() as f64 + PAD / 2.0).collect();
        let wires: Vec<Wire> = drawing.edges.iter().map(wire_of).collect();
        let layout = Layout::of(&heights, &wires, drawing.root);
        let gutter = gutter_of(drawing);
        let widths: Vec<f64> = drawing.boxes.iter().map(|drawn| width_of(drawn, gutter)).collect();
        let columns = columns_of(&layout, &widths);
        let sides = (0..widths.len()).map(|number| side_of(number, &layout, &columns, &widths)).collect();
        let width = columns.right.last().copied().unwrap_or(0.0).max(760.0) + ROOM;
        let height = layout.height() + TITLE + 3.0 * MARGIN + 2.0 * ROW;
        Page { drawing, layout, columns, sides, gutter, width, height }
    }

    fn edges(&self, out: &mut String) {
        let right: Vec<f64> = self.sides.iter().map(|(_, right)| *right).collect();
        let router = Router { layout: &self.layout, columns: &self.columns, right: &right };
        // What went is drawn below what stays.
        for removed in [true, false] {
            for (number, edge) in self.drawing.edges.iter().enumerate().filter(|(_, edge)| edge.removed == removed) {
                let path = router.path(&wire_of(edge), number);
                edge_path(out, &path, colour_of(edge), dashes_of(edge.meets));
            }
        }
    }

    fn function(&self, out: &mut String, number: usize, drawn: &Panel) {
        let item = &self.layout.items[number];
        let (left, right) = self.sides[number];
        let (width, top) = (right - left, item.top);
        let _ = writeln!(
            out,
            "<rect x=\"{left:.1}\" y=\"{top:.1}\" width=\"{width:.1}\" height=\"{:.1}\" rx=\"5\" fill=\"#fff\" stroke=\"#5b6472\"/>",
            item.height
        );
        let _ = writeln!(
            out,
            "<path d=\"M{left:.1} {:.1}v-{:.1}q0 -5 5 -5h{:.1}q5 0 5 5v{:.1}z\" fill=\"{}\"/>",
            top + HEAD - 4.0,
            HEAD - 9.0,
            width - 10.0,
            HEAD - 9.0,
            COLOURS[number % OWN]
        );
        text(out, "name", left + PAD, top + 15.5, &shortened(&drawn.name));
        let note = left + PAD + wide(&shortened(&drawn.name)) + LETTER;
        text(out, "note", note, top + 15.5, drawn.note);
        for (place, row) in drawn.rows.iter().enumerate() {
            self.row(out, left, right, top + HEAD + ROW * place as f64, row);
        }
    }

    fn row(&self, out: &mut String, left: f64, right: f64, top: f64, row: &Row) {
        let is_sentence = row.sort == Sort::Sentence;
        if row.removed {
            let _ = writeln!(
                out,
                "<rect x=\"{:.1}\" y=\"{top:.1}\" width=\"{:.1}\" height=\"{ROW}\" fill=\"#fbe9e9\"/>",
                left + 1.0,
                right - left - 2.0
            );
        }
        if let Some(line) = row.line {
            text(out, "line", left + 5.0, top + 13.5, &format!("{line:>4}"));
        }
        let indent = if is_sentence { 0.0 } else { INDENT };
        let class = match row.sort {
            _ if row.removed => "gone",
            Sort::Sentence => "sentence",
            Sort::Call | Sort::Dispatch => "call",
            Sort::Outside => "outside",
            Sort::Uncovered => "uncovered",
        };
        let _ = write!(out, "<g><title>{}</title>", escaped(&row.whole));
        text(out, class, left + PAD + self.gutter + indent, top + 14.0, &label(row));
        out.push_str("</g>\n");
    }

    /// What lines and letters mean.
    fn legend(&self, out: &mut String) {
        let y = self.height - 1.6 * ROW - MARGIN / 2.0;
        let entries = [
            (Meets::Overlap, "can meet the sentence"),
            (Meets::Unknown, "undecided"),
            (Meets::Computed, "computed argument: anything"),
        ];
        let mut x = MARGIN;
        for (meets, words) in entries {
            edge_path(out, &format!("M{x:.1} {y:.1}h34"), 0, dashes_of(meets));
            text(out, "call", x + 42.0, y + 4.0, words);
            x += 42.0 + wide(words) + 26.0;
        }
        let y = y + ROW;
        let words = [
            ("gone", "removed"),
            ("uncovered", "a call that meets nothing"),
            ("outside", "a call of a function outside the program"),
        ];
        let mut x = MARGIN;
        for (class, words) in words {
            text(out, class, x, y + 4.0, words);
            x += wide(words) + 26.0;
        }
    }
}

/// The colour of an edge, by its number among the pen's.
fn colour_of(edge: &Edge) -> usize {
    if edge.removed {
        GONE
    } else if edge.meets == Meets::Nothing {
        NOTHING
    } else {
        edge.from.0 % GONE
    }
}

fn dashes_of(meets: Meets) -> &'static str {
    match meets {
        Meets::Overlap | Meets::Nothing => "none",
        Meets::Unknown => "7 4",
        Meets::Computed => "2 3",
    }
}

fn wire_of(edge: &Edge) -> Wire {
    let at = |row: usize| HEAD + ROW * (row as f64 + 0.5);
    Wire { from: edge.from.0, to: edge.to.0, from_at: at(edge.from.1), to_at: edge.to.1.map_or(HEAD / 2.0 - 2.0, at) }
}

fn gutter_of(drawing: &Drawing) -> f64 {
    let any_line = drawing.boxes.iter().flat_map(|drawn| &drawn.rows).any(|row| row.line.is_some());
    if any_line {
        26.0
    } else {
        0.0
    }
}

fn width_of(drawn: &Panel, gutter: f64) -> f64 {
    let row = |row: &Row| gutter + wide(&label(row)) + if row.sort == Sort::Sentence { 0.0 } else { INDENT };
    let rows = drawn.rows.iter().map(row).fold(0.0, f64::max);
    rows.max(wide(&shortened(&drawn.name)) + wide(drawn.note) + LETTER).max(90.0) + 2.0 * PAD
}

/// A row's words, with what a call's sort adds to them.
fn label(row: &Row) -> String {
    let more = match row.sort {
        Sort::Dispatch => "  calls any function",
        Sort::Uncovered => "  meets nothing",
        _ => "",
    };
    shortened(&row.text) + more
}

fn columns_of(layout: &Layout, widths: &[f64]) -> Columns {
    let mut columns = Columns { left: Vec::new(), right: Vec::new() };
    let mut left = MARGIN;
    for column in 0..layout.columns() {
        let own = layout.items.iter().zip(widths).filter(|(item, _)| item.column == column);
        let right = left + own.map(|(_, width)| *width).fold(0.0, f64::max);
        columns.left.push(left);
        columns.right.push(right);
        left = right + ROOM;
    }
    columns
}

fn side_of(number: usize, layout: &Layout, columns: &Columns, widths: &[f64]) -> (f64, f64) {
    let left = columns.left[layout.items[number].column];
    (left, left + widths[number])
}
