//! A drawing in DOT, for Graphviz and its kin.

use std::fmt::Write;

use super::model::{Drawing, Edge, Meets, Panel, Row, Sort};
use super::pen::escaped;

pub fn dot(drawing: &Drawing) -> String {
    let mut out = String::from("digraph program {\n  rankdir=LR;\n  node [shape=plain, fontname=\"monospace\"];\n");
    let _ = writeln!(out, "  label={}; labelloc=t;", quoted(&drawing.title));
    for (number, drawn) in drawing.boxes.iter().enumerate() {
        let _ = writeln!(out, "  f{number} [label=<{}>];", table(drawn));
    }
    for edge in &drawing.edges {
        let _ = writeln!(out, "  {}", arrow(edge));
    }
    out + "}\n"
}

/// A function as a table, a port for each row.
fn table(drawn: &Panel) -> String {
    let note = if drawn.note.is_empty() { String::new() } else { format!(" ({})", drawn.note) };
    let rows: String = drawn.rows.iter().enumerate().map(|(number, row)| row_cell(number, row)).collect();
    let head = format!("<tr><td port=\"head\" bgcolor=\"#dde6f2\"><b>{}</b>{note}</td></tr>", escaped(&drawn.name));
    format!("<table border=\"0\" cellborder=\"1\" cellspacing=\"0\" cellpadding=\"4\">{head}{rows}</table>")
}

fn row_cell(number: usize, row: &Row) -> String {
    let colour = if row.removed { " bgcolor=\"#fbe9e9\"" } else { "" };
    let line = row.line.map_or_else(String::new, |line| format!("{line}: "));
    let indent = if row.sort == Sort::Sentence { "" } else { "    " };
    let words = escaped(&format!("{line}{indent}{}", row.text));
    let words = if row.removed { format!("<s>{words}</s>") } else { words };
    format!("<tr><td port=\"r{number}\" align=\"left\"{colour}>{words}</td></tr>")
}

fn arrow(edge: &Edge) -> String {
    let port = edge.to.1.map_or("head".to_owned(), |row| format!("r{row}"));
    let style = match edge.meets {
        Meets::Overlap | Meets::Nothing => "solid",
        Meets::Unknown => "dashed",
        Meets::Computed => "dotted",
    };
    let colour = match edge.meets {
        _ if edge.removed => ", color=\"#c4bcbc\"",
        Meets::Nothing => ", color=\"#c0202c\"",
        _ => "",
    };
    format!("f{}:r{} -> f{}:{port} [style={style}{colour}];", edge.from.0, edge.from.1, edge.to.0)
}

fn quoted(text: &str) -> String {
    format!("\"{}\"", text.replace('\\', "\\\\").replace('"', "\\\""))
}
