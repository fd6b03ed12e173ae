//! Makes the source of refal-core that the oracle is built from, or prints the table of wanted departures.
//!
//!     prepare SOURCE WRAPPERS OUT    SOURCE with the table's lines replaced, and WRAPPERS behind it
//!     prepare                        the table

mod departures;

use std::env;
use std::fs;

use departures::{DEPARTURES, Made};

fn main() {
    let words: Vec<String> = env::args().skip(1).collect();
    match &words[..] {
        [] => print_table(),
        [source, wrappers, out] => {
            let text = replaced(read(source)) + &read(wrappers);
            fs::write(out, text).expect("a file that can be written");
        }
        _ => panic!("the words are at the top of prepare.rs"),
    }
}

fn read(path: &str) -> String {
    fs::read_to_string(path).unwrap_or_else(|error| panic!("{path}: {error}"))
}

/// A line that is not there exactly once means that the Rust is another, and the table does not fit it.
fn replaced(mut text: String) -> String {
    for departure in DEPARTURES {
        if let Made::Line { old, new } = departure.made {
            let found = text.matches(old).count();
            assert_eq!(found, 1, "request {}: the line stands {found} times in the source: {old}", departure.request);
            text = text.replace(old, new);
        }
    }
    text
}

fn print_table() {
    println!("| request | which answers change | how the stored answers are made |\n|---|---|---|");
    for departure in DEPARTURES {
        let made = match departure.made {
            Made::Line { new, .. } => format!("a line of refal-core is replaced: `{new}`"),
            Made::LastLine(_) => "the driver writes another last line".to_owned(),
        };
        println!("| {} | {} | {made} |", departure.request, departure.changes);
    }
}
