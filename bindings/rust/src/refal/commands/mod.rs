//! The commands by name, and how their words are read.

mod check;
mod clean;
mod convert;
mod diff;
mod explain;
mod graph;
mod lint;
mod overlap;
mod witness;

use crate::failure::Failure;
use crate::words::{Takes, Words};

/// What a command answers.
#[derive(Debug, Default)]
pub struct Outcome {
    /// For standard output.
    pub output: Vec<u8>,
    pub is_image: bool,
    /// For standard error.
    pub notes: String,
    /// Something was found that `--strict` asked about.
    pub found: bool,
}

impl Outcome {
    fn text(text: impl Into<Vec<u8>>) -> Outcome {
        Outcome { output: text.into(), ..Outcome::default() }
    }

    fn image(image: Vec<u8>) -> Outcome {
        Outcome { output: image, is_image: true, ..Outcome::default() }
    }
}

/// One command: a new one is a module and a row of `COMMANDS`.
struct Command {
    name: &'static str,
    words: &'static str,
    about: &'static str,
    takes: Takes,
    run: fn(&Words) -> Result<Outcome, Failure>,
}

const fn plain(most: usize) -> Takes {
    Takes { flags: &[], values: &[], most }
}

const SOURCE: &[&str] = &["--source"];
const STRICT: &[&str] = &["--strict"];

const COMMANDS: &[Command] = &[
    Command {
        name: "encode",
        words: "[TEXT] [OUT]",
        about: "make an image of a text",
        takes: plain(2),
        run: convert::encode,
    },
    Command {
        name: "decode",
        words: "[IMAGE] [OUT]",
        about: "make a text of an image; spans are lost, and nothing else",
        takes: plain(2),
        run: convert::decode,
    },
    Command {
        name: "check",
        words: "[IN]",
        about: "say whether a text or an image is accepted, and why not",
        takes: plain(1),
        run: check::run,
    },
    Command {
        name: "clean",
        words: "[IN] [OUT]",
        about: "print the report, and write the cleaned image to OUT",
        takes: plain(2),
        run: clean::run,
    },
    Command {
        name: "diff",
        words: "[--strict] [--source TEXT] [IN]",
        about: "show what cleaning removes, as text",
        takes: Takes { flags: STRICT, values: SOURCE, most: 1 },
        run: diff::run,
    },
    Command {
        name: "graph",
        words: "[--dot | --svg] [--source TEXT] [IN] [OUT]",
        about: "draw functions, calls, and which calls meet which sentences",
        takes: Takes { flags: &["--dot", "--svg"], values: SOURCE, most: 2 },
        run: graph::run,
    },
    Command {
        name: "lint",
        words: "[--strict] [--source TEXT] [IN]",
        about: "warn of what the author hardly meant",
        takes: Takes { flags: STRICT, values: SOURCE, most: 1 },
        run: lint::run,
    },
    Command {
        name: "overlap",
        words: "IN [FIRST SECOND]",
        about: "list the sentences by number, or compare the patterns of two",
        takes: plain(3),
        run: overlap::run,
    },
    Command {
        name: "witness",
        words: "IN FIRST SECOND",
        about: "print one expression that matches the patterns of two sentences",
        takes: plain(3),
        run: witness::run,
    },
    Command {
        name: "explain",
        words: "NUMBER [PLACE IMAGE]",
        about: "a refusal in words, and its place in the bytes",
        takes: plain(3),
        run: explain::run,
    },
];

const VERSION: &str = concat!("refal ", env!("CARGO_PKG_VERSION"));

const NOTES: &str = "
IN is a text or an image, whichever the file holds; `-`, or no word, is standard input. --source names the text that
an image was made of, so that places are told by its lines. --strict makes what is found a status.

status: 0 done; 1 an image or a text was turned away; 2 wrong use; 3 a file could not be read or written;
4 with --strict, something was found. docs/NOTATION.md has the notation, docs/REPORT.md the report's lines.
";

/// Runs the command that the words name.
pub fn run(words: &[String]) -> Result<Outcome, Failure> {
    let Some((name, rest)) = words.split_first() else {
        return Err(Failure::Use(format!("a command is missing\n\n{}", help())));
    };
    if is_help(name) {
        return Ok(Outcome::text(help()));
    }
    if matches!(name.as_str(), "--version" | "-V") {
        return Ok(Outcome::text(format!("{VERSION}\n")));
    }
    let Some(command) = COMMANDS.iter().find(|command| command.name == name) else {
        return Err(Failure::Use(format!("there is no command `{name}`; `refal help` lists them")));
    };
    if rest.iter().any(|word| is_help(word)) {
        return Ok(Outcome::text(format!("{}{NOTES}", command.line())));
    }
    let in_words = |failure| match failure {
        Failure::Use(words) => Failure::Use(format!("{words}\nusage: refal {} {}", command.name, command.words)),
        other => other,
    };
    Words::parse(rest, &command.takes).and_then(|words| (command.run)(&words)).map_err(in_words)
}

impl Command {
    fn line(&self) -> String {
        format!("  refal {} {}\n      {}\n", self.name, self.words, self.about)
    }
}

/// A count with its word, in the plural where that is due.
fn counted(count: usize, what: &str) -> String {
    format!("{count} {what}{}", if count == 1 { "" } else { "s" })
}

fn is_help(word: &str) -> bool {
    matches!(word, "help" | "--help" | "-h")
}

fn help() -> String {
    let lines: String = COMMANDS.iter().map(Command::line).collect();
    format!(
        "{VERSION}: programs as text and as images, checked, cleaned and shown

{lines}{NOTES}"
    )
}
