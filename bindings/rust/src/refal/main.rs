//! `refal`: programs as text and as images, checked, cleaned and shown. `refal help` says how.

mod calls;
mod cleaning;
mod commands;
mod cover;
mod explain;
mod failure;
mod files;
mod graph;
mod image;
mod input;
mod lint;
mod program;
mod progress;
mod source;
mod text;
mod words;

use std::env;
use std::io::{self, IsTerminal};
use std::process::ExitCode;

use commands::Outcome;
use failure::{Failure, FOUND};

fn main() -> ExitCode {
    let words = env::args_os().skip(1).map(|word| word.to_string_lossy().into_owned()).collect::<Vec<_>>();
    match commands::run(&words).and_then(deliver) {
        Ok(status) => status,
        Err(failure) => {
            eprintln!("refal: {failure}");
            failure.status()
        }
    }
}

/// Prints what a command answered.
fn deliver(outcome: Outcome) -> Result<ExitCode, Failure> {
    if outcome.is_image && io::stdout().is_terminal() {
        let words = "an image is no text for a terminal: name a file for it, or lead standard output to one";
        return Err(Failure::Use(words.to_owned()));
    }
    files::print(&outcome.output)?;
    eprint!("{}", outcome.notes);
    Ok(ExitCode::from(if outcome.found { FOUND } else { 0 }))
}
