//! How far long work is, on a terminal.

use std::io::{self, IsTerminal};
use std::time::{Duration, Instant};

/// Work that is done sooner says nothing.
const PATIENCE: Duration = Duration::from_millis(300);

pub struct Progress {
    what: &'static str,
    all: usize,
    done: usize,
    told: Option<Instant>,
    shown: bool,
}

impl Progress {
    pub fn new(what: &'static str, all: usize) -> Progress {
        let told = io::stderr().is_terminal().then(Instant::now);
        Progress { what, all, done: 0, told, shown: false }
    }

    pub fn step(&mut self) {
        self.done += 1;
        if self.told.is_some_and(|told| told.elapsed() > PATIENCE) {
            eprint!("\r{}: {} of {}", self.what, self.done, self.all);
            self.told = Some(Instant::now());
            self.shown = true;
        }
    }
}

impl Drop for Progress {
    fn drop(&mut self) {
        if self.shown {
            // The line is cleared for what comes next.
            eprint!("\r\x1b[K");
        }
    }
}
