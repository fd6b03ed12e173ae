//! The one table of wanted departures: where document 02 asks for answers that are not the Rust's.
//!
//! Every answer that a corpus stores or a comparison expects comes from the Rust through this table: `prepare.rs`
//! makes the replaced lines, and the driver (`main.rs`) the last lines of reports. A new departure is a row here;
//! then the corpora, examples and stored outputs are made again (docs/PROOF-GUIDE.md, "What else moves").

/// One request's departure.
pub struct Departure {
    /// The request's number in document 02.
    pub request: u8,
    pub changes: &'static str,
    pub made: Made,
}

/// How the answers that are stored and compared with are made.
pub enum Made {
    /// A line of refal-core is replaced before it is compiled.
    Line { old: &'static str, new: &'static str },
    /// The report's last line is the one that this gives, if it gives one.
    LastLine(fn(&Figures) -> Option<String>),
}

/// What last lines depend on: the counts of the Rust's report.
pub struct Figures {
    pub functions: usize,
    pub undecided: usize,
    pub uncovered: usize,
    pub uncharacterised: usize,
    pub dynamic_dispatch: bool,
}

pub const DEPARTURES: &[Departure] = &[
    Departure {
        request: 3,
        changes: "verdicts, and so cleaned images and reports, of programs with leading zeros in numbers",
        made: Made::Line {
            old: "(Number(left), Number(right)) => Some(left == right),",
            new: "(Number(left), Number(right)) => Some(left.trim_start_matches('0') == right.trim_start_matches('0')),",
        },
    },
    Departure {
        request: 4,
        changes: "the last line of reports on programs without functions",
        made: Made::LastLine(empty),
    },
    Departure {
        request: 7,
        changes: "the last line of reports with uncharacterised functions",
        made: Made::LastLine(untested),
    },
];

/// The request that changes a report's last line, and the line; the first in the table decides.
pub fn departing_line(figures: &Figures) -> Option<(u8, String)> {
    DEPARTURES.iter().find_map(|departure| match departure.made {
        Made::LastLine(line) => Some((departure.request, line(figures)?)),
        Made::Line { .. } => None,
    })
}

/// "It should end its report with `graph: empty`, declarations or not"
fn empty(figures: &Figures) -> Option<String> {
    (figures.functions == 0).then(|| "graph: empty\n".to_owned())
}

/// "If the list is not empty and there is no dynamic dispatch"
fn untested(figures: &Figures) -> Option<String> {
    let Figures { undecided, uncovered, uncharacterised, .. } = figures;
    let departs = *uncharacterised > 0 && !figures.dynamic_dispatch;
    departs.then(|| format!("graph: clean (undecided {undecided}, uncovered {uncovered}, uncharacterised {uncharacterised})\n"))
}
