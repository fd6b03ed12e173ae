//! What is drawn: a box for each function, a row for each sentence and each call, an edge where a call meets a sentence.

use showclean::{Refusal, Verdict};

use crate::calls::{sites, Site};
use crate::cleaning::verdict;
use crate::program::{dispatches, Program, Sentence};
use crate::progress::Progress;
use crate::source::Source;
use crate::text::{pattern_text, sentence_text, terms_text};

#[derive(Debug)]
pub struct Drawing {
    pub title: String,
    pub root: usize,
    pub boxes: Vec<Panel>,
    pub edges: Vec<Edge>,
}

#[derive(Debug)]
pub struct Panel {
    pub name: String,
    pub note: &'static str,
    pub rows: Vec<Row>,
}

#[derive(Debug)]
pub struct Row {
    pub text: String,
    /// The whole sentence or call, where the row has only its beginning.
    pub whole: String,
    pub line: Option<usize>,
    pub sort: Sort,
    /// The sentence, or the one that holds the call, is removed.
    pub removed: bool,
}

#[derive(Clone, Copy, Debug, PartialEq, Eq)]
pub enum Sort {
    Sentence,
    Call,
    /// A call of a name that the program does not define.
    Outside,
    /// A call that no sentence can match.
    Uncovered,
    /// A call of `Mu` or `Up`.
    Dispatch,
}

#[derive(Clone, Copy, Debug, PartialEq, Eq)]
pub enum Meets {
    Overlap,
    Unknown,
    /// The argument holds a call or a block, so that it may be anything.
    Computed,
    /// No sentence can match.
    Nothing,
}

/// From a call's row to a sentence's, or to the whole box where the argument is computed or meets nothing.
#[derive(Debug, PartialEq, Eq)]
pub struct Edge {
    pub from: (usize, usize),
    pub to: (usize, Option<usize>),
    pub meets: Meets,
    pub removed: bool,
}

impl Drawing {
    pub fn of(
        program: &Program,
        kept: &[Vec<bool>],
        source: Option<&Source>,
        title: String,
    ) -> Result<Drawing, Refusal> {
        let maker = Maker { program, kept, source, sites: sites(program) };
        let mut drawing = Drawing { title, root: program.root(), boxes: Vec::new(), edges: Vec::new() };
        for (number, function) in program.functions.iter().enumerate() {
            let note = maker.note(number);
            drawing.boxes.push(Panel { name: function.name.clone(), note, rows: maker.rows(number) });
        }
        maker.connect(&mut drawing)?;
        Ok(drawing)
    }
}

struct Maker<'a> {
    program: &'a Program,
    kept: &'a [Vec<bool>],
    source: Option<&'a Source>,
    sites: Vec<Site<'a>>,
}

impl Maker<'_> {
    fn note(&self, number: usize) -> &'static str {
        let name = &self.program.functions[number].name;
        if number == self.program.root() {
            "root"
        } else if self.program.function_named(name) != Some(number) {
            "defined already"
        } else if !self.sites.iter().any(|site| site.name.eq_ignore_ascii_case(name)) {
            "never called"
        } else {
            ""
        }
    }

    /// A row for each sentence, and behind it one for each of its calls.
    fn rows(&self, function: usize) -> Vec<Row> {
        let mut rows = Vec::new();
        for (number, sentence) in self.program.functions[function].sentences.iter().enumerate() {
            let calls = self.sites.iter().filter(|site| (site.function, site.sentence) == (function, number));
            let calls: Vec<Row> = calls.map(|site| self.call_row(site)).collect();
            rows.push(self.sentence_row(sentence, !self.kept[function][number], calls.is_empty()));
            rows.extend(calls);
        }
        rows
    }

    fn sentence_row(&self, sentence: &Sentence, removed: bool, alone: bool) -> Row {
        let whole = one_line(&sentence_text(sentence, ""));
        let text = match alone {
            true => whole.trim_end_matches(';').to_owned(),
            false => one_line(&format!("{} =", pattern_text(sentence, ""))),
        };
        let line = self.source.and_then(|source| source.line(sentence.span)).map(|line| line.number);
        Row { text: text.trim().to_owned(), whole, line, sort: Sort::Sentence, removed }
    }

    fn call_row(&self, site: &Site) -> Row {
        let argument = terms_text(site.argument, "");
        let text = one_line(&format!("<{}>", format!("{} {argument}", site.name).trim_end()));
        let sort = match self.program.function_named(site.name) {
            _ if dispatches(site.name) => Sort::Dispatch,
            None => Sort::Outside,
            Some(_) => Sort::Call,
        };
        let removed = !self.kept[site.function][site.sentence];
        Row { whole: text.clone(), text, line: None, sort, removed }
    }

    /// Draws every call's edges, and marks calls that meet nothing.
    fn connect(&self, drawing: &mut Drawing) -> Result<(), Refusal> {
        let mut progress = Progress::new("calls compared with sentences", self.sites.len());
        for (site, row) in self.sites.iter().zip(call_rows(&self.program.functions, &self.sites)) {
            let from = (site.function, row);
            let before = drawing.edges.len();
            let callees = self.callees(site);
            for &callee in &callees {
                self.meet(site, from, callee, drawing)?;
            }
            if drawing.edges.len() == before && !callees.is_empty() {
                let removed = drawing.boxes[from.0].rows[from.1].removed;
                drawing.boxes[from.0].rows[from.1].sort = Sort::Uncovered;
                drawing.edges.push(Edge { from, to: (callees[0], None), meets: Meets::Nothing, removed });
            }
            progress.step();
        }
        Ok(())
    }

    /// All functions of the name that a site calls: cleaning looks at each.
    fn callees(&self, site: &Site) -> Vec<usize> {
        let functions = self.program.functions.iter().enumerate();
        functions
            .filter(|(_, function)| function.name.eq_ignore_ascii_case(site.name))
            .map(|(number, _)| number)
            .collect()
    }

    /// The edges of one call to one function of its name.
    fn meet(&self, site: &Site, from: (usize, usize), callee: usize, drawing: &mut Drawing) -> Result<(), Refusal> {
        let removed = drawing.boxes[from.0].rows[from.1].removed;
        if !site.is_plain() {
            drawing.edges.push(Edge { from, to: (callee, None), meets: Meets::Computed, removed });
            return Ok(());
        }
        let rows = drawing.boxes[callee].rows.iter().enumerate().filter(|(_, row)| row.sort == Sort::Sentence);
        for ((row, _), sentence) in rows.zip(&self.program.functions[callee].sentences) {
            let meets = match verdict(&sentence.pattern, site.argument)? {
                Verdict::Disjoint => continue,
                Verdict::Overlap => Meets::Overlap,
                Verdict::Unknown => Meets::Unknown,
            };
            drawing.edges.push(Edge { from, to: (callee, Some(row)), meets, removed });
        }
        Ok(())
    }
}

/// The row of each site in its function's box, where a sentence's row stands before those of its calls.
fn call_rows(functions: &[crate::program::Function], sites: &[Site]) -> Vec<usize> {
    let mut rows = Vec::new();
    for function in 0..functions.len() {
        let own = sites.iter().filter(|site| site.function == function);
        rows.extend(own.enumerate().map(|(before, site)| before + site.sentence + 1));
    }
    rows
}

/// A text with its line ends and indents as single blanks.
fn one_line(text: &str) -> String {
    let mut lines = text.lines().map(str::trim);
    let first = lines.next().unwrap_or_default().to_owned();
    lines.fold(first, |line, next| line + " " + next)
}

#[cfg(test)]
mod tests {
    use super::*;
    use crate::text::program_of;

    fn drawn(text: &str) -> Drawing {
        let program = program_of(text.as_bytes()).expect("a right text");
        let kept: Vec<Vec<bool>> =
            program.functions.iter().map(|function| vec![true; function.sentences.len()]).collect();
        Drawing::of(&program, &kept, None, String::new()).expect("an accepted program")
    }

    #[test]
    fn calls_meet_the_sentences_that_they_can_choose() {
        let drawing =
            drawn("Go { = <F 'A'> <F (<F>)>; 'x' = <P>; } F { 'A' = ; () = ; e.X = <F 'C' e.X>; } f { 'B' = 1; }");
        let edges: Vec<_> = drawing.edges.iter().map(|edge| (edge.from, edge.to, edge.meets)).collect();
        let met = |from, to| (from, to, Meets::Overlap);
        assert_eq!(
            edges,
            [
                met((0, 1), (1, Some(0))),
                met((0, 1), (1, Some(2))),
                ((0, 2), (1, None), Meets::Computed),
                ((0, 2), (2, None), Meets::Computed),
                met((0, 3), (1, Some(2))),
                met((1, 3), (1, Some(2))),
            ]
        );
        assert_eq!(drawing.boxes[0].rows[5].sort, Sort::Outside);
        assert_eq!(
            [drawing.boxes[0].note, drawing.boxes[1].note, drawing.boxes[2].note],
            ["root", "", "defined already"]
        );
        assert_eq!(drawing.boxes[2].rows[0].text, "'B' = 1");
    }

    #[test]
    fn a_call_that_meets_nothing_is_marked() {
        let drawing = drawn("Go { = <F 'B'>; } F { 'A' = ; }");
        assert_eq!(drawing.boxes[0].rows[1].sort, Sort::Uncovered);
        assert_eq!(drawing.edges, [Edge { from: (0, 1), to: (1, None), meets: Meets::Nothing, removed: false }]);
    }
}
