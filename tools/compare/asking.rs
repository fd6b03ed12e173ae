//! What both entry points must answer about an image, and whether they do.

use refal_core::{CleanReport, CoreProgram, clean_residual_program};

use crate::dice::Dice;
use crate::lent::{self, Lengths};
use crate::program::Program;
use crate::reader::{LARGEST_IMAGE, Refusal, SMALLEST_IMAGE, read};

/// Why an answer is not the expected one.
pub type Compared<T> = Result<T, String>;

/// The most rounds that are counted apart.
const MOST_ROUNDS: usize = 4;

/// The images, what the Rust reports on them, and the questions by the number answered.
#[derive(Default)]
pub struct Counts {
    pub images: usize,
    pub accepted: usize,
    pub refused: [usize; 14],
    pub shortened: usize,
    pub largest: usize,
    pub bytes: usize,
    pub rounds: [usize; MOST_ROUNDS + 1],
    pub undecided: usize,
    pub uncovered: usize,
    pub uncharacterised: usize,
    pub clean: [usize; 14],
    pub overlap: [usize; 14],
    pub verdicts: [usize; 3],
}

/// What the Rust makes of an accepted image; the report's last line is as document 02 asks for it.
struct Reference {
    program: CoreProgram,
    cleaned: Vec<u8>,
    report: Vec<u8>,
    lists: CleanReport,
}

impl Reference {
    fn of(image: &[u8]) -> Reference {
        let program = oracle::program_of(image);
        let (cleaned, lists) = clean_residual_program(&program);
        Reference {
            cleaned: oracle::image_of(&cleaned),
            report: oracle::text_of(&lists).into_bytes(),
            program,
            lists,
        }
    }

    fn note(&self, counts: &mut Counts) {
        counts.rounds[self.lists.rounds.min(MOST_ROUNDS)] += 1;
        counts.undecided += !self.lists.undecided.is_empty() as usize;
        counts.uncovered += !self.lists.uncovered.is_empty() as usize;
        counts.uncharacterised += !self.lists.uncharacterised.is_empty() as usize;
    }
}

/// An image with the second reader's and the Rust's answers.
struct Question<'a> {
    image: &'a [u8],
    read: Result<(Program, Reference), Refusal>,
}

/// Asks everything about one image.
pub fn ask(image: &[u8], dice: &mut Dice, counts: &mut Counts) -> Compared<()> {
    let read = read(image).map(|program| (program, Reference::of(image)));
    let question = Question { image, read };
    question.note(counts);
    for lengths in question.lengths(dice) {
        question.ask_clean(lengths, dice, counts)?;
    }
    for (first, second) in question.pairs(dice) {
        question.ask_overlap(first, second, counts)?;
    }
    Ok(())
}

impl Question<'_> {
    fn note(&self, counts: &mut Counts) {
        counts.images += 1;
        counts.bytes += self.image.len();
        counts.largest = counts.largest.max(self.image.len());
        match &self.read {
            Ok((_, reference)) => {
                counts.accepted += 1;
                counts.shortened += (reference.cleaned.len() < self.image.len()) as usize;
                reference.note(counts);
            }
            Err(refusal) => counts.refused[refusal.number as usize] += 1,
        }
    }

    // ---------------------------------------------------------------- Clean

    /// Each length at and around its limit with the others exact, and some of all mixed.
    fn lengths(&self, dice: &mut Dice) -> Vec<Lengths> {
        let size = self.image.len();
        let entries = size.div_ceil(4);
        let needed = self
            .read
            .as_ref()
            .map_or(100, |(_, reference)| reference.report.len());
        let outputs = [size, size.saturating_sub(1), size + 3];
        let works = [entries, entries.saturating_sub(1), entries + 5];
        let reports = [needed, needed - 1, 0, needed + 7];
        let at = |output: usize, work: usize, report: usize| Lengths {
            output: outputs[output],
            work: works[work],
            report: reports[report],
        };
        let mut asked = vec![at(0, 0, 0)];
        if self.read.is_ok() {
            asked.extend([at(1, 0, 0), at(2, 0, 0), at(0, 1, 0), at(0, 2, 0)]);
            asked.extend([at(0, 0, 1), at(0, 0, 2), at(0, 0, 3)]);
        }
        for _ in 0..2 {
            asked.push(at(
                dice.between(0, 2),
                dice.between(0, 2),
                dice.between(0, 3),
            ));
        }
        asked
    }

    /// The refusal that is due; otherwise the cleaned image and the report are.
    fn clean_expected(&self, lent: Lengths) -> Result<&Reference, Refusal> {
        let refused = |number, place| Err(Refusal { number, place });
        let size = self.image.len();
        if !(SMALLEST_IMAGE..=LARGEST_IMAGE).contains(&size) {
            return refused(1, 0);
        }
        if lent.output < size {
            return refused(2, 0);
        }
        if lent.work < size.div_ceil(4) {
            return refused(3, 0);
        }
        let (_, reference) = self.read.as_ref().map_err(|refusal| *refusal)?;
        match reference.report.len() > lent.report {
            true => refused(12, reference.report.len()),
            false => Ok(reference),
        }
    }

    fn ask_clean(&self, lent: Lengths, dice: &mut Dice, counts: &mut Counts) -> Compared<()> {
        let copy = self.image.to_vec();
        let answer = lent::clean(&copy, lent, dice);
        let told = |what: &str| format!("Clean, lent {lent:?}: {what}; answer {:#x}", answer.word);
        let (word, output, report, zero) = match self.clean_expected(lent) {
            Ok(Reference {
                cleaned, report, ..
            }) => {
                let word = lent::done(cleaned.len(), report.len());
                (word, &cleaned[..], &report[..], true)
            }
            Err(Refusal { number, place }) => {
                (lent::refused(number, place), &[][..], &[][..], number == 12)
            }
        };
        if answer.word != word {
            return Err(told(&format!("expected {word:#x}")));
        }
        let work_right = if zero {
            answer.work.zero()
        } else {
            answer.work.unchanged()
        };
        let checks = [
            (answer.output.only(output), "the output is another"),
            (answer.report.only(report), "the report is another"),
            (work_right, "the work is another"),
            (copy == self.image, "the image has changed"),
        ];
        if let Some((_, what)) = checks.iter().find(|(right, _)| !right) {
            return Err(told(what));
        }
        counts.clean[(word & 0xff) as usize] += 1;
        Ok(())
    }

    // -------------------------------------------------------------- Overlap

    fn sentence_count(&self) -> usize {
        self.read
            .as_ref()
            .map_or(0, |(program, _)| program.own_sentences())
    }

    /// Pairs of sentences, and numbers that no sentence has.
    fn pairs(&self, dice: &mut Dice) -> Vec<(usize, usize)> {
        let count = self.sentence_count();
        let above = dice.pick(&[count, count, count + 1, 65_536 + count, usize::MAX]);
        let any = if count > 0 {
            dice.between(0, count - 1)
        } else {
            0
        };
        let mut pairs = vec![dice.pick(&[(above, any), (any, above), (above, above)])];
        if count > 0 {
            for _ in 0..4 {
                pairs.push((dice.between(0, count - 1), dice.between(0, count - 1)));
            }
        }
        pairs
    }

    fn ask_overlap(&self, first: usize, second: usize, counts: &mut Counts) -> Compared<()> {
        let answer = lent::overlap(self.image, first, second);
        let count = self.sentence_count();
        let word = match &self.read {
            Err(refusal) => lent::refused(refusal.number, refusal.place),
            Ok(_) if first >= count || second >= count => lent::refused(13, 0),
            Ok((_, reference)) => {
                let (verdict, spent) = oracle::overlap_of(&reference.program, first, second);
                counts.verdicts[verdict as usize] += 1;
                lent::done(verdict as usize, spent as usize)
            }
        };
        if answer != word {
            let told = format!("Overlap of {first} and {second}: {answer:#x}, expected {word:#x}");
            return Err(told);
        }
        counts.overlap[(word & 0xff) as usize] += 1;
        Ok(())
    }
}
