//! The static library's entry points, with lent memory that is looked at afterwards.

use crate::boundary::{showclean_clean, showclean_overlap};
use crate::dice::Dice;

/// What stands on either side of lent memory and must not change either.
const MARGIN: usize = 16;

/// The lengths lent to Clean, in bytes, entries and bytes.
#[derive(Clone, Copy, Debug, PartialEq)]
pub struct Lengths {
    pub output: usize,
    pub work: usize,
    pub report: usize,
}

/// Bytes as they were before a call, and as they are after it, margins included.
pub struct Bytes {
    before: Vec<u8>,
    after: Vec<u8>,
}

impl Bytes {
    fn random(length: usize, dice: &mut Dice) -> Bytes {
        let mut before = vec![0; length + 2 * MARGIN];
        dice.fill(&mut before);
        let after = before.clone();
        Bytes { before, after }
    }

    fn lent(&mut self) -> &mut [u8] {
        let end = self.after.len() - MARGIN;
        &mut self.after[MARGIN..end]
    }

    /// What was lent.
    pub fn now(&self) -> &[u8] {
        &self.after[MARGIN..self.after.len() - MARGIN]
    }

    /// Whether these bytes stand at the beginning, and all the rest is as before.
    pub fn only(&self, written: &[u8]) -> bool {
        let end = MARGIN + written.len();
        self.after[MARGIN..].starts_with(written)
            && self.after[..MARGIN] == self.before[..MARGIN]
            && self.after[end..] == self.before[end..]
    }
}

/// Work entries as they were before a call, and as they are after it, margins included.
pub struct Work {
    before: Vec<u32>,
    after: Vec<u32>,
}

impl Work {
    fn random(length: usize, dice: &mut Dice) -> Work {
        let before: Vec<u32> = (0..length + 2 * MARGIN)
            .map(|_| dice.next() as u32)
            .collect();
        let after = before.clone();
        Work { before, after }
    }

    pub fn unchanged(&self) -> bool {
        self.after == self.before
    }

    pub fn zero(&self) -> bool {
        let end = self.after.len() - MARGIN;
        self.after[MARGIN..end].iter().all(|entry| *entry == 0)
            && self.after[..MARGIN] == self.before[..MARGIN]
            && self.after[end..] == self.before[end..]
    }
}

/// What a call of Clean answered and left behind.
pub struct Answer {
    pub word: u64,
    pub output: Bytes,
    pub work: Work,
    pub report: Bytes,
}

pub fn clean(image: &[u8], lengths: Lengths, dice: &mut Dice) -> Answer {
    let mut output = Bytes::random(lengths.output, dice);
    let mut work = Work::random(lengths.work, dice);
    let mut report = Bytes::random(lengths.report, dice);
    let entries = &mut work.after[MARGIN..MARGIN + lengths.work];
    // SAFETY: each pointer and length are those of one slice, and no two slices share memory.
    let word = unsafe {
        showclean_clean(
            image.as_ptr(),
            image.len(),
            output.lent().as_mut_ptr(),
            lengths.output,
            entries.as_mut_ptr(),
            lengths.work,
            report.lent().as_mut_ptr(),
            lengths.report,
        )
    };
    Answer {
        word,
        output,
        work,
        report,
    }
}

pub fn overlap(image: &[u8], first: usize, second: usize) -> u64 {
    // SAFETY: the pointer and the length are those of one slice.
    unsafe { showclean_overlap(image.as_ptr(), image.len(), first, second) }
}

/// An answer that is no refusal: bits 8 to 23, and bits 24 and above.
pub fn done(middle: usize, upper: usize) -> u64 {
    (middle as u64) << 8 | (upper as u64) << 24
}

/// A refusal: its number, and its place from bit 24.
pub fn refused(number: u8, place: usize) -> u64 {
    number as u64 | (place as u64) << 24
}
