//! The show cleaner, safe to call: slices in, a `Result` out. No heap, no standard library.
#![no_std]

mod refusal;

pub use refusal::{words, Place, Refusal};

/// The longest image that is not refused for its size.
pub const LARGEST_IMAGE: usize = 32768;

/// So many bytes are enough for every expression that `overlap_expression` writes.
pub const EXPRESSION_ROOM: usize = 131_072;

/// The entries of work that an image of so many bytes needs.
pub const fn work_needed(image: usize) -> usize {
    image.div_ceil(4)
}

/// How much of the lent output and of the lent report was written.
#[derive(Clone, Copy, Debug, PartialEq, Eq)]
pub struct Cleaned {
    pub output: usize,
    pub report: usize,
}

#[derive(Clone, Copy, Debug, PartialEq, Eq)]
pub enum Verdict {
    /// Nothing matches both patterns.
    Disjoint,
    /// Something matches both, each occurrence of a variable read by itself.
    Overlap,
    /// 4,096 entries were not enough to tell.
    Unknown,
}

/// The verdict, and the entries that the outermost pair spent.
#[derive(Clone, Copy, Debug, PartialEq, Eq)]
pub struct Compared {
    pub verdict: Verdict,
    pub spent: u32,
}

/// The same, and how much of the lent expression was written: nothing unless the verdict is Overlap.
#[derive(Clone, Copy, Debug, PartialEq, Eq)]
pub struct Shared {
    pub verdict: Verdict,
    pub spent: u32,
    pub length: usize,
}

// A slice goes as its pointer and its length.
extern "C" {
    fn showclean_clean(
        image: *const u8,
        image_length: usize,
        output: *mut u8,
        output_length: usize,
        work: *mut u32,
        work_length: usize,
        report: *mut u8,
        report_length: usize,
    ) -> u64;
    fn showclean_overlap(image: *const u8, image_length: usize, first: usize, second: usize) -> u64;
    fn showclean_overlap_expression(
        image: *const u8,
        image_length: usize,
        first: usize,
        second: usize,
        expression: *mut u8,
        expression_length: usize,
    ) -> u64;
}

/// The parts of an answer that was not refused: bits 8 to 23, and 24 to 63.
fn parts(answer: u64) -> Result<(usize, u64), Refusal> {
    let (number, rest) = ((answer & 0xff) as u8, answer >> 24);
    match number {
        0 => Ok(((answer >> 8 & 0xffff) as usize, rest)),
        _ => Err(Refusal { number, place: rest }),
    }
}

/// Removes the sentences that no call can reach; the cleaned image and the report are at the beginnings of what is lent.
///
/// ```
/// let image = [0; 12];
/// let (mut output, mut work, mut report) = ([0; 12], [0; showclean::work_needed(12)], [0; 200]);
/// let cleaned = showclean::clean(&image, &mut output, &mut work, &mut report)?;
/// assert_eq!(output[..cleaned.output], image);
/// assert!(report[..cleaned.report].ends_with(b"graph: empty\n"));
/// # Ok::<(), showclean::Refusal>(())
/// ```
pub fn clean(image: &[u8], output: &mut [u8], work: &mut [u32], report: &mut [u8]) -> Result<Cleaned, Refusal> {
    // SAFETY: each pointer and length are those of one slice, and no two slices share memory.
    let answer = unsafe {
        showclean_clean(
            image.as_ptr(),
            image.len(),
            output.as_mut_ptr(),
            output.len(),
            work.as_mut_ptr(),
            work.len(),
            report.as_mut_ptr(),
            report.len(),
        )
    };
    let (output, report) = parts(answer)?;
    Ok(Cleaned { output, report: report as usize })
}

/// Compares the patterns of two sentences, numbered in file order from 0.
pub fn overlap(image: &[u8], first: usize, second: usize) -> Result<Compared, Refusal> {
    // SAFETY: the pointer and the length are those of one slice.
    let answer = unsafe { showclean_overlap(image.as_ptr(), image.len(), first, second) };
    let (verdict, spent) = parts(answer)?;
    Ok(Compared { verdict: verdict_of(verdict), spent: spent as u32 })
}

fn verdict_of(number: usize) -> Verdict {
    match number {
        0 => Verdict::Disjoint,
        1 => Verdict::Overlap,
        _ => Verdict::Unknown,
    }
}

/// The same, and writes one expression that matches both patterns if their verdict is Overlap: image records with zero
/// spans, and no close at the end. Each occurrence of a variable is read by itself.
pub fn overlap_expression(image: &[u8], first: usize, second: usize, expression: &mut [u8]) -> Result<Shared, Refusal> {
    // SAFETY: each pointer and length are those of one slice, and the two slices share no memory.
    let answer = unsafe {
        showclean_overlap_expression(
            image.as_ptr(),
            image.len(),
            first,
            second,
            expression.as_mut_ptr(),
            expression.len(),
        )
    };
    let (middle, length) = parts(answer)?;
    Ok(Shared { verdict: verdict_of(middle & 3), spent: middle as u32 >> 2, length: length as usize })
}

/// Whether an image is accepted, with no memory lent.
pub fn check(image: &[u8]) -> Result<(), Refusal> {
    // No accepted image has that many sentences, and of the refusals 13 is the last to be tested.
    match overlap(image, usize::MAX, usize::MAX) {
        Err(Refusal { number: Refusal::NO_SENTENCE, .. }) => Ok(()),
        answer => answer.map(|_| ()),
    }
}
