//! The static library's entry points, called as C functions.

use crate::boundary::{showclean_clean, showclean_overlap};

const LARGEST_IMAGE: usize = 32768;
/// The longest report of the images here has about 1.5 million bytes.
const LARGEST_REPORT: usize = 1 << 22;

/// What a caller of Clean lends.
pub struct Lent {
    pub output: Vec<u8>,
    pub work: Vec<u32>,
    pub report: Vec<u8>,
}

impl Lent {
    pub fn new() -> Lent {
        Lent {
            output: vec![0; LARGEST_IMAGE],
            work: vec![0; LARGEST_IMAGE / 4],
            report: vec![0; LARGEST_REPORT],
        }
    }
}

#[derive(Debug)]
pub struct Lengths {
    pub output: usize,
    pub report: usize,
}

/// Clean as it answers: output as long as the image, and no more work than it needs.
pub fn clean_answer(image: &[u8], lent: &mut Lent) -> u64 {
    let entries = image.len().div_ceil(4);
    // SAFETY: each pointer is a slice's own, with the length of that slice or less.
    unsafe {
        showclean_clean(
            image.as_ptr(),
            image.len(),
            lent.output.as_mut_ptr(),
            image.len(),
            lent.work.as_mut_ptr(),
            entries,
            lent.report.as_mut_ptr(),
            lent.report.len(),
        )
    }
}

pub fn overlap_answer(image: &[u8], first: usize, second: usize) -> u64 {
    // SAFETY: the pointer and the length are those of one slice.
    unsafe { showclean_overlap(image.as_ptr(), image.len(), first, second) }
}

pub fn clean(image: &[u8], lent: &mut Lent) -> Lengths {
    let (output, report) = unpacked(clean_answer(image, lent));
    Lengths {
        output: output as usize,
        report: report as usize,
    }
}

/// The verdict (0 Disjoint, 1 Overlap, 2 Unknown) and the entries spent.
pub fn overlap(image: &[u8], first: usize, second: usize) -> (u64, u64) {
    unpacked(overlap_answer(image, first, second))
}

/// The number of the last sentence, which the trailer's last field tells; 0 where there is none.
pub fn last_sentence(image: &[u8]) -> usize {
    let Some(count) = image.last_chunk() else {
        return 0;
    };
    usize::from(u16::from_le_bytes(*count)).saturating_sub(1)
}

/// Bits 8 to 23 and bits 24 to 63, where bits 0 to 7 are no refusal.
fn unpacked(answer: u64) -> (u64, u64) {
    assert_eq!(answer & 0xff, 0, "refused at {}", answer >> 24);
    (answer >> 8 & 0xffff, answer >> 24)
}
