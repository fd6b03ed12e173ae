//! The stack that an entry point takes, by painting it first (x86-64).

use std::arch::asm;
use std::hint::black_box;
use std::time::Duration;

use crate::library::{self, Lent};
use crate::measure::{STACK, capped};

const PAINT: u64 = 0x5a5a_a5a5_3c3c_c3c3;
const WORD: usize = size_of::<u64>();
/// The thread's own frames, and the guard below them, have the rest.
const PAINTED: usize = STACK - (1 << 20);

pub fn print(entry: &str, image: Vec<u8>, cap: Duration) {
    let entry: fn(&[u8], &mut Lent) = match entry {
        "clean" => clean,
        "overlap" => overlap,
        other => panic!("no entry point {other}"),
    };
    match capped(cap, move || overwritten(&image, &mut Lent::new(), entry)) {
        Some(bytes) => println!("stack {bytes}"),
        None => println!("stack over"),
    }
}

fn clean(image: &[u8], lent: &mut Lent) {
    black_box(library::clean_answer(image, lent));
}

fn overlap(image: &[u8], _: &mut Lent) {
    black_box(library::overlap_answer(
        image,
        0,
        library::last_sentence(image),
    ));
}

/// How far below this frame the call wrote.
#[inline(never)]
fn overwritten(image: &[u8], lent: &mut Lent, entry: fn(&[u8], &mut Lent)) -> usize {
    let top: usize;
    // SAFETY: it only reads the stack pointer.
    unsafe { asm!("mov {}, rsp", out(reg) top, options(nomem, nostack)) };
    let bottom = top - PAINTED;
    let mut place = bottom;
    while place < top {
        // SAFETY: the thread's stack, below the only frame in use.
        unsafe { (place as *mut u64).write_volatile(PAINT) };
        place += WORD;
    }
    entry(image, lent);
    place = bottom;
    // SAFETY: as above; the word at the top was written by the call itself.
    while place < top && unsafe { (place as *const u64).read_volatile() } == PAINT {
        place += WORD;
    }
    top - place
}
