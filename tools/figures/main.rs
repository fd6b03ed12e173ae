//! Measures the Rust that document 01 names and the static library on one image.
//!
//!     figures clean IMAGE CAP PATIENCE      the seconds of each, and whether they agree
//!     figures overlap IMAGE CAP PATIENCE    the same for the first sentence against the last
//!     figures stack ENTRY IMAGE CAP         the bytes of stack that an entry point takes
//!     figures once IMAGE                    one call of Clean, for counting instructions
//!
//! CAP is how many seconds the library may take, PATIENCE the same for the Rust,
//! which is not asked at all if it is 0; what takes longer is given up, and told as
//! `over`. ENTRY is `clean` or `overlap`. Each line of an answer is a word and its
//! value, of which tools/figures/run.py makes tables.

#[path = "../boundary.rs"]
mod boundary;
mod library;
mod measure;
mod stack;

use std::env;
use std::fs;
use std::process;
use std::time::Duration;

use refal_core::clean_residual_program;

use library::Lent;
use measure::{capped, typical_seconds};

/// A cleaned image and its report.
type Written = (Vec<u8>, Vec<u8>);
/// A side of the comparison: its seconds and its answer on an image.
type Side<T> = fn(&[u8]) -> (f64, T);

fn main() {
    let words: Vec<String> = env::args().skip(1).collect();
    let words: Vec<&str> = words.iter().map(String::as_str).collect();
    match words[..] {
        ["clean", path, cap, patience] => print_clean(&read(path), seconds(cap), seconds(patience)),
        ["overlap", path, cap, patience] => {
            let image = read(path);
            print_both(
                &image,
                (overlap_reference, seconds(patience)),
                (overlap_ours, seconds(cap)),
            );
        }
        ["stack", entry, path, cap] => stack::print(entry, read(path), seconds(cap)),
        ["once", path] => println!("{:?}", library::clean(&read(path), &mut Lent::new())),
        _ => panic!("no such words; they are at the top of main.rs"),
    }
    // A thread that was given up may still run.
    process::exit(0);
}

fn read(path: &str) -> Vec<u8> {
    fs::read(path).expect("an image")
}

fn seconds(word: &str) -> Duration {
    Duration::from_secs_f64(word.parse().expect("seconds"))
}

fn print_clean(image: &[u8], cap: Duration, patience: Duration) {
    let ours = print_both(image, (clean_reference, patience), (clean_ours, cap));
    if let Some((_, report)) = ours {
        println!("report {}", report.len());
    }
}

/// The Rust comes first: it is not asked where it would not end, and then nothing else runs.
fn print_both<T: PartialEq + Send + 'static>(
    image: &[u8],
    reference: (Side<T>, Duration),
    ours: (Side<T>, Duration),
) -> Option<T> {
    let theirs = print_side("reference", image, reference);
    let ours = print_side("ours", image, ours);
    if theirs.is_some() && ours.is_some() {
        println!("agree {}", theirs == ours);
    }
    ours
}

fn print_side<T: Send + 'static>(
    name: &str,
    image: &[u8],
    (side, cap): (Side<T>, Duration),
) -> Option<T> {
    if cap.is_zero() {
        return None;
    }
    let image = image.to_vec();
    let answer = capped(cap, move || side(&image));
    match &answer {
        Some((seconds, _)) => println!("{name} {seconds}"),
        None => println!("{name} over"),
    }
    answer.map(|(_, value)| value)
}

/// The cleaning alone: decoding, encoding and the report's text are not timed.
fn clean_reference(image: &[u8]) -> (f64, Written) {
    let program = oracle::program_of(image);
    let (seconds, (cleaned, report)) = typical_seconds(|| clean_residual_program(&program));
    let written = (
        oracle::image_of(&cleaned),
        oracle::text_of(&report).into_bytes(),
    );
    (seconds, written)
}

/// All of Clean: reading, cleaning, report, output, clearing.
fn clean_ours(image: &[u8]) -> (f64, Written) {
    let mut lent = Lent::new();
    let (seconds, lengths) = typical_seconds(|| library::clean(image, &mut lent));
    lent.output.truncate(lengths.output);
    lent.report.truncate(lengths.report);
    (seconds, (lent.output, lent.report))
}

/// The search alone; the answer is the verdict and the entries spent.
fn overlap_reference(image: &[u8]) -> (f64, (u64, u64)) {
    let program = oracle::program_of(image);
    let last = library::last_sentence(image);
    typical_seconds(|| oracle::overlap_of(&program, 0, last))
}

/// All of Overlap: reading, finding the sentences, the search.
fn overlap_ours(image: &[u8]) -> (f64, (u64, u64)) {
    let last = library::last_sentence(image);
    typical_seconds(|| library::overlap(image, 0, last))
}
