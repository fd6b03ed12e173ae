//! Compares the static library with the Rust that document 01 names, on random images.
//!
//!     compare images COUNT SEED    Clean and Overlap against the Rust and a second reader
//!     compare runs COUNT SEED      runs of raw and cleaned programs against each other
//!
//! Image number I of seed S is image number 0 of seed S + I. The first difference is
//! printed with its seed and its image, and ends the program with 1.

mod asking;
#[path = "../boundary.rs"]
mod boundary;
mod damage;
mod dice;
mod interpreter;
mod lent;
mod maker;
mod program;
mod reader;
mod runs;

use std::env;
use std::fmt::Display;
use std::process;
use std::sync::atomic::{AtomicU64, Ordering};
use std::thread;
use std::time::{Duration, Instant};

use dice::Dice;
use maker::{FAULTS, Fault, Habits, Maker};

/// The searches and the runs recurse.
const STACK: usize = 512 << 20;
/// No image here should take that long.
const PATIENCE: Duration = Duration::from_secs(60);
const TOLD_EVERY: u64 = 50_000;

/// The seed in hand, for the watch.
static SEED: AtomicU64 = AtomicU64::new(0);

fn main() {
    let words: Vec<String> = env::args().skip(1).collect();
    let [mode, count, seed] = &words[..] else {
        panic!("the words are at the top of main.rs");
    };
    let count: u64 = count.parse().expect("a count");
    let seed: u64 = seed.parse().expect("a seed");
    let work: Box<dyn FnOnce() + Send> = match mode.as_str() {
        "images" => Box::new(move || compare_images(count, seed)),
        "runs" => Box::new(move || compare_runs(count, seed)),
        _ => panic!("no such comparison"),
    };
    thread::spawn(watch);
    let spawned = thread::Builder::new().stack_size(STACK).spawn(work);
    let ended = spawned.expect("a thread").join();
    process::exit(ended.is_err() as i32);
}

/// Tells of a seed that takes too long, and gives up.
fn watch() {
    loop {
        let seed = SEED.load(Ordering::Relaxed);
        thread::sleep(PATIENCE);
        if seed == SEED.load(Ordering::Relaxed) {
            println!("seed {seed}: given up after {} seconds", PATIENCE.as_secs());
            process::exit(2);
        }
    }
}

// --------------------------------------------------------------------- images

/// Images whose searches end just before or after their fuel, which random ones rarely do.
fn compare_edges() {
    let mut counts = asking::Counts::default();
    for before in 62..=66 {
        for levels in 0..=1 {
            let image = program::encode(&maker::edge(before, levels));
            if let Err(what) = asking::ask(&image, &mut Dice::new(0), &mut counts) {
                differ(&what, &image);
            }
        }
    }
    line("images at the fuel's edge", counts.images);
}

fn compare_images(count: u64, first: u64) {
    compare_edges();
    let mut counts = asking::Counts::default();
    let start = Instant::now();
    for number in 0..count {
        let mut dice = begin(first.wrapping_add(number), number);
        let image = any_image(&mut dice);
        if let Err(what) = asking::ask(&image, &mut dice, &mut counts) {
            differ(&what, &image);
        }
    }
    print_images(&counts);
    line("seconds", start.elapsed().as_secs());
}

fn begin(seed: u64, number: u64) -> Dice {
    SEED.store(seed, Ordering::Relaxed);
    if number > 0 && number % TOLD_EVERY == 0 {
        eprintln!("{number} compared");
    }
    Dice::new(seed)
}

fn differ(what: &str, image: &[u8]) -> ! {
    let hex: String = image.iter().map(|byte| format!("{byte:02x}")).collect();
    println!(
        "difference at seed {}: {what}",
        SEED.load(Ordering::Relaxed)
    );
    println!("image {hex}");
    process::exit(1);
}

/// Good, faulty and damaged images, few of them large.
fn any_image(dice: &mut Dice) -> Vec<u8> {
    let most_functions = match dice.between(1, 1000) {
        1..=2 => 90,
        3..=30 => 25,
        _ => 5,
    };
    let habits = Habits {
        unbound: 10,
        lenient: 5,
        most_functions,
    };
    match dice.between(1, 200) {
        1..=20 => {
            let fault = dice.pick(&FAULTS);
            image_of(Maker::new(dice, fault, habits))
        }
        21..=60 => {
            let image = image_of(Maker::new(dice, Fault::None, habits));
            damage::damaged(&image, dice)
        }
        61..=63 => program::encode(&maker::greedy(dice)),
        _ => image_of(Maker::new(dice, Fault::None, habits)),
    }
}

fn image_of(maker: Maker) -> Vec<u8> {
    program::encode(&maker.program())
}

fn print_images(counts: &asking::Counts) {
    line("images", counts.images);
    line("bytes", counts.bytes);
    line("largest image", counts.largest);
    line("accepted", counts.accepted);
    print_numbers("refused", &counts.refused);
    line("cleaning removed something", counts.shortened);
    print_numbers("rounds (the last: or more)", &counts.rounds);
    line("with undecided sentences", counts.undecided);
    line("with uncovered restrictions", counts.uncovered);
    line("with uncharacterised functions", counts.uncharacterised);
    line("questions to Clean", counts.clean.iter().sum::<usize>());
    print_numbers("Clean answered", &counts.clean);
    line("questions to Overlap", counts.overlap.iter().sum::<usize>());
    print_numbers("Overlap answered", &counts.overlap);
    for (name, count) in ["Disjoint", "Overlap", "Unknown"]
        .iter()
        .zip(counts.verdicts)
    {
        line(&format!("verdict {name}"), count);
    }
    line("differences", 0);
}

fn print_numbers(what: &str, counts: &[usize]) {
    for (number, count) in counts.iter().enumerate().filter(|(_, count)| **count > 0) {
        line(&format!("{what} {number}"), count);
    }
}

fn line(what: &str, count: impl Display) {
    println!("{what}: {count}");
}

// ----------------------------------------------------------------------- runs

fn compare_runs(count: u64, first: u64) {
    let mut counts = runs::Counts::default();
    let start = Instant::now();
    let mut number = 0;
    while (counts.runs as u64) < count {
        let mut dice = begin(first.wrapping_add(number), number);
        let habits = Habits {
            unbound: 3,
            lenient: 40,
            most_functions: dice.pick(&[3, 5, 5, 8]),
        };
        let image = image_of(Maker::new(&mut dice, Fault::None, habits));
        if image.len() <= reader::LARGEST_IMAGE {
            if let Err(what) = runs::ask(&image, &mut dice, &mut counts) {
                differ(&what, &image);
            }
        }
        number += 1;
    }
    print_runs(&counts);
    line("seconds", start.elapsed().as_secs());
}

fn print_runs(counts: &runs::Counts) {
    line("programs", counts.programs);
    line(
        "programs from which something was removed",
        counts.shortened_programs,
    );
    line("runs", counts.runs);
    line("runs on those", counts.shortened_runs);
    line("runs that entered a shortened function", counts.met_runs);
    line("left out, because they take too long", counts.given_up);
    for (name, count) in runs::ENDINGS.iter().zip(counts.endings) {
        line(&format!("ended with {name}"), count);
    }
    line("events", counts.calls + counts.chosen);
    line("calls entered", counts.calls);
    line("sentences chosen", counts.chosen);
    line("most events of a run", counts.longest);
    line("differences", 0);
}
