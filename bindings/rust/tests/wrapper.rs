//! The examples of the repository through the wrapper: reports as stored, and refusals as document 01 numbers them.
use std::error::Error;
use std::fs;
use std::path::{Path, PathBuf};

use showclean::{check, clean, overlap, overlap_expression, words, work_needed, Place, Refusal, Verdict};

fn examples() -> PathBuf {
    Path::new(env!("CARGO_MANIFEST_DIR")).join("../../examples")
}

fn image_of(name: &str) -> Vec<u8> {
    fs::read(examples().join(name).with_extension("image")).expect("the example's image")
}

fn refusal(number: u8, place: u64) -> Refusal {
    Refusal { number, place }
}

// The cleaned image and the report, in memory that the first call's refusal asks for.
fn cleaned(image: &[u8]) -> (Vec<u8>, Vec<u8>) {
    let mut output = vec![0; image.len()];
    let mut work = vec![0; work_needed(image.len())];
    let Err(short) = clean(image, &mut output, &mut work, &mut []) else {
        panic!("an accepted image has a report");
    };
    let Place::Needed(needed) = short.at() else {
        panic!("{short}");
    };
    let mut report = vec![0; needed as usize];
    let lengths = clean(image, &mut output, &mut work, &mut report).expect("enough is lent");
    assert_eq!(lengths.report, report.len());
    assert!(work.iter().all(|&entry| entry == 0));
    output.truncate(lengths.output);
    (output, report)
}

#[test]
fn reports_are_as_stored() {
    for name in ["worked", "removed", "cascade", "undecided", "uncovered", "dispatch"] {
        let stored = fs::read(examples().join(name).with_extension("report")).expect("the example's report");
        assert_eq!(cleaned(&image_of(name)).1, stored, "{name}");
    }
}

#[test]
fn a_cleaned_image_is_accepted() {
    let (output, _) = cleaned(&image_of("cascade"));
    assert_eq!(check(&output), Ok(()));
}

#[test]
fn refusals_change_nothing() {
    let image = image_of("removed");
    let mut output = vec![7; image.len() - 1];
    let mut work = vec![7; work_needed(image.len())];
    let mut report = [7; 3];
    assert_eq!(clean(&image, &mut output, &mut work, &mut report), Err(refusal(2, 0)));
    assert_eq!(clean(&[], &mut output, &mut work, &mut report), Err(refusal(1, 0)));
    assert!(output.iter().all(|&byte| byte == 7) && work.iter().all(|&entry| entry == 7) && report == [7; 3]);
}

#[test]
fn sentences_are_compared() {
    let image = image_of("removed");
    let compared = overlap(&image, 0, 0).expect("there is a sentence 0");
    assert_ne!(compared.verdict, Verdict::Disjoint);
    assert!(0 < compared.spent && compared.spent <= 4096);
    assert_eq!(overlap(&image, 0, 100_000), Err(refusal(13, 0)));
}

#[test]
fn an_expression_that_both_patterns_match_is_written() {
    let image = image_of("removed");
    let mut room = vec![7; showclean::EXPRESSION_ROOM];
    let shared = overlap_expression(&image, 3, 4, &mut room).expect("the sentences are there");
    assert_eq!((shared.verdict, shared.spent), (Verdict::Overlap, overlap(&image, 3, 4).expect("compared").spent));
    assert!(0 < shared.length && room[shared.length..].iter().all(|&byte| byte == 7));
    let mut short = vec![7; shared.length - 1];
    assert_eq!(overlap_expression(&image, 3, 4, &mut short), Err(refusal(17, 0)));
    assert!(short.iter().all(|&byte| byte == 7));
}

#[test]
fn images_are_checked() {
    let mut image = image_of("removed");
    assert_eq!(check(&image), Ok(()));
    image[0] = 99;
    assert_eq!(check(&image), Err(refusal(5, 0)));
    assert_eq!(check(&image[..11]), Err(refusal(1, 0)));
}

#[test]
fn refusals_speak() {
    let damaged: Box<dyn Error> = Box::new(refusal(9, 40));
    assert_eq!(damaged.to_string(), "refused 9: a call or a block inside a pattern, at byte 40");
    assert_eq!(refusal(12, 211).to_string(), "refused 12: report text longer than the report, which needs 211 bytes");
    assert_eq!(refusal(4, 0).to_string(), "refused 4: the trailer's lengths do not fit the image");
    let unlike = (0..=14).map(words).collect::<std::collections::HashSet<_>>();
    assert_eq!(unlike.len(), 15);
}
