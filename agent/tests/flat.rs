//! Flat sections: the proved library against the second implementation, which was written from source
//! document 002, on random, damaged, edge and largest sections and on sections that are slow to search.
//!
//! Of whole sections, and of those that are refused for a known cause, the generator knows the answer
//! beforehand, and that is compared too. The random sections follow from a seed. It is printed;
//! `TRESKIBBEN_SEED` sets it.

#[path = "flat/asked.rs"]
mod asked;
mod common;
#[path = "flat/document.rs"]
mod document;

use asked::{by_library, compare};
use common::{assert_often, count_random, differ, say};
use generator::flat::questions::{question, Answer, Question};
use generator::flat::slow::{self, Kind, LEAST_SLOW};
use generator::flat::{self as made, edges, largest, valid, Flat};
use generator::{Case, Rng};
use reference::flat as second;
use treskibben::flat;

/// Random sections in a run, made in parts that each have a source of random numbers.
const PARTS: u64 = 200;
const CASES_A_PART: u64 = 2_000;
/// Random sections that are asked, and questions on each.
const ASKED_PARTS: u64 = 200;
const ASKED_A_PART: u64 = 300;
const QUESTIONS: usize = 4;

/// How often each number was the answer, 0 to 41.
const NUMBERS: usize = 42;
type Counts = [u64; NUMBERS];

/// Compares the check's two answers, and with the case's own where it has one. Gives the number. The
/// check of versions 1 and 3 gives 2 for every such section that it is long enough for.
fn check(case: &Case) -> usize {
    let number_and_place = |it: treskibben::Refusal| (it.number(), it.place());
    let library = flat::check(&case.bytes).map_err(number_and_place);
    let second = second::check(&case.bytes).map_err(|it| (it.number, it.place));
    let known = case.answer.map(|(number, place)| match number {
        0 => Ok(()),
        _ => Err((number, place as u64)),
    });
    if library != second || known.is_some_and(|known| library != known) {
        let answers = format!(
            "(number, place) by the library {library:?}, by the second implementation {second:?}, \
             known beforehand {known:?}"
        );
        differ(case.name, &case.bytes, &answers);
    }
    let number = library.err().map_or(0, |(number, _)| number as usize);
    if number == 0 {
        let older = treskibben::check(&case.bytes).unwrap_err();
        assert_eq!((older.number(), older.place()), (2, 0));
    }
    number
}

#[test]
fn random_sections() {
    let run = |rng: &mut Rng, counts: &mut Counts| counts[check(&made::case(rng))] += 1;
    let counts = count_random("random flat sections", PARTS, CASES_A_PART, run);
    let accepted = counts[0];
    say(&format!(
        "{} flat sections, {accepted} accepted, refused by 36 to 40: {:?}",
        counts.iter().sum::<u64>(),
        &counts[36..41]
    ));
    assert_often(&[accepted], |_| "accepted".to_string());
    assert_often(&counts[36..41], |nth| format!("number {}", 36 + nth));
}

/// Every reserved bit, every offset off by one and by its alignment, both parities of the records,
/// empty arrays, and 16-bit indexes at their end: as made by the generator, at least 500 of each number.
#[test]
fn edges_of_the_rules() {
    let mut counts = [0; NUMBERS];
    edges::all(&mut |case| counts[check(&case)] += 1);
    let numbers = [0, 36, 37, 38, 39, 40].map(|number: usize| counts[number]);
    say(&format!(
        "at the edges, accepted and refused by 36 to 40: {numbers:?}"
    ));
    assert!(numbers.iter().all(|count| *count >= 500), "{numbers:?}");
}

/// The constant of every number, and one past the last, of an accepted section.
fn constants(case: &Case, flat: &Flat) {
    let read = second::read(&case.bytes).expect("an accepted section");
    assert_eq!(read.constants, flat.constants);
    for (number, constant) in (0..).zip(&flat.constants) {
        assert_eq!(flat::constant(&case.bytes, number), Ok(*constant));
    }
    for past in [0, 1, 1 << 32, u64::MAX - 200] {
        let number = flat.constants.len() as u64 + past;
        let refusal = flat::constant(&case.bytes, number).unwrap_err();
        assert_eq!((refusal.number(), refusal.place()), (11, 0));
    }
}

/// Asks a few questions on a random section, whole or damaged.
fn ask(rng: &mut Rng, counts: &mut Counts) {
    let flat = match rng.below(3) {
        0 => valid::section(rng),
        _ => valid::crowded(rng),
    };
    let case = match rng.below(2) {
        0 => Case::known("whole", flat.encode(), 0, 0),
        _ => made::case_of(rng, &flat),
    };
    for _ in 0..QUESTIONS {
        let question = question(rng, &flat);
        counts[compare(&case, Some(&flat), question)] += 1;
    }
    match case.answer {
        Some((0, _)) => constants(&case, &flat),
        Some((number, _)) => {
            let refusal = flat::constant(&case.bytes, 0).unwrap_err();
            assert_eq!((refusal.number(), refusal.place()), (number, 0));
        }
        None => {}
    }
}

#[test]
fn random_questions() {
    let counts = count_random("questions", ASKED_PARTS, ASKED_A_PART, ask);
    let numbers = [0, 10, 11, 36, 37, 38, 39, 40, 41];
    let own = numbers.map(|number: usize| counts[number]);
    say(&format!("questions answered by {numbers:?}: {own:?}"));
    assert_often(&own, |nth| format!("answers {}", numbers[nth]));
}

#[test]
fn every_question_on_small_sections() {
    let mut asked = 0;
    for flat in made::asked::all() {
        let case = Case::known("made to be asked", flat.encode(), 0, 0);
        for question in made::asked::every_question(&flat) {
            compare(&case, Some(&flat), question);
            asked += 1;
        }
        constants(&case, &flat);
    }
    say(&format!("{asked} questions on sections made for them"));
    assert!(asked >= 1_000);
}

/// Sections with an array as long as indexes of 16 bits reach: lookups whose record is beyond 65,535.
#[test]
fn questions_on_wide_sections() {
    let mut rng = Rng::new(common::seed("wide sections"));
    let mut counts = [0; NUMBERS];
    for _ in 0..40 {
        let flat = valid::wide(&mut rng);
        let case = Case::known("wide", flat.encode(), 0, 0);
        for _ in 0..QUESTIONS {
            counts[compare(&case, Some(&flat), question(&mut rng, &flat))] += 1;
        }
    }
    say(&format!(
        "questions on wide sections: {} answered",
        counts[0]
    ));
    assert!(counts[0] >= 20, "{counts:?}");
}

/// Sections of 16 MiB and just over: the check, the first and the last entry of each array and one past.
#[test]
fn largest_sections() {
    let mut counts = [0; NUMBERS];
    largest::all(&mut |case| counts[check(&case)] += 1);
    let numbers = [0, 36, 37, 38, 39, 40].map(|number: usize| counts[number]);
    assert_eq!(numbers, [5, 6, 1, 6, 0, 5]);
    largest::sections(&mut |flat, _| {
        let case = Case::known("largest", flat.encode(), 0, 0);
        let [constants, frames, registers, records, locations, live_outs] =
            flat.counts().map(|count| count as u64);
        let asked = [
            Question::Frame(frames.wrapping_sub(1)),
            Question::Frame(frames),
            Question::FrameRegister(registers),
            Question::Record(records.wrapping_sub(1)),
            Question::Record(records),
            Question::Location(locations.wrapping_sub(1)),
            Question::Location(locations),
            Question::LiveOut(live_outs.wrapping_sub(1)),
            Question::LiveOut(live_outs),
            Question::Lookup(0x1000),
        ];
        for question in asked {
            let answer = by_library(&case.bytes, question);
            let expected = made::questions::answer(flat, question);
            assert_eq!(answer, expected, "{question:?}");
        }
        let last = flat.constants.last().copied().ok_or(11);
        let answer = flat::constant(&case.bytes, constants.wrapping_sub(1));
        assert_eq!(answer.map_err(|refusal| refusal.number()), last);
    });
}

/// Sections that a plain search is slow on: every length near the least, and some that are longer.
#[test]
fn slow_sections() {
    for kind in Kind::ALL {
        for length in (LEAST_SLOW..LEAST_SLOW + 300).chain([20_000, 400_000, 16_777_216]) {
            for found in [false, true] {
                let slow = slow::section(kind, length, found);
                let bytes = slow.flat.encode();
                let expected = match slow.answer {
                    Some((frame, record)) => Answer::Found { frame, record },
                    None => Answer::Refused {
                        number: 41,
                        place: 0,
                    },
                };
                let answer = by_library(&bytes, Question::Lookup(slow.address));
                assert_eq!(answer, expected, "{kind:?}, {length}, {found}");
            }
        }
    }
}
