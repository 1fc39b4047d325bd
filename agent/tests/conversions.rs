//! The conversions, by the proved library and by the second implementation: random, damaged and edge
//! sections and listings of both versions, those of LLVM, and the longest there are.
//!
//! What is accepted is also converted into outputs of exactly the right length and shorter ones, and
//! back again. The random inputs follow from a seed. It is printed; `TRESKIBBEN_SEED` sets it.

mod common;
#[path = "conversions/llvm.rs"]
mod llvm;
#[path = "conversions/outputs.rs"]
mod outputs;
#[allow(dead_code)] // What llvm-readobj printed is not needed here.
#[path = "llvm/sections.rs"]
mod sections;

use common::{assert_often, count_parts, nth_version, say, seed};
use generator::listings::grammar::Cause;
use generator::listings::largest::Large;
use generator::listings::narrow::Beyond;
use generator::listings::{self, faults, overfull, Listed, LONGEST};
use generator::{aimed, case_of, crowded_in, edges, largest, of_length_in, older, section_in};
use generator::{Case, Rng, Section, Version};
use outputs::{Outputs, Way};

/// Random inputs in a run, made in parts that each have a source of random numbers.
const PARTS: u64 = 800;
const CASES_A_PART: u64 = 500;

/// Parts of the tests with long listings, and how many each part has of every sort.
const LONG_PARTS: u64 = 40;
const LONG_A_PART: usize = 26;

/// A random section of this version that cases are made of.
fn section(rng: &mut Rng, version: Version) -> Section {
    match rng.below(2_048) {
        0 => {
            let length = 16 + 8 * rng.below(4_096);
            of_length_in(rng, version, length)
        }
        1..=500 => crowded_in(rng, version),
        _ => section_in(rng, version),
    }
}

#[test]
fn random_sections() {
    let seed = seed("random sections");
    // Accepted, and also refused by 24 with an output that is one byte short; then by 1 to 9. For each
    // version that sections were made of.
    const NUMBERS: usize = 10;
    let counts = count_parts(seed, PARTS, |rng, counts: &mut [u64; 2 * NUMBERS]| {
        let mut outputs = Outputs::new(rng);
        for _ in 0..CASES_A_PART {
            let version = rng.pick(&Version::ALL);
            let section = section(rng, version);
            let case = case_of(rng, &section);
            let listing = Listed::of(&section).bytes;
            let number = outputs.explore(Way::ToListing, &case, Some(&listing));
            counts[NUMBERS * nth_version(version) + number as usize] += 1;
        }
    });
    for (version, counts) in Version::ALL.into_iter().zip(counts.chunks(NUMBERS)) {
        let (all, of) = (counts.iter().sum::<u64>(), version.number());
        say(&format!(
            "{all} sections of version {of}, {} accepted",
            counts[0]
        ));
        say(&format!("refused by 1 to 9: {:?}", &counts[1..]));
        for number in [&[0], aimed::numbers(version)].concat() {
            let name = |_| format!("sections of version {of} answered by {number}");
            assert_often(&[counts[number as usize]], name);
        }
    }
}

/// The answers to random listings. What is accepted is also converted into an output that is one
/// byte short.
const ANSWERS: [&str; 16] = [
    "accepted, and 24 with one byte short",
    "5",
    "6",
    "7",
    "8",
    "22, any damage",
    "22, unknown kind",
    "22, wrong order",
    "22, wrong item 7",
    "22, cut item",
    "22, missing end",
    "22, bytes after the end",
    "28, any damage",
    "28, a record count",
    "28, a size over 255",
    "28, a record count and a size over 255",
];

/// The first of 22, and the first of 28.
const BROKEN: usize = 5;
const BEYOND: usize = 12;

/// Which of them it is.
fn which(case: &Case, number: u64) -> usize {
    match number {
        0 => 0,
        5..=8 => number as usize - 4,
        22 => {
            let is_its = |cause: &Cause| cause.name() == case.name;
            let cause = Cause::ALL.iter().position(is_its);
            cause.map_or(BROKEN, |nth| BROKEN + 1 + nth)
        }
        28 => {
            let is_its = |beyond: &Beyond| beyond.name() == case.name;
            let beyond = Beyond::ALL.iter().position(is_its);
            beyond.map_or(BEYOND, |nth| BEYOND + 1 + nth)
        }
        _ => panic!("no small listing is refused by {number}: {:?}", case.bytes),
    }
}

/// Whether listings that were made of sections of this version must have this answer often.
fn is_due(version: Version, answer: usize) -> bool {
    match answer {
        1..BROKEN => faults::numbers(version).contains(&(answer as u64 + 4)),
        BEYOND.. => version == Version::One,
        _ => true,
    }
}

#[test]
fn random_listings() {
    let seed = seed("random listings");
    const COUNTS: usize = 2 * ANSWERS.len();
    let counts = count_parts(seed, PARTS, |rng, counts: &mut [u64; COUNTS]| {
        let mut outputs = Outputs::new(rng);
        for _ in 0..CASES_A_PART {
            let version = rng.pick(&Version::ALL);
            let section = section(rng, version);
            let case = listings::case_of(rng, &section);
            let number = outputs.explore(Way::ToSection, &case, Some(&section.encode()));
            counts[ANSWERS.len() * nth_version(version) + which(&case, number)] += 1;
        }
    });
    for (version, counts) in Version::ALL.into_iter().zip(counts.chunks(ANSWERS.len())) {
        let (all, of) = (counts.iter().sum::<u64>(), version.number());
        say(&format!("{all} listings of version {of}"));
        for (nth, (answer, count)) in ANSWERS.iter().zip(counts).enumerate() {
            say(&format!("  {answer}: {count}"));
            if is_due(version, nth) {
                assert_often(&[*count], |_| {
                    format!("listings of version {of} answered by {answer}")
                });
            }
        }
    }
}

/// Records with as many locations or live-outs as they can have, and with more.
#[test]
fn random_overfull_listings() {
    let seed = seed("random overfull listings");
    // 23 by locations and by live-outs, for each version; and neither.
    let counts = count_parts(seed, LONG_PARTS, |rng, counts: &mut [u64; 5]| {
        let mut outputs = Outputs::new(rng);
        for nth in 0..LONG_A_PART {
            for (of, (version, kind)) in overfull_kinds().into_iter().enumerate() {
                let section = section_in(rng, version);
                let case = overfull::overfull(rng, &section, kind);
                let room = rng.pick(&[0, 64, 1_000]);
                let answer = outputs.convert(Way::ToSection, case.name, &case.bytes, room);
                assert_eq!(answer.err(), case.answer, "{kind}");
                counts[of] += 1;
                if nth % 8 == 0 {
                    outputs.explore(Way::ToSection, &overfull::full(rng, &section, kind), None);
                    let broken = overfull::broken(rng, &section, kind);
                    assert!(outputs.known(Way::ToSection, &broken, None).is_err());
                    counts[4] += 2;
                }
            }
        }
    });
    say(&format!(
        "23 by {:?}, and neither: {counts:?}",
        overfull_kinds()
    ));
    assert_often(&counts[..4], |nth| {
        format!("23 by {:?}", overfull_kinds()[nth])
    });
}

/// The kinds of items of which there are too many, in listings of both versions.
fn overfull_kinds() -> [(Version, u8); 4] {
    let [locations, live_outs] = overfull::KINDS;
    let [one, three] = Version::ALL;
    [
        (one, locations),
        (one, live_outs),
        (three, locations),
        (three, live_outs),
    ]
}

#[test]
fn edges_of_the_rules() {
    let mut outputs = Outputs::new(&mut Rng::new(1));
    let mut cases = [0; 2];
    for all in [edges::all, older::edges::all] {
        all(&mut |case| {
            outputs.explore(Way::ToListing, &case, None);
            cases[0] += 1;
        });
    }
    for all in [listings::edges::all, listings::older::all] {
        all(&mut |case| {
            outputs.explore(Way::ToSection, &case, None);
            cases[1] += 1;
        });
    }
    say(&format!(
        "{} sections and {} listings at the edges",
        cases[0], cases[1]
    ));
}

/// Sections of the largest length, listings of the longest, and a byte more.
#[test]
fn largest_sections_and_longest_listings() {
    let seed = seed("largest sections and longest listings");
    let mut outputs = Outputs::new(&mut Rng::new(seed));
    let mut accepted = [0; 2];
    largest::all(seed, &mut |case| {
        accepted[0] += u64::from(outputs.explore(Way::ToListing, &case, None) == 0);
    });
    listings::largest::all(seed, &mut |case| {
        accepted[1] += u64::from(outputs.explore(Way::ToSection, &case, None) == 0);
    });
    assert_eq!(accepted, [8, 8]);
}

/// Listings that are too long, whatever is in them, and listings whose section is. The answers are
/// known; the second implementation, which needs most of the time, is asked every eighth time.
#[test]
fn random_listings_that_are_too_long() {
    let seed = seed("random listings that are too long");
    // 1 of the listing, 1 of the built section of each version, and others.
    let counts = count_parts(seed, LONG_PARTS, |rng, counts: &mut [u64; 4]| {
        let mut outputs = Outputs::new(rng);
        let version = rng.pick(&Version::ALL);
        let mut large = Large::new(rng, version);
        for nth in 0..LONG_A_PART {
            let room = rng.pick(&[0, 64, 1_000]);
            let (name, listing) = ("section too long", large.over(rng));
            let answer = match nth % 8 {
                0 => outputs.convert(Way::ToSection, name, listing, room),
                _ => outputs.by_library(Way::ToSection, name, listing, room),
            };
            assert_eq!(answer, Err((1, 0)));
            counts[1 + nth_version(version)] += 1;
            if nth % 8 == 4 {
                let (listing, number, place) = match rng.below(2) {
                    0 => large.broken(rng),
                    _ => large.faulty(rng),
                };
                let answer = outputs.convert(Way::ToSection, "largest", listing, room);
                let known = if number == 0 { 24 } else { number };
                assert_eq!(answer, Err((known, place as u64)));
                counts[3] += 1;
            }
        }
        counts[0] += too_long(rng, &mut outputs, large);
    });
    say(&format!(
        "1 of the listing, 1 of the section of versions 1 and 3, and others: {counts:?}"
    ));
    let of_sections = counts[1] + counts[2];
    assert_often(&[counts[0], of_sections], |nth| {
        format!("1 of the {}", ["listing", "section"][nth])
    });
    assert!(counts[1].min(counts[2]) > 0, "{counts:?}");
}

/// Listings over the longest length, which begin as others do; how many.
fn too_long(rng: &mut Rng, outputs: &mut Outputs, large: Large) -> u64 {
    let listing = large.longer(LONGEST + 64);
    for _ in 0..LONG_A_PART {
        let length = LONGEST + 1 + rng.below(64);
        let room = rng.pick(&[0, 64, 1_000]);
        let answer = outputs.convert(Way::ToSection, "too long", &listing[..length], room);
        assert_eq!(answer, Err((1, 0)));
    }
    LONG_A_PART as u64
}
