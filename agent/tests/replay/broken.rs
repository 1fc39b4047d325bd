//! Broken traces: cut at every byte, every kind of item and every machine in every place, and damages anywhere. The
//! image stays as it is lent, whatever frames stand before the bad item.

use crate::calls::Replay;
use crate::common::{assert_often, count_random, say};
use crate::edition;
use crate::stores::Stored;
use generator::traces::{Item, Trace, ANSWER, END, FRAME};
use generator::{damage, Rng};

/// The trace of these items on a scene.
fn with_bytes<'a>(trace: &'a Trace, stored: &'a Stored, bytes: &'a [u8]) -> Replay<'a> {
    Replay {
        trace: bytes,
        ..Replay::of(trace, stored)
    }
}

/// A trace of so many frames, which are moved where they can be, and its edition.
fn trace(rng: &mut Rng, frames: usize) -> (Trace, Stored) {
    loop {
        let trace = Trace::right(rng);
        if trace.items.len() == 2 * frames + 1 {
            let stored = edition(trace.scene.machine);
            return (trace, stored);
        }
    }
}

/// Where each item begins, and its kind.
fn items(trace: &Trace) -> Vec<(usize, u8)> {
    let mut at = 0;
    let item = |item: &Item| {
        let own = (at, item.kind());
        at += item.bytes.len();
        own
    };
    trace.items.iter().map(item).collect()
}

/// How many traces of each length are cut at every byte, or have every kind in every place.
const TRACES: u64 = 6;

/// What is counted: the cuts that fall inside an item, and those that fall between two.
#[test]
fn cut_at_every_byte() {
    let counts = count_random("cut traces", TRACES, 1, |rng, counts: &mut [u64; 2]| {
        for frames in 0..5 {
            let (trace, stored) = trace(rng, frames);
            let items = items(&trace);
            for length in 0..trace.bytes.len() {
                let call = with_bytes(&trace, &stored, &trace.bytes[..length]);
                let outcome = call.compare();
                let cut = items.iter().rfind(|(at, _)| *at <= length);
                let (place, _) = cut.expect("the first item begins at 0");
                if outcome.numbers != [35, *place as u64, 0, 0, 0, 0] {
                    call.fail(&format!("{outcome:?}, cut at {length}"));
                }
                counts[usize::from(*place == length)] += 1;
            }
        }
    });
    // Of 0 to 4 frames: every byte of a trace is cut off once.
    let lengths: u64 = (0..5).map(|frames| frames * (FRAME + ANSWER) as u64).sum();
    let between: u64 = (0..5).map(|frames| 2 * frames + 1).sum();
    let all = lengths + 5 * END as u64;
    say(&format!("cuts inside of an item, and between: {counts:?}"));
    assert_eq!(counts, [TRACES * (all - between), TRACES * between]);
}

/// Every kind in the place of every item, and every machine of every frame; all but the right ones are broken
/// there, and an end in a frame's place one byte later. What is counted: broken ones, whole ones.
#[test]
fn every_kind_and_every_machine() {
    let counts = count_random("kinds and machines", TRACES, 1, |rng, counts| {
        for frames in 0..4 {
            let (trace, stored) = trace(rng, frames);
            for (at, own) in items(&trace) {
                for byte in 0..=255 {
                    let mut bytes = trace.bytes.clone();
                    bytes[at] = byte;
                    let place = match (own, byte) {
                        (own, byte) if own == byte => None,
                        (1, 3) => Some(at + 1),
                        _ => Some(at),
                    };
                    broken(&trace, &stored, &bytes, place, counts);
                    if own == 1 {
                        bytes[at] = own;
                        bytes[at + 1] = byte;
                        let place = (byte > 1).then_some(at);
                        broken(&trace, &stored, &bytes, place, counts);
                    }
                }
            }
        }
    });
    say(&format!("kinds and machines, broken and whole: {counts:?}"));
    // Of 0 to 3 frames: seven items beside four ends, six of them frames, with two bytes each.
    let (items, frames) = (2 * 6 + 4, 6);
    let whole = items + 2 * frames;
    let all = 256 * (items + frames);
    assert_eq!(counts, [TRACES * (all - whole), TRACES * whole]);
}

/// Compares a trace that is broken at this place, or whole.
fn broken(
    trace: &Trace,
    stored: &Stored,
    bytes: &[u8],
    place: Option<usize>,
    counts: &mut [u64; 2],
) {
    let call = with_bytes(trace, stored, bytes);
    let outcome = call.compare();
    let expected = place.map_or([0; 2], |place| [35, place as u64]);
    if outcome.numbers[..2] != expected {
        call.fail(&format!("{outcome:?}, known beforehand {expected:?}"));
    }
    counts[usize::from(place.is_none())] += 1;
}

/// Damaged traces in a run.
const PARTS: u64 = 200;
const DAMAGES_A_PART: u64 = 200;

/// What is counted of damaged traces: those that are broken at 0, after whole frames, and those that are whole
/// still, with a difference and without.
const NAMES: [&str; 4] = [
    "broken at the first item",
    "broken after whole frames",
    "whole, with a difference",
    "whole, without",
];

#[test]
fn damaged_anywhere() {
    let counts = count_random("damaged traces", PARTS, DAMAGES_A_PART, run_damaged);
    say(&format!(
        "damaged: {:?}",
        NAMES.iter().zip(counts).collect::<Vec<_>>()
    ));
    assert_often(&counts, |nth| NAMES[nth].to_string());
}

/// Replays a trace that is damaged, and counts what became of it.
fn run_damaged(rng: &mut Rng, counts: &mut [u64; NAMES.len()]) {
    let (trace, other) = (Trace::right(rng), Trace::right(rng));
    let stored = edition(trace.scene.machine);
    let mut bytes = trace.bytes.clone();
    match rng.below(3) {
        // A bit in a frame or an answer: mostly whole still.
        0 => {
            let at = rng.below(bytes.len());
            bytes[at] ^= 1 << rng.below(8);
        }
        // Whole items of two traces: mostly out of order.
        1 => bytes = shuffled(rng, &trace, &other),
        _ => {
            for _ in 0..=rng.below(3) {
                damage::damage_bytes(rng, &mut bytes, &other.bytes);
            }
        }
    }
    let outcome = with_bytes(&trace, &stored, &bytes).compare();
    let nth = match outcome.numbers {
        [35, 0, ..] => 0,
        [35, ..] => 1,
        [_, _, 1, ..] => 2,
        _ => 3,
    };
    counts[nth] += 1;
}

/// Some items of two traces: two steps of theirs, an end, or anything.
fn shuffled(rng: &mut Rng, trace: &Trace, other: &Trace) -> Vec<u8> {
    let mut bytes = Vec::new();
    for _ in 0..rng.below(4) {
        let from = if rng.one_in(4) { other } else { trace };
        let nth = rng.below(from.items.len());
        let step = from.items.chunks_exact(2).nth(nth / 2);
        match step {
            Some(step) if !rng.one_in(3) => {
                step.iter().for_each(|item| bytes.extend(&item.bytes));
            }
            _ => bytes.extend(&from.items[nth].bytes),
        }
    }
    if !rng.one_in(4) {
        bytes.push(3);
    }
    bytes
}
