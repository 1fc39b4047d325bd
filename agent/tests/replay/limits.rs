//! Traces of no frame, of one, and of very many: a replay has no limit of frames as a thread has.

use crate::calls::{Outcome, Replay};
use crate::common::{count_random, say};
use crate::edition;
use generator::traces::{Trace, ANSWER, FRAME};
use generator::Rng;
use treskibben::trace::{self, Step};
use treskibben::{Frame, Machine, Recorded};

const H: &[u8] = include_bytes!("../../../samples/h-statepoint.section");

/// The table exchanges two objects, so that each move of the frame undoes the one before.
const STARTS: [u64; 2] = [0x50000, 0x90000];

fn image([base, derived]: [u64; 2]) -> Vec<u8> {
    [7, base, derived].map(u64::to_le_bytes).concat()
}

/// Row I's frame with this answer.
fn step(number: u8, value: u64) -> Step {
    Step {
        machine: Machine::Amd64,
        frame: Frame::new(0x1020),
        registers: Machine::Amd64.registers(0, 0x7000),
        answer: Recorded { number, value },
    }
}

/// The replay of row I's frame so often, with one answer that is recorded wrongly, if any.
fn replay(frames: usize, wrong: Option<usize>) -> Outcome {
    let stored = edition(0);
    let mut steps = vec![step(0, 2); frames];
    if let Some(wrong) = wrong {
        steps[wrong].answer.value = 3;
    }
    let (before, after) = (image([0x50000, 0x54e20]), image([0x90000, 0x94e20]));
    let replay = Replay {
        stored: &stored,
        section: H,
        image: &before,
        first: 0x7000,
        olds: &STARTS,
        news: &[STARTS[1], STARTS[0]],
        trace: &trace::to_bytes(&steps),
    };
    let outcome = replay.compare();
    let left = if frames.is_multiple_of(2) {
        &before
    } else {
        &after
    };
    assert!(outcome.image == *left, "{frames} frames, {wrong:?}");
    outcome
}

/// Every length, whole and with the first, the last and another answer wrong.
#[test]
fn traces_of_every_length() {
    for frames in [0, 1, 2, 3, 4_095, 4_096, 4_097, 10_000] {
        assert_eq!(replay(frames, None).numbers, [0; 6], "{frames} frames");
        for wrong in [0, frames / 2, frames.saturating_sub(1)] {
            if wrong < frames {
                let told = [0, 0, 1, wrong as u64, 0, 2];
                assert_eq!(replay(frames, Some(wrong)).numbers, told, "{frames} frames");
            }
        }
    }
}

#[test]
fn a_trace_of_a_hundred_thousand_frames() {
    let told = [0, 0, 1, 99_999, 0, 2];
    assert_eq!(replay(100_000, Some(99_999)).numbers, told);
}

/// Long traces in a run.
const LONG: u64 = 16;

/// Frames at many statepoints, with faults and without, in any order and many times over: the right answers, and one
/// wrong answer at some of these. What is counted: frames, those that were moved, and those that were refused.
const WRONG: [usize; 8] = [0, 1, 4_095, 4_096, 4_097, 8_191, 8_192, 8_193];

fn run_long(rng: &mut Rng, counts: &mut [u64; 3]) {
    let frames = rng.pick(&[4_096, 4_097, 8_192, 8_200]);
    let mut trace = Trace::long(rng, frames);
    let stored = edition(trace.scene.machine);
    let call = Replay::of(&trace, &stored);
    let outcome = call.compare();
    if outcome.numbers != [0; 6] || outcome.image != trace.image {
        call.fail(&format!("{outcome:?}, recorded otherwise"));
    }
    let answers = call.answers();
    let moved = answers.iter().filter(|answer| answer.number == 0).count();
    counts[0] += frames as u64;
    counts[1] += moved as u64;
    counts[2] += (frames - moved) as u64;
    // From the last on, so that each is the first that differs.
    for wrong in WRONG.into_iter().rev() {
        if wrong >= frames || rng.one_in(2) {
            continue;
        }
        let at = wrong * (FRAME + ANSWER) + FRAME;
        trace.bytes[at + 1 + rng.below(9)] ^= 1 << rng.below(8);
        let call = Replay::of(&trace, &stored);
        let outcome = call.compare();
        let now = answers[wrong];
        let told = [0, 0, 1, wrong as u64, now.number.into(), now.value];
        if outcome.numbers != told || outcome.image != trace.image {
            call.fail(&format!("{outcome:?}, wrong at {wrong}"));
        }
    }
}

#[test]
fn long_traces_of_many_frames() {
    let counts = count_random("long traces", LONG, 1, run_long);
    say(&format!(
        "frames of long traces, moved and refused: {counts:?}"
    ));
    assert!(counts.iter().all(|count| *count >= 10_000), "{counts:?}");
}
