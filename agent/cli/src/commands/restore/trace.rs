//! The trace of a restore: what it holds.
//!
//! A restore is one call, all frames or none, and a trace has the answer of each frame where they are moved one by one. No
//! two frames of an accepted restore share a byte, so that each gets the answer that it gets by itself: 0 and how
//! many pointers it has. What is written was replayed by the library before, which gave these answers and left the
//! restored image.

use super::Call;
use crate::inputs::slots::{pairs, At};
use crate::inputs::Moved;
use crate::library::{self, Difference, Recorded, Step};

impl Call<'_> {
    /// The trace of this restore, with the registers of each frame as they were before.
    pub fn trace(&self, moved: &Moved) -> Vec<u8> {
        let (inputs, restore) = (&self.inputs, self.inputs.restore());
        let pointers = inputs.at_frames(pointers);
        let steps = inputs.lines.iter().map(|entry| {
            let line = &entry.value;
            let value = pointers.get(&line.frame.address).copied().flatten();
            Step {
                machine: library::machine(inputs.machine),
                frame: line.frame,
                registers: line.registers,
                answer: Recorded {
                    number: 0,
                    value: value.unwrap_or_default(),
                },
            }
        });
        let mut image = Vec::new();
        let trace = answered(steps.collect(), |trace| {
            image.clone_from(&moved.before);
            let replayed = restore.replay(&mut image, trace);
            replayed.expect("a trace that was written of frames and answers is whole")
        });
        let same = image == moved.after;
        assert!(
            same,
            "frames that share no byte are moved one by one as all at once"
        );
        trace
    }
}

/// How many pointers the statepoint of a frame has, a null pair counting one.
fn pointers(at: &At) -> u64 {
    let (all, own) = (at.record.pairs().unwrap_or_default(), pairs(at));
    let null = (all - own.len()) as u64;
    null + own.iter().map(|pair| u64::from(pair.pointers)).sum::<u64>()
}

/// The trace of steps whose answers are the library's: those that they have are only taken where a replay gives them
/// too. An answer depends on no recorded one, so that each replay settles one more.
fn answered(mut steps: Vec<Step>, mut replay: impl FnMut(&[u8]) -> Option<Difference>) -> Vec<u8> {
    loop {
        let trace = library::trace_of(&steps);
        let Some(differs) = replay(&trace) else {
            return trace;
        };
        let item = usize::try_from(differs.item).unwrap_or(usize::MAX);
        steps[item].answer = differs.now;
    }
}

#[cfg(test)]
mod tests {
    use super::*;
    use crate::library::{Frame, Machine, Registers};

    /// Whatever the steps say at first, the trace has the answers of the replay.
    #[test]
    fn answers_are_those_of_the_replay() {
        let right = [(0, 3), (0, 0), (0, 2)].map(|(number, value)| Recorded { number, value });
        let step = |value: u64| Step {
            machine: Machine::Amd64,
            frame: Frame::new(0x1020),
            registers: Registers::default(),
            answer: Recorded { number: 0, value },
        };
        for guess in [[3, 0, 2], [0, 0, 0], [3, 1, 2], [9, 9, 9]] {
            let mut replays = 0;
            let trace = answered(guess.map(step).to_vec(), |trace| {
                replays += 1;
                let steps = library::steps_of(trace).unwrap();
                let mut items = (0..).zip(steps.iter().zip(right));
                let (item, (_, now)) = items.find(|(_, (step, now))| step.answer != *now)?;
                Some(Difference { item, now })
            });
            let steps = library::steps_of(&trace).unwrap();
            assert!(steps
                .iter()
                .zip(right)
                .all(|(step, now)| step.answer == now));
            let wrong = guess
                .iter()
                .zip(right)
                .filter(|(guess, now)| **guess != now.value);
            assert_eq!(replays, 1 + wrong.count());
        }
    }
}
