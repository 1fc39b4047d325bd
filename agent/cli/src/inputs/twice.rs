//! Several moves as one: what makes the joined table right for a frame.
//!
//! A move leaves a base slot as it is unless the slot is listed with itself: some pointer has it as base and as
//! derived. So where one isn't, the second of two moves finds the old start there, though the pointers that are
//! derived from it have moved, and the joined table would do something else than the two.

use super::slots::{pairs, Pair, Slot};
use super::Inputs;
use crate::frames::Line;
use crate::trouble::{Refused, Trouble};
use std::collections::HashSet;
use std::ops::Range;

impl Inputs<'_> {
    /// Sees that the joined table does what the tables one after the other would do: in every frame at these
    /// positions every pointer's base slot is also listed with itself. It is asked of frames that the library
    /// accepts.
    pub fn one_for_all(&self, positions: Range<usize>) -> Result<(), Trouble> {
        if !self.moves.are_joined() {
            return Ok(());
        }
        let pairs = self.at_frames(pairs);
        for position in positions {
            let line = &self.lines[position].value;
            let pairs = pairs.get(&line.frame.address).and_then(Option::as_ref);
            let pairs = pairs.expect("a frame that is accepted stands at one record");
            if let Some((pair, slot)) = without_itself(pairs, line) {
                let slot = match slot {
                    Slot::Memory(address) => format!("at {address:#x}"),
                    Slot::Register(register) => self.machine.register(register),
                };
                let more = format!(
                    "the base slot of pair {pair} is {slot}, and no pair has it as base and derived: \
                     one move by the joined table might not be what the moves in a row are"
                );
                return Err(Trouble::Refused(Box::new(Refused {
                    cause: "a base slot is not listed with itself".to_string(),
                    ..self.at_frame(position, Some(pair as u64), Some(more))
                })));
            }
        }
        Ok(())
    }
}

/// The first pair with a base slot that is not listed with itself, and that slot.
fn without_itself(pairs: &[Pair], line: &Line) -> Option<(usize, Slot)> {
    let pointers = || {
        let of_pair = |pair: &Pair| {
            let (pair, number) = (*pair, pair.number);
            let slots: Vec<[Slot; 2]> = pair.slots(line).collect();
            slots.into_iter().map(move |slots| (number, slots))
        };
        pairs.iter().flat_map(of_pair)
    };
    let itself = pointers().filter(|(_, [base, derived])| base == derived);
    let itself: HashSet<Slot> = itself.map(|(_, [base, _])| base).collect();
    let mut bases = pointers().map(|(pair, [base, _])| (pair, base));
    bases.find(|(_, base)| !itself.contains(base))
}
