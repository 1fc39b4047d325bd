//! The registers of frames that a line has to tell.

use super::slots::At;
use super::Inputs;
use crate::library;
use crate::trouble::{Refused, Trouble};
use std::ops::Range;

/// The registers that a statepoint's pairs are in, each with the pair.
type Listed = Vec<(u16, u64)>;

impl Inputs<'_> {
    /// A register that isn't told would count as 0 and its pointer stay where it is: so every register
    /// that the statepoint of a frame at these positions lists has to stand in the frame's line.
    pub fn all_told(&self, positions: Range<usize>) -> Result<(), Trouble> {
        let listed = self.at_frames(|at| self.in_registers(at));
        for position in positions {
            let line = &self.lines[position].value;
            let Some(Some(listed)) = listed.get(&line.frame.address) else {
                continue;
            };
            let Some((register, pair)) = listed.iter().find(|(own, _)| !line.tells(*own)) else {
                continue;
            };
            let name = self.machine.register(*register);
            let lower = name.to_lowercase();
            let more = format!("pair {pair} is in {name}: say {lower}=VALUE");
            return Err(Trouble::Refused(Box::new(Refused {
                cause: "a register of the frame is not told".to_string(),
                ..self.at_frame(position, Some(*pair), Some(more))
            })));
        }
        Ok(())
    }

    /// The registers that a record's pairs are in.
    fn in_registers(&self, at: &At) -> Listed {
        let record = at.record;
        let (Some(deopt), Some(pairs)) = (record.deopt_count(), record.pairs()) else {
            return Listed::new();
        };
        let of_pair = |pair: usize| {
            let locations = record.pair(pair, deopt).iter();
            let own = locations.filter(|location| {
                location.kind == 1 && library::is_slot(self.machine, location.register)
            });
            own.map(move |location| (location.register, pair as u64))
        };
        (0..pairs).flat_map(of_pair).collect()
    }
}
