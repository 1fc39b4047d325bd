//! A slot's reason, in words.

use super::{Base, OfSlot};
use crate::library::Reason;
use crate::numbers::ranges;
use crate::registers::Machine;

impl OfSlot {
    /// Why the slot moves or stays.
    pub fn why(&self, machine: Machine) -> String {
        let from = self.derived.map(|(pair, base)| match base {
            Base::Itself => format!("pair {pair}, its own base"),
            Base::At(place) => format!("pair {pair}, from the base {}", place.words(machine)),
        });
        let from = from.unwrap_or_default();
        match self.reason {
            Reason::Moved { .. } => format!("moved: {from}"),
            Reason::NullBase => format!("stays, null base: {from}"),
            Reason::OnlyBase => {
                let pairs = if self.base_of.len() == 1 {
                    "pair"
                } else {
                    "pairs"
                };
                format!("stays, only a base: of {pairs} {}", ranges(&self.base_of))
            }
            Reason::Unlisted => match self.beside {
                None => "stays, unlisted: it is no pointer's slot".to_string(),
                Some(place) => {
                    let place = place.words(machine);
                    format!("unlisted: no slot begins here, and {place} has some of its bytes")
                }
            },
        }
    }

    /// The start of the object that it moves with, before and after.
    pub fn object(&self) -> Option<[u64; 2]> {
        match self.reason {
            Reason::Moved {
                old_base, new_base, ..
            } => Some([old_base, new_base]),
            _ => None,
        }
    }
}
