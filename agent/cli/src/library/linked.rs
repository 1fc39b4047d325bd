//! The maps of a linked section, and what is asked over all of them.

use super::{Found, Refusal};
use treskibben::linked;
pub use treskibben::linked::Map;

/// The record that is found over all maps.
pub use treskibben::linked::Found as LinkedFound;

/// The maps of a section: refusals 1 to 8, at their places in the whole.
pub fn maps(section: &[u8]) -> Result<Vec<Map>, Refusal> {
    Ok(linked::maps(section)?)
}

/// The question by address over all maps: 27 at the first map of version 1, 10 where no record has it.
pub fn find_linked(section: &[u8], address: u64) -> Result<LinkedFound, Refusal> {
    Ok(linked::find(section, address)?)
}

/// The record in its map; the sharing is over all maps.
pub fn found_in_map(found: LinkedFound) -> Found {
    Found {
        record: found.record,
        function: found.function,
        sharing: found.sharing,
    }
}

/// Which map a refusal of the maps is of: how many maps stand before it, and its first byte. It is for the
/// wording, and for the maps before it.
pub fn map_at_fault(section: &[u8]) -> (u64, usize) {
    let (mut number, mut first) = (0, 0);
    while let Some(rest) = section.get(first..) {
        match treskibben::check(rest) {
            Err(refusal) if refusal.number() == 9 => {
                number += 1;
                first += usize::try_from(refusal.place()).unwrap_or(usize::MAX - first);
            }
            _ => break,
        }
    }
    (number, first)
}
