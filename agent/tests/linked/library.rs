//! The library's calls on linked sections, as plain numbers. This is the one place that names them.

use treskibben::{linked, Refusal};

/// Number and place of a refusal.
pub type Refused = (u64, u64);

fn refused(refusal: Refusal) -> Refused {
    (refusal.number(), refusal.place())
}

/// The first byte and the length of each map.
pub fn maps(section: &[u8]) -> Result<Vec<(usize, usize)>, Refused> {
    let maps = linked::maps(section).map_err(refused)?;
    Ok(maps.iter().map(|map| (map.first, map.length)).collect())
}

/// Map, record, function and sharing.
pub fn find(section: &[u8], address: u64) -> Result<[u64; 4], Refused> {
    let found = linked::find(section, address).map_err(refused)?;
    Ok([found.map, found.record, found.function, found.sharing])
}

/// Number, place and value of the call that writes the maps to a list.
pub fn fill(section: &[u8], list: &mut [u64]) -> [u64; 3] {
    match linked::maps_into(section, list) {
        Ok(count) => [0, 0, count as u64],
        Err(refusal) => [refusal.number(), refusal.place(), 0],
    }
}
