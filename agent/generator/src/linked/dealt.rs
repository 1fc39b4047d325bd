//! The section of a scene as the maps of several objects: its functions dealt out with their records, each
//! map with a pool of its own. A thread is then answered over all maps as on the one section.

use super::{groups, of_groups, Group};
use crate::frames::shuffle;
use crate::layout::{Location, Section, Version};
use crate::rng::Rng;

/// The functions of a section of version 3 in up to so many maps, in any order, and empty maps between
/// them. A section of version 1 stays whole, and has maps of version 3 beside it.
pub fn maps(rng: &mut Rng, section: &Section, most: usize) -> Vec<Section> {
    let count = 1 + rng.below(most);
    if section.version == Version::One {
        let mut maps = vec![Section::default(); rng.below(count)];
        maps.insert(rng.below(maps.len() + 1), section.clone());
        return maps;
    }
    let mut hands: Vec<Vec<Group>> = vec![Vec::new(); count];
    for group in groups(section) {
        hands[rng.below(count)].push(group);
    }
    for hand in &mut hands {
        shuffle(rng, hand);
    }
    let map = |hand: Vec<Group>| own_pool(rng, hand, &section.constants);
    hands.into_iter().map(map).collect()
}

/// A map of these functions, whose pool has the constants of the section at other places and some more.
/// One without records has now and then none.
fn own_pool(rng: &mut Rng, mut hand: Vec<Group>, constants: &[u64]) -> Section {
    let bare = hand.iter().all(|(_, records)| records.is_empty());
    if bare && rng.one_in(2) {
        return of_groups(hand, Vec::new());
    }
    let mut order: Vec<Option<usize>> = (0..constants.len()).map(Some).collect();
    order.resize(order.len() + rng.below(3), None);
    shuffle(rng, &mut order);
    let records = hand.iter_mut().flat_map(|(_, records)| records);
    for location in records.flat_map(|record| &mut record.locations) {
        renumber(location, &order);
    }
    let pool = order
        .iter()
        .map(|old| old.map_or_else(|| rng.number(64), |old| constants[old]));
    let pool = pool.collect();
    of_groups(hand, pool)
}

/// Has a location of the pool name the place where its constant now stands.
fn renumber(location: &mut Location, order: &[Option<usize>]) {
    if location.kind == 5 {
        let old = location.offset as usize;
        let new = order.iter().position(|own| *own == Some(old));
        location.offset = new.expect("a constant of the pool") as u32;
    }
}
