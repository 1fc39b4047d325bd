//! Listings with as many locations or live-outs in a record as it can state, and with more.

use super::grammar::break_any;
use super::{burdened, item_length, Listed, LIVE_OUT, LOCATION, RECORD};
use crate::edges::{function, record};
use crate::layout::{Section, Version};
use crate::{Case, Rng};

/// The most of either that a record can have.
pub const MOST: usize = 65_535;

/// A listing that is refused by 23: a record has too many of `kind`, locations or live-outs. A later
/// one may have too many too, and the section often has faults, or says more than version 1 has room
/// for.
pub fn overfull(rng: &mut Rng, section: &Section, kind: u8) -> Case {
    let mut section = with_record(section);
    if rng.one_in(2) {
        section = burdened(rng, &section);
    }
    let nth = rng.below(section.records.len());
    let count = MOST + rng.pick(&[1, 1, 1, 2, 1_000]);
    let later = nth + 1 + rng.below(8);
    let (listed, place) = if later < section.records.len() {
        filled(&section, &[(nth, kind, count), (later, kind, MOST + 1)])
    } else {
        filled(&section, &[(nth, kind, count)])
    };
    Case::known("overfull", listed.bytes, 23, place)
}

/// A listing with exactly as many as a record can have, which is no fault.
pub fn full(rng: &mut Rng, section: &Section, kind: u8) -> Case {
    let section = with_record(section);
    let nth = rng.below(section.records.len());
    let (listed, _) = filled(&section, &[(nth, kind, MOST)]);
    Case::known("full", listed.bytes, 0, 0)
}

/// A listing with too many of `kind` that also breaks the grammar, which is refused by 22.
pub fn broken(rng: &mut Rng, section: &Section, kind: u8) -> Case {
    let section = with_record(section);
    let nth = rng.below(section.records.len());
    let (mut listed, _) = filled(&section, &[(nth, kind, MOST + 1)]);
    let place = break_any(rng, &mut listed);
    Case::known("overfull and broken", listed.bytes, 22, place)
}

/// The section, with one record more where it has none.
fn with_record(section: &Section) -> Section {
    let mut section = section.clone();
    if section.records.is_empty() {
        let count = u64::from(section.version == Version::Three);
        section.functions.push(function(0x1000, count));
        section.records.push(record(4, 1, 1));
    }
    section
}

/// The listing of a section some of whose records, each given by its number, have so many of a kind:
/// the last that they have is repeated. Of the repeated items only the first is in the list of
/// items. Also the place of the first such record.
fn filled(section: &Section, records: &[(usize, u8, usize)]) -> (Listed, usize) {
    let mut section = section.clone();
    for (nth, ..) in records {
        let (record, one) = (&mut section.records[*nth], record(0, 1, 1));
        if record.locations.is_empty() {
            record.locations = one.locations;
        }
        if record.live_outs.is_empty() {
            record.live_outs = one.live_outs;
        }
    }
    let mut listed = Listed::of(&section);
    let bytes = &listed.bytes;
    let is_record = |nth: &usize| bytes[listed.items[*nth]] == RECORD;
    let items: Vec<usize> = (0..listed.items.len()).filter(is_record).collect();
    for (nth, kind, count) in records {
        let record = &section.records[*nth];
        let (locations, live_outs) = (record.locations.len(), record.live_outs.len());
        let (last, few) = match *kind {
            LOCATION => (items[*nth] + locations, locations),
            _ => (items[*nth] + locations + live_outs, live_outs),
        };
        repeat(&mut listed, last, count - few);
    }
    let first = records.iter().map(|(nth, ..)| items[*nth]).min();
    let place = listed.items[first.expect("at least one record")];
    (listed, place)
}

/// Repeats an item, so many times more.
fn repeat(listed: &mut Listed, nth: usize, times: usize) {
    let place = listed.items[nth];
    let next = place + item_length(listed.bytes[place]);
    let more = listed.bytes[place..next].repeat(times);
    listed.items[nth + 1..]
        .iter_mut()
        .for_each(|item| *item += more.len());
    listed.bytes.splice(next..next, more);
}

/// Both kinds that a record can have too many of.
pub const KINDS: [u8; 2] = [LOCATION, LIVE_OUT];
