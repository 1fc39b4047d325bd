//! Small version 1 listings at the edges of the rules, the same in every run.

use super::edges::{after_the_end, cuts, values};
use super::narrow::first_beyond;
use super::overfull::MOST;
use super::{Listed, END, FUNCTION, RECORD, VERSION};
use crate::edges::{both, record, Visit};
use crate::layout::{Section, Version};
use crate::older::asked::full_record;
use crate::older::edges::{addresses, every_part, function, pools};
use crate::Case;

/// Hands over all of them.
pub fn all(visit: Visit) {
    items_7(visit);
    let listed = Listed::of(&every_part());
    cuts(&listed, ["version 1, cut", "version 1, every part"], visit);
    after_the_end(every_part(), 1, "version 1, after the end", visit);
    let sections = addresses().into_iter().chain(pools());
    values(sections, "version 1, value", visit);
    numbers_of_records(visit);
    counts(visit);
    sizes(visit);
    before_and_after_28(visit);
    full_records(visit);
    both::single_bytes(&listed.bytes, "version 1, one byte", visit);
}

/// Item 7 with every body, first, second and after every item; alone and cut.
fn items_7(visit: Visit) {
    let rest = [END];
    visit(Case::known("item 7, cut", vec![VERSION], 22, 0));
    visit(Case::known("item 7 alone", vec![VERSION, 1], 22, 2));
    visit(Case::known(
        "two cut items 7",
        vec![VERSION, 1, VERSION],
        22,
        2,
    ));
    for body in 0..=255 {
        let listing = [&[VERSION, body], &rest[..]].concat();
        let (number, place) = if body == 1 { (0, 0) } else { (22, 0) };
        visit(Case::known("body of item 7", listing, number, place));
        let second = [&[VERSION, 1, VERSION, body], &rest[..]].concat();
        visit(Case::known("a second item 7", second, 22, 2));
        let cut = vec![VERSION, body];
        let place = if body == 1 { 2 } else { 0 };
        visit(Case::known("item 7, no end", cut, 22, place));
    }
    for section in [every_part(), crate::edges::every_part()] {
        let listed = Listed::of(&section);
        for place in listed.items.iter().skip(1) {
            for body in [0, 1, 3, 7] {
                let mut bytes = listed.bytes.clone();
                bytes.splice(*place..*place, [VERSION, body]);
                visit(Case::known("a late item 7", bytes, 22, *place));
            }
        }
    }
}

/// Any number of records with any number of functions.
fn numbers_of_records(visit: Visit) {
    for functions in 0..3 {
        for records in 0..3 {
            let section = Section {
                version: Version::One,
                functions: vec![function(0); functions],
                constants: vec![],
                records: vec![record(0, 1, 1); records],
            };
            let bytes = Listed::of(&section).bytes;
            visit(Case::known("version 1, records", bytes, 0, 0));
        }
    }
}

/// Every byte of every function's record count, at its edges.
fn counts(visit: Visit) {
    let listed = Listed::of(&every_part());
    for place in &listed.items {
        if listed.bytes[*place] != FUNCTION {
            continue;
        }
        for at in place + 17..place + 25 {
            for byte in [1, 0x7f, 0x80, 0xff] {
                let mut bytes = listed.bytes.clone();
                bytes[at] = byte;
                visit(Case::known("version 1, a count", bytes, 28, *place));
            }
        }
    }
}

/// Sizes from 0 to some over 255, of every location.
fn sizes(visit: Visit) {
    let whole = every_part();
    for nth in 0..whole.records.len() {
        for at in 0..whole.records[nth].locations.len() {
            for size in (0..260).chain([0x0800, 0x7fff, 0x8000, 0xff00, u16::MAX]) {
                let mut section = whole.clone();
                section.records[nth].locations[at].size = size;
                let listed = Listed::of(&section);
                let place = first_beyond(&listed);
                assert_eq!(place.is_some(), size > 255);
                let (number, place) = place.map_or((0, 0), |place| (28, place));
                visit(Case::known(
                    "version 1, a size",
                    listed.bytes,
                    number,
                    place,
                ));
            }
        }
    }
}

/// 28 beside 22, beside a fault of the section, and beside both.
fn before_and_after_28(visit: Visit) {
    let mut section = every_part();
    section.records[1].locations[0].kind = 9;
    let kind = Listed::of(&section);
    let place = section.build().locations[0];
    visit(Case::known("version 1, kind 9", kind.bytes, 6, place));
    section.records[3].locations[0].size = 256;
    let both = Listed::of(&section);
    let place = first_beyond(&both).expect("the size");
    visit(Case::known(
        "version 1, kind 9 and a size",
        both.bytes.clone(),
        28,
        place,
    ));
    for broken in [&[END][..], &[0], &[RECORD]] {
        let bytes = [&both.bytes, broken].concat();
        let place = both.bytes.len();
        visit(Case::known("version 1, 22 behind a size", bytes, 22, place));
    }
    let mut bytes = both.bytes;
    bytes[1] = 3;
    visit(Case::known("version 3 by item 7", bytes, 22, 0));
}

/// A record with as many locations and live-outs as it can state, with one more, and with a count or a
/// size that there is no room for.
fn full_records(visit: Visit) {
    let mut section = full_record();
    let full = Listed::of(&section).bytes;
    visit(Case::known("version 1, full record", full, 0, 0));
    section.functions[2].record_count = 1;
    let wide = Listed::of(&section);
    let count = first_beyond(&wide).expect("the count");
    visit(Case::known(
        "version 1, full record and a count",
        wide.bytes,
        28,
        count,
    ));
    let last = section.records[1].locations[MOST - 1].clone();
    section.records[1].locations.push(last);
    let over = Listed::of(&section);
    let is_record = |item: &&usize| over.bytes[**item] == RECORD;
    let second = over.items.iter().filter(is_record).nth(1);
    let second = *second.expect("the second record");
    visit(Case::known(
        "version 1, 23 and a count",
        over.bytes.clone(),
        23,
        second,
    ));
    let mut bytes = over.bytes;
    bytes.pop();
    let length = bytes.len();
    visit(Case::known(
        "version 1, 22, 23 and a count",
        bytes,
        22,
        length,
    ));
}
