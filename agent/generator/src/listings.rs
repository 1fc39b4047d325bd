//! Listings: the one of a section, written here once more by itself, and random ones, whole and not.

pub mod edges;
pub mod faults;
pub mod grammar;
pub mod largest;
pub mod narrow;
pub mod older;
pub mod overfull;

use crate::layout::{Function, LiveOut, Location, Record, Section, Version};
use crate::{damage, section_in, Case, Rng};
use grammar::{may_follow, Cause};

/// The kinds of items.
pub const FUNCTION: u8 = 1;
pub const CONSTANT: u8 = 2;
pub const RECORD: u8 = 3;
pub const LOCATION: u8 = 4;
pub const LIVE_OUT: u8 = 5;
pub const END: u8 = 6;
/// With body byte 1 the first item of a version 1 listing, and else none.
pub const VERSION: u8 = 7;

/// The length of the longest listing that is read.
pub const LONGEST: usize = 33_554_432;

/// The number of bytes of an item of this kind, 1 to 7, the kind's own byte included.
pub fn item_length(kind: u8) -> usize {
    [25, 9, 13, 10, 4, 1, 2][usize::from(kind) - 1]
}

/// A listing's bytes, and where each of its items begins, the end included.
#[derive(Clone, Debug, Default)]
pub struct Listed {
    pub bytes: Vec<u8>,
    pub items: Vec<usize>,
}

impl Listed {
    /// The listing of a section, whatever its numbers are.
    pub fn of(section: &Section) -> Listed {
        let mut listed = Listed::default();
        if section.version == Version::One {
            listed.item(VERSION, &[(1, 1)]);
        }
        listed.parts(section);
        listed
    }

    /// The same without item 7: the end of a listing that begins otherwise.
    pub fn without_version(section: &Section) -> Listed {
        let mut listed = Listed::default();
        listed.parts(section);
        listed
    }

    /// The items of a section's parts, and the end.
    fn parts(&mut self, section: &Section) {
        let listed = self;
        section.functions.iter().for_each(|f| listed.function(f));
        section.constants.iter().for_each(|c| listed.constant(*c));
        section.records.iter().for_each(|r| listed.record(r));
        listed.item(END, &[]);
    }

    /// The kind of the item before the nth, and 0 where there is none.
    pub fn before(&self, nth: usize) -> u8 {
        nth.checked_sub(1)
            .map_or(0, |nth| self.bytes[self.items[nth]])
    }

    /// An item: its kind, then numbers of these widths.
    fn item(&mut self, kind: u8, numbers: &[(usize, u64)]) {
        self.items.push(self.bytes.len());
        self.bytes.push(kind);
        for (width, number) in numbers {
            self.bytes
                .extend_from_slice(&number.to_le_bytes()[..*width]);
        }
    }

    fn function(&mut self, function: &Function) {
        let Function {
            address,
            stack_size,
            record_count,
        } = *function;
        self.item(
            FUNCTION,
            &[(8, address), (8, stack_size), (8, record_count)],
        );
    }

    fn constant(&mut self, constant: u64) {
        self.item(CONSTANT, &[(8, constant)]);
    }

    fn record(&mut self, record: &Record) {
        self.item(RECORD, &[(8, record.id), (4, record.offset.into())]);
        for location in &record.locations {
            let Location {
                kind,
                size,
                register,
                offset,
            } = *location;
            let numbers = [
                (1, kind.into()),
                (2, size.into()),
                (2, register.into()),
                (4, offset.into()),
            ];
            self.item(LOCATION, &numbers);
        }
        for LiveOut { register, size } in &record.live_outs {
            self.item(LIVE_OUT, &[(2, (*register).into()), (1, (*size).into())]);
        }
    }

    /// The bytes of each item.
    fn split(&self) -> Vec<Vec<u8>> {
        let ends = self.items[1..].iter().copied().chain([self.bytes.len()]);
        let items = self.items.iter().zip(ends);
        items
            .map(|(start, end)| self.bytes[*start..end].to_vec())
            .collect()
    }
}

/// A random case that is made of this section. Where it is known to be accepted, the section that
/// it gives is this one.
pub fn case_of(rng: &mut Rng, section: &Section) -> Case {
    match rng.below(16) {
        0..=2 => Case::known("whole", Listed::of(section).bytes, 0, 0),
        3..=6 => faulty(rng, section),
        7 => faulty_twice(rng, section),
        8..=12 => broken(rng, section),
        13 => Case::open("noise", noise(rng, section.version)),
        _ => damaged(rng, section),
    }
}

/// A listing whose section has one fault, or that says more than its version has room for.
fn faulty(rng: &mut Rng, section: &Section) -> Case {
    let mut section = section.clone();
    if section.version == Version::One && rng.one_in(2) {
        return narrow::case(rng, section);
    }
    let number = rng.pick(faults::numbers(section.version));
    match faults::fault(rng, number, &mut section) {
        Some(place) => Case::known("one fault", Listed::of(&section).bytes, number, place),
        None => Case::known("whole", Listed::of(&section).bytes, 0, 0),
    }
}

/// A listing whose section has two or three faults: which is given depends on their order.
fn faulty_twice(rng: &mut Rng, section: &Section) -> Case {
    let section = burdened(rng, section);
    Case::open("several faults", Listed::of(&section).bytes)
}

/// The section with up to three faults, and in version 1 often with more than it has room for.
fn burdened(rng: &mut Rng, section: &Section) -> Section {
    let mut section = several(rng, section);
    if section.version == Version::One && rng.one_in(2) {
        let beyond = rng.pick(&narrow::Beyond::ALL);
        narrow::widen(rng, beyond, &mut section);
    }
    section
}

/// The section with up to three faults.
fn several(rng: &mut Rng, section: &Section) -> Section {
    let mut section = section.clone();
    for _ in 0..2 + rng.below(2) {
        let number = rng.pick(faults::numbers(section.version));
        faults::fault(rng, number, &mut section);
    }
    section
}

/// A listing that breaks the grammar at one item. It would mostly be refused for what it says too.
fn broken(rng: &mut Rng, section: &Section) -> Case {
    let section = match rng.below(2) {
        0 => section.clone(),
        _ => burdened(rng, section),
    };
    let cause = rng.pick(&Cause::ALL);
    let mut listed = Listed::of(&section);
    match grammar::break_by(rng, cause, &mut listed) {
        Some(place) => Case::known(cause.name(), listed.bytes, 22, place),
        None => Case::open("not to be broken so", listed.bytes),
    }
}

/// A listing with one to three damages, of whole items or of any bytes.
fn damaged(rng: &mut Rng, section: &Section) -> Case {
    let mut items = Listed::of(section).split();
    let version = rng.pick(&Version::ALL);
    let other = Listed::of(&section_in(rng, version));
    for _ in 0..rng.below(3) {
        damage_items(rng, &mut items, &other);
    }
    let mut bytes = items.concat();
    for _ in 0..rng.below(3) {
        damage::damage_bytes(rng, &mut bytes, &other.bytes);
    }
    Case::open("damaged", bytes)
}

/// Exchanges two items, repeats one, takes one out, or puts in one of another listing.
fn damage_items(rng: &mut Rng, items: &mut Vec<Vec<u8>>, other: &Listed) {
    if items.is_empty() {
        return;
    }
    let (one, two) = (rng.below(items.len()), rng.below(items.len()));
    match rng.below(4) {
        0 => items.swap(one, two),
        1 => items.insert(one, items[two].clone()),
        2 => {
            items.remove(one);
        }
        _ => {
            let others = other.split();
            items.insert(one, others[rng.below(others.len())].clone());
        }
    }
}

/// Items of any content, mostly in an order that the grammar allows; first mostly what the version
/// begins with.
fn noise(rng: &mut Rng, version: Version) -> Vec<u8> {
    let mut bytes = Vec::new();
    match version {
        Version::One if rng.one_in(8) => bytes.extend([VERSION, rng.byte()]),
        Version::One => bytes.extend([VERSION, 1]),
        Version::Three => {}
    }
    let mut before = 0;
    for _ in 0..rng.below(12) {
        let kind = match rng.below(40) {
            0 => VERSION,
            _ => 1 + rng.below(5) as u8,
        };
        if may_follow(before, kind) || rng.one_in(16) {
            bytes.extend(any_item(rng, kind));
            before = kind;
        }
    }
    if !rng.one_in(8) {
        bytes.push(END);
    }
    bytes
}

/// An item of this kind, 1 to 7, with any content; small bytes are more frequent.
fn any_item(rng: &mut Rng, kind: u8) -> Vec<u8> {
    let mut item = vec![kind];
    let small = rng.one_in(2);
    for _ in 1..item_length(kind) {
        item.push(if small {
            rng.below(7) as u8
        } else {
            rng.byte()
        });
    }
    item
}
