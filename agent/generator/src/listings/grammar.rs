//! The grammar of a listing, and listings that break it at a known item.

use super::{any_item, Listed, CONSTANT, END, FUNCTION, LIVE_OUT, LOCATION, RECORD, VERSION};
use crate::rng::Rng;

/// How a listing breaks its grammar.
#[derive(Clone, Copy, Debug, PartialEq, Eq)]
pub enum Cause {
    UnknownKind,
    WrongOrder,
    WrongVersion,
    CutItem,
    MissingEnd,
    AfterTheEnd,
}

impl Cause {
    /// All of them.
    pub const ALL: [Cause; 6] = [
        Cause::UnknownKind,
        Cause::WrongOrder,
        Cause::WrongVersion,
        Cause::CutItem,
        Cause::MissingEnd,
        Cause::AfterTheEnd,
    ];

    /// The cause in words, which is the name of its cases.
    pub fn name(self) -> &'static str {
        match self {
            Cause::UnknownKind => "unknown kind",
            Cause::WrongOrder => "wrong order",
            Cause::WrongVersion => "wrong item 7",
            Cause::CutItem => "cut item",
            Cause::MissingEnd => "missing end",
            Cause::AfterTheEnd => "bytes after the end",
        }
    }
}

/// Whether an item of this kind may stand after one of that kind, or first, where `before` is 0.
/// Item 7, with the right body, stands first only, and what follows it stands as if first.
pub fn may_follow(before: u8, kind: u8) -> bool {
    if kind == VERSION {
        return before == 0;
    }
    let before = if before == VERSION { 0 } else { before };
    match kind {
        FUNCTION | CONSTANT => before <= kind,
        RECORD | END => before != END,
        LOCATION => matches!(before, RECORD | LOCATION),
        LIVE_OUT => matches!(before, RECORD | LOCATION | LIVE_OUT),
        _ => false,
    }
}

/// Breaks a listing that keeps the grammar, and says at which place it is broken. `None` where it
/// has no item that can be broken so; it is then as it was.
pub fn break_by(rng: &mut Rng, cause: Cause, listed: &mut Listed) -> Option<usize> {
    let nth = rng.below(listed.items.len());
    match cause {
        Cause::UnknownKind => Some(unknown_kind(rng, listed, nth)),
        Cause::WrongOrder => Some(wrong_order(rng, listed, nth)),
        Cause::WrongVersion => Some(wrong_version(rng, listed, nth)),
        Cause::CutItem => cut_item(rng, listed),
        Cause::MissingEnd => {
            listed.bytes.truncate(listed.items[nth]);
            Some(listed.items[nth])
        }
        Cause::AfterTheEnd => Some(after_the_end(rng, listed, nth)),
    }
}

/// Breaks any listing that keeps the grammar, and says at which place it is broken.
pub fn break_any(rng: &mut Rng, listed: &mut Listed) -> usize {
    let cause = rng.pick(&[
        Cause::UnknownKind,
        Cause::WrongOrder,
        Cause::WrongVersion,
        Cause::MissingEnd,
        Cause::AfterTheEnd,
    ]);
    break_by(rng, cause, listed).expect("these can break any listing")
}

/// The nth item has a kind that there isn't, or a byte of that value stands before it.
fn unknown_kind(rng: &mut Rng, listed: &mut Listed, nth: usize) -> usize {
    let place = listed.items[nth];
    let kind = match rng.below(3) {
        0 => rng.pick(&[0, 8]),
        1 => rng.pick(&[0x81, 0x86, 0x87, 0xff]),
        _ => 8 + rng.below(248) as u8,
    };
    if rng.one_in(4) {
        listed.bytes.insert(place, kind);
    } else {
        listed.bytes[place] = kind;
    }
    place
}

/// A whole item that may not stand there, before the nth or in its place.
fn wrong_order(rng: &mut Rng, listed: &mut Listed, nth: usize) -> usize {
    let place = listed.items[nth];
    let before = listed.before(nth);
    let wrong: Vec<u8> = (1..=5).filter(|kind| !may_follow(before, *kind)).collect();
    let kind = rng.pick(&wrong);
    let item = any_item(rng, kind);
    let end = match listed.items.get(nth + 1) {
        Some(next) if rng.one_in(2) => *next,
        _ => place,
    };
    listed.bytes.splice(place..end, item);
    place
}

/// An item 7 that may not stand there: before the nth item, which has to be the first and its body 1;
/// in its place, where that is the first of version 1; or cut.
fn wrong_version(rng: &mut Rng, listed: &mut Listed, nth: usize) -> usize {
    let place = listed.items[nth];
    let other = rng.byte();
    let body = match rng.below(4) {
        0 | 1 if nth > 0 => 1,
        2 if other != 1 => other,
        _ => rng.pick(&[0, 2, 3, 7, 0x81]),
    };
    match rng.below(6) {
        0 => {
            listed.bytes.truncate(place);
            listed.bytes.push(VERSION);
        }
        1 | 2 if listed.bytes[place] == VERSION => listed.bytes[place + 1] = body,
        _ => drop(listed.bytes.splice(place..place, [VERSION, body])),
    }
    place
}

/// The listing ends inside an item.
fn cut_item(rng: &mut Rng, listed: &mut Listed) -> Option<usize> {
    let end = listed.items.len() - 1;
    if end == 0 {
        return None;
    }
    let nth = rng.below(end);
    let (place, next) = (listed.items[nth], listed.items[nth + 1]);
    listed
        .bytes
        .truncate(place + 1 + rng.below(next - place - 1));
    Some(place)
}

/// Bytes after the end: any, a second end, the listing a second time; or an end before the nth item.
fn after_the_end(rng: &mut Rng, listed: &mut Listed, nth: usize) -> usize {
    let end = listed.bytes.len();
    match rng.below(4) {
        0 => listed.bytes.push(rng.byte()),
        1 => listed.bytes.push(END),
        2 => listed.bytes.extend_from_within(..),
        _ => {
            let place = listed.items[nth];
            listed.bytes.insert(place, END);
            return place + 1;
        }
    }
    end
}
