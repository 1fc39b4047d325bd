//! Address indexes of a section: the right one, and lists that are like it and are no index of it.

use crate::arranged::{self, Order};
use crate::layout::{Section, Version};
use crate::questions::addresses;
use crate::rng::Rng;
use crate::{crowded_in, section_in};

/// How an index is unlike the right one.
#[derive(Clone, Copy, Debug, PartialEq, Eq)]
pub enum Change {
    /// Not at all.
    Right,
    /// An address or a record number is another.
    Changed,
    /// Two records stand at each other's places.
    Exchanged,
    /// Two neighbours are exchanged, often ones of the same address.
    Neighbours,
    /// Two numbers are exchanged, of one record or of two.
    Crossed,
    /// A record is missing.
    Missing,
    /// A record stands there once more.
    Doubled,
    /// A record stands in the place of another, and so twice.
    Replaced,
    /// The last numbers are cut off, often one.
    Cut,
    /// Numbers stand behind it.
    Longer,
    /// It is that of another section.
    Other,
    /// It is empty.
    Empty,
    /// It is in section order.
    Unsorted,
    /// It is in falling order.
    Falling,
    /// Records of one address stand in falling order.
    Backward,
    /// All of it is one number.
    Flat,
}

impl Change {
    /// All of them.
    pub const ALL: [Change; 16] = [
        Change::Right,
        Change::Changed,
        Change::Exchanged,
        Change::Neighbours,
        Change::Crossed,
        Change::Missing,
        Change::Doubled,
        Change::Replaced,
        Change::Cut,
        Change::Longer,
        Change::Other,
        Change::Empty,
        Change::Unsorted,
        Change::Falling,
        Change::Backward,
        Change::Flat,
    ];
}

/// The entries that a section yields: address and number of each record, ordered by address and then
/// by number. The numbers are given out in section order, and a stable sort keeps that.
pub fn right(section: &Section) -> Vec<u64> {
    let mut pairs = pairs(section);
    pairs.sort_by_key(|[address, _]| *address);
    pairs.concat()
}

/// Address and number of each record, in section order. Those of version 1 have no addresses.
fn pairs(section: &Section) -> Vec<[u64; 2]> {
    let own = addresses(section).map(|(_, address)| address);
    own.zip(0..).map(|(own, nth)| [own, nth]).collect()
}

/// The index of a section with this change. It may be the right one by chance, and of a section with
/// few records it often is.
pub fn changed(rng: &mut Rng, section: &Section, change: Change) -> Vec<u64> {
    let entries = right(section);
    match change {
        Change::Right => entries,
        Change::Other => of_another(rng, section),
        Change::Empty => Vec::new(),
        Change::Longer => longer(rng, entries),
        Change::Unsorted => pairs(section).concat(),
        _ if entries.is_empty() => entries,
        Change::Crossed => crossed(rng, entries),
        Change::Cut => cut(rng, entries),
        _ => {
            let mut pairs = entries.as_chunks::<2>().0.to_vec();
            rearrange(rng, change, &mut pairs);
            pairs.concat()
        }
    }
}

/// Does one of the changes to whole records of an index that isn't empty.
fn rearrange(rng: &mut Rng, change: Change, pairs: &mut Vec<[u64; 2]>) {
    let count = pairs.len();
    let (any, other) = (rng.below(count), rng.below(count));
    match change {
        Change::Changed => {
            let number = &mut pairs[any][rng.below(2)];
            *number = other_number(rng, *number);
        }
        Change::Exchanged => pairs.swap(any, other),
        Change::Neighbours if count > 1 => exchange_neighbours(rng, pairs),
        Change::Missing => {
            pairs.remove(any);
        }
        Change::Doubled => {
            let place = rng.pick(&[any, any + 1, other, count]);
            pairs.insert(place, pairs[any]);
        }
        Change::Replaced => {
            let with = rng.pick(&[any + 1, any + count - 1, other]);
            pairs[any] = pairs[with % count];
        }
        Change::Falling => pairs.reverse(),
        Change::Backward => pairs.sort_by_key(|[address, nth]| (*address, u64::MAX - nth)),
        Change::Flat => {
            let number = rng.pick(&[0, u64::MAX, pairs[any][0]]);
            pairs.fill([number; 2]);
        }
        _ => {}
    }
}

/// Exchanges two neighbours of several records; where there are some of one address, often those.
fn exchange_neighbours(rng: &mut Rng, pairs: &mut [[u64; 2]]) {
    let same = |nth: &usize| pairs[*nth][0] == pairs[nth - 1][0];
    let twins: Vec<usize> = (1..pairs.len()).filter(same).collect();
    let nth = match twins.is_empty() || rng.one_in(2) {
        true => 1 + rng.below(pairs.len() - 1),
        false => rng.pick(&twins),
    };
    pairs.swap(nth - 1, nth);
}

/// Exchanges two numbers of an index that isn't empty, mostly ones that stand close.
fn crossed(rng: &mut Rng, mut numbers: Vec<u64>) -> Vec<u64> {
    let count = numbers.len();
    let (one, far) = (rng.below(count), rng.below(count));
    let other = rng.pick(&[one + 1, one + 2, one + 3, far]);
    numbers.swap(one, other % count);
    numbers
}

/// Cuts numbers off an index that isn't empty.
fn cut(rng: &mut Rng, mut numbers: Vec<u64>) -> Vec<u64> {
    let left = rng.below(numbers.len());
    let last = numbers.len() - 1;
    numbers.truncate(rng.pick(&[last, last, last.saturating_sub(1), left]));
    numbers
}

/// An index with a random change, or none.
pub fn any(rng: &mut Rng, section: &Section) -> Vec<u64> {
    let change = match (section.version, rng.below(3)) {
        (Version::One, 0) => Change::Other,
        (_, 0 | 1) => rng.pick(&Change::ALL),
        _ => Change::Right,
    };
    changed(rng, section, change)
}

/// A number beside this one, one that only a narrower number would take for it, or any.
fn other_number(rng: &mut Rng, number: u64) -> u64 {
    match rng.below(6) {
        0 | 1 => number.wrapping_add(1),
        2 => number.wrapping_sub(1),
        3 => number ^ 1 << rng.below(64),
        4 => number ^ rng.pick(&[1 << 31, 1 << 32, 1 << 63]),
        _ => rng.number(64),
    }
}

/// The same numbers with some behind them: the last ones again, zeros, the greatest, or any.
fn longer(rng: &mut Rng, mut numbers: Vec<u64>) -> Vec<u64> {
    let last = numbers.len().saturating_sub(2);
    let last = [&numbers[last..], &[0, 0]].concat();
    let count = rng.pick(&[1, 2, 2, 2, 3, 4]);
    let kind = rng.below(4);
    let more = (0..count).map(|nth| match kind {
        0 => last[nth % 2],
        1 => 0,
        2 => u64::MAX,
        _ => rng.number(64),
    });
    let more: Vec<u64> = more.collect();
    numbers.extend(more);
    numbers
}

/// The index of another section: of any, of this one at other addresses, or of this one without a
/// record.
fn of_another(rng: &mut Rng, section: &Section) -> Vec<u64> {
    let mut own = pairs(section);
    match rng.below(5) {
        0 => return right(&section_in(rng, Version::Three)),
        1 => return right(&crowded_in(rng, Version::Three)),
        2 => {
            let order = rng.pick(&Order::ALL);
            return right(&arranged::section(rng, order));
        }
        3 => {
            let by = rng.pick(&[1, 16, 1 << 12, 1 << 32, u64::MAX]);
            own.iter_mut()
                .for_each(|pair| pair[0] = pair[0].wrapping_add(by));
        }
        _ if own.is_empty() => {}
        _ => {
            own.remove(rng.below(own.len()));
            (0..).zip(&mut own).for_each(|(nth, pair)| pair[1] = nth);
        }
    }
    own.sort();
    own.concat()
}

#[cfg(test)]
mod tests {
    use super::*;

    /// A change changes something, wherever the section has enough records.
    #[test]
    fn changes_change_an_index_of_several_records() {
        let mut rng = Rng::new(1);
        for change in Change::ALL {
            let mut differ = 0;
            for nth in 0..2_000 {
                let order = Order::ALL[nth % Order::ALL.len()];
                let section = arranged::section(&mut rng, order);
                let index = changed(&mut rng, &section, change);
                differ += usize::from(index != right(&section));
            }
            let least = match change {
                Change::Right => 0,
                _ => 400,
            };
            assert!(differ >= least, "{change:?}: {differ} times");
            assert!(change != Change::Right || differ == 0);
        }
    }

    #[test]
    fn the_right_index_rises_and_has_each_record_once() {
        let mut rng = Rng::new(1);
        for nth in 0..2_000 {
            let section = arranged::section(&mut rng, Order::ALL[nth % Order::ALL.len()]);
            let index = right(&section);
            let (pairs, rest) = index.as_chunks::<2>();
            assert!(rest.is_empty() && pairs.is_sorted_by(|one, next| one < next));
            let mut numbers: Vec<u64> = pairs.iter().map(|pair| pair[1]).collect();
            numbers.sort();
            assert!(numbers.into_iter().eq(0..section.records.len() as u64));
        }
    }

    /// Version 1 yields no entries, and what is handed in with it often has some.
    #[test]
    fn version_1_has_no_index() {
        let mut rng = Rng::new(1);
        let mut some = 0;
        for _ in 0..1_000 {
            let section = crowded_in(&mut rng, Version::One);
            assert!(right(&section).is_empty());
            some += usize::from(!any(&mut rng, &section).is_empty());
        }
        assert!(some > 100, "{some}");
    }
}
