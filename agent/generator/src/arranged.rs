//! Whole version 3 sections by how the addresses of their records lie, for calls that put them in
//! order: rising as LLVM emits them, falling, shuffled, equal, or hardly any.

use crate::edges::record;
use crate::frames::shuffle;
use crate::layout::{Function, Section, LARGEST};
use crate::rng::Rng;
use crate::valid;

/// How the addresses of the records lie, in section order.
#[derive(Clone, Copy, Debug, PartialEq, Eq)]
pub enum Order {
    /// Each above the one before.
    Rising,
    /// None below the one before, and some equal.
    Level,
    /// Each below the one before.
    Falling,
    /// Rising, but for one record anywhere.
    OneOff,
    /// In any order, all different.
    Shuffled,
    /// In any order, of a few addresses.
    Repeated,
    /// All the same.
    Equal,
    /// There is one record.
    Single,
    /// There is none.
    Empty,
}

impl Order {
    /// All of them.
    pub const ALL: [Order; 9] = [
        Order::Rising,
        Order::Level,
        Order::Falling,
        Order::OneOff,
        Order::Shuffled,
        Order::Repeated,
        Order::Equal,
        Order::Single,
        Order::Empty,
    ];

    /// So many addresses in this order, from `low` on and at most `step` apart, which is not 0.
    fn addresses(self, rng: &mut Rng, count: usize, low: u64, step: u64) -> Vec<u64> {
        let count = match self {
            Order::Single => 1,
            Order::Empty => 0,
            _ => count,
        };
        let mut own: Vec<u64> = (0..count as u64).map(|nth| low + step * nth).collect();
        match self {
            Order::Rising | Order::Single | Order::Empty => {}
            Order::Level => {
                for nth in 1..count {
                    if rng.one_in(3) {
                        own[nth] = own[nth - 1];
                    }
                }
            }
            Order::Falling => own.reverse(),
            Order::OneOff => own.swap(rng.below(count), rng.below(count)),
            Order::Shuffled => shuffle(rng, &mut own),
            Order::Repeated => {
                let few = own[..count.min(3)].to_vec();
                own.iter_mut().for_each(|own| *own = rng.pick(&few));
            }
            Order::Equal => own.fill(low),
        }
        own
    }
}

/// A random section in this order: mostly a few records, now and then some hundred.
pub fn section(rng: &mut Rng, order: Order) -> Section {
    let count = match rng.below(12) {
        0 => 1 + rng.below(300),
        1..=3 => 1 + rng.below(40),
        _ => 1 + rng.below(9),
    };
    let step = rng.pick(&[1, 1, 4, 16, 1 << 20]);
    let span = count as u64 * step;
    let low = match rng.below(6) {
        0 => 0,
        1 => u64::MAX - span,
        2 => (1 << 63) - span / 2,
        3 => (1 << 32) - span.min(1 << 32) / 2,
        _ => rng.word().min(u64::MAX - span),
    };
    let addresses = order.addresses(rng, count, low, step);
    standing(rng, &addresses)
}

/// A section whose records have these addresses, in functions of a few records each and with functions
/// between that have none. The addresses are fewer than 2^32 apart.
fn standing(rng: &mut Rng, addresses: &[u64]) -> Section {
    let mut section = Section::default();
    let mut rest = addresses;
    loop {
        let count = rest.len().min(rng.below(6));
        let (own, after) = rest.split_at(count);
        section.functions.push(holding(rng, own));
        let at = section.functions.last().map_or(0, |own| own.address);
        for address in own {
            let (locations, outs) = (rng.below(4), rng.below(3));
            section
                .records
                .push(record((address - at) as u32, locations, outs));
        }
        rest = after;
        if rest.is_empty() {
            return section;
        }
    }
}

/// A function that has records at these addresses: at the lowest of them, or below it.
fn holding(rng: &mut Rng, own: &[u64]) -> Function {
    let low = own.iter().min().copied().unwrap_or_else(|| rng.number(64));
    let high = own.iter().max().copied().unwrap_or(low);
    let room = (u64::from(u32::MAX) - (high - low)).min(low);
    Function {
        address: low - rng.pick(&[0, 0, 1, 0x20, 1 << 31]).min(room),
        stack_size: valid::stack_size(rng),
        record_count: own.len() as u64,
    }
}

/// The most functions and records, of the least length, in a section of the largest.
const MOST: usize = (LARGEST - 16) / 24;

/// A section of the largest length with so many functions, and as many records without locations as
/// there is room for, in this order. A function and such a record are of the same length.
pub fn largest(rng: &mut Rng, order: Order, functions: usize) -> Section {
    let records = MOST - functions;
    let addresses = order.addresses(rng, records, 0x40_0000, 16);
    let each = records.div_ceil(functions);
    let mut section = Section::default();
    for nth in 0..functions {
        let from = (nth * each).min(addresses.len());
        let to = (from + each).min(addresses.len());
        let own = &addresses[from..to];
        let address = own.iter().min().copied().unwrap_or(0);
        section.functions.push(Function {
            address,
            stack_size: 24,
            record_count: own.len() as u64,
        });
        let records = own.iter().map(|own| record((own - address) as u32, 0, 0));
        section.records.extend(records);
    }
    section
}

#[cfg(test)]
mod tests {
    use super::*;
    use crate::questions::addresses;

    fn own(section: &Section) -> Vec<u64> {
        addresses(section).map(|(_, own)| own).collect()
    }

    /// Whether addresses lie as their order says.
    fn lie(order: Order, own: &[u64]) -> bool {
        let rise = own.is_sorted_by(|one, next| one < next);
        match order {
            Order::Rising => rise,
            Order::Level => own.is_sorted(),
            Order::Falling => own.is_sorted_by(|one, next| one > next),
            Order::OneOff => rise || own.windows(2).filter(|two| two[0] > two[1]).count() <= 2,
            Order::Equal => own.iter().all(|one| *one == own[0]),
            Order::Single => own.len() == 1,
            Order::Empty => own.is_empty(),
            Order::Shuffled | Order::Repeated => true,
        }
    }

    #[test]
    fn addresses_lie_as_their_order_says() {
        let mut rng = Rng::new(1);
        for order in Order::ALL {
            let (mut most, mut unlike) = (0, 0);
            for _ in 0..2_000 {
                let section = section(&mut rng, order);
                let own = own(&section);
                assert_eq!(own.len(), section.records.len());
                assert!(lie(order, &own), "{order:?}: {own:x?}");
                most = most.max(own.len());
                unlike += usize::from(!own.is_sorted());
            }
            assert!(most > 100 || [Order::Single, Order::Empty].contains(&order));
            let any = [Order::Falling, Order::Shuffled, Order::Repeated];
            assert!(unlike > 1_000 || !any.contains(&order), "{order:?}");
        }
    }

    #[test]
    fn the_largest_are_as_long_as_there_can_be() {
        let mut rng = Rng::new(1);
        for functions in [1, 1_000] {
            let section = largest(&mut rng, Order::Shuffled, functions);
            assert_eq!(section.length(), LARGEST);
            assert_eq!(own(&section).len(), MOST - functions);
        }
    }
}
