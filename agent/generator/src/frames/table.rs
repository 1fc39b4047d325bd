//! The move table.

use crate::rng::Rng;

/// The two lists of a move table.
#[derive(Clone, Debug, Default)]
pub struct Table {
    pub olds: Vec<u64>,
    pub news: Vec<u64>,
}

impl Table {
    /// A table of so many entries: objects that lie close together, or anywhere.
    pub fn of(rng: &mut Rng, count: usize) -> Table {
        let close = rng.one_in(2);
        let step = rng.pick(&[8, 16, 24, 1]);
        let start = rng.word() >> rng.pick(&[1, 16, 32, 44]);
        let mut olds: Vec<u64> = match close {
            true => (1..=count as u64).map(|nth| start + step * nth).collect(),
            false => (0..count).map(|_| rng.number(64).max(1)).collect(),
        };
        loop {
            olds.sort();
            olds.dedup();
            if olds.len() == count {
                break;
            }
            let missing = count - olds.len();
            olds.extend((0..missing).map(|_| rng.word().max(1)));
        }
        let news = (0..count).map(|_| match rng.below(4) {
            0 => rng.pick(&olds),
            1 => rng.number(64).max(1),
            _ => rng.word().max(1),
        });
        let news = news.collect();
        Table { olds, news }
    }

    /// A table, mostly of a few entries.
    pub fn any(rng: &mut Rng) -> Table {
        let count = match rng.below(32) {
            0 => 200 + rng.below(800),
            1 | 2 => 0,
            _ => rng.pick(&[1, 1, 2, 3, 5, 8, 20]),
        };
        Table::of(rng, count)
    }

    /// The new start of what starts at `old`; 0 stays 0.
    pub fn moved(&self, old: u64) -> Option<u64> {
        if old == 0 {
            return Some(0);
        }
        let nth = self.olds.binary_search(&old).ok()?;
        self.news.get(nth).copied()
    }
}
