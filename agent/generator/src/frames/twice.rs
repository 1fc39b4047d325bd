//! Frames that are moved twice: a second table, statepoints that list each base slot with itself, and which
//! frames do.

use super::plain::{self, Slot};
use super::{Scene, Table};
use crate::layout::Location;
use crate::rng::Rng;

impl Table {
    /// A table of moves after this one's. It has mostly all objects where they are now, often others at the
    /// old places, and often objects that go to an old place of its own.
    pub fn next(&self, rng: &mut Rng) -> Table {
        let every = !rng.one_in(4);
        let news = self.news.iter().copied();
        let mut olds: Vec<u64> = news.filter(|_| every || !rng.one_in(4)).collect();
        if rng.one_in(2) {
            olds.extend(&self.olds);
        }
        let more = rng.below(3);
        olds.extend((0..more).map(|_| rng.word().max(1)));
        olds.sort();
        olds.dedup();
        let news = (0..olds.len()).map(|_| match rng.below(3) {
            0 => rng.pick(&olds),
            _ => rng.word().max(1),
        });
        let news = news.collect();
        Table { olds, news }
    }

    /// The joined table: each old start whose new start is an old start of the next table, with that one's
    /// new start for it.
    pub fn joined(&self, next: &Table) -> Table {
        let mut joined = Table::default();
        for (old, between) in self.olds.iter().zip(&self.news) {
            if let Some(nth) = next.olds.iter().position(|old| old == between) {
                joined.olds.push(*old);
                joined.news.push(next.news[nth]);
            }
        }
        joined
    }
}

/// Whether two locations are the same slots.
fn same(one: &Location, other: &Location) -> bool {
    let place = |it: &Location| (it.kind, it.register, it.offset, it.size);
    place(one) == place(other)
}

/// Adds a pair of each base with itself to every statepoint where it isn't listed.
pub fn list_bases(scene: &mut Scene) {
    for record in &mut scene.section.records {
        let Some(first) = plain::first_pair(record) else {
            continue;
        };
        let pairs: Vec<Vec<Location>> = record.locations[first..]
            .chunks_exact(2)
            .map(<[Location]>::to_vec)
            .collect();
        let mut listed: Vec<Location> = Vec::new();
        for pair in pairs.iter().filter(|pair| same(&pair[0], &pair[1])) {
            listed.push(pair[0].clone());
        }
        for base in pairs.iter().map(|pair| &pair[0]) {
            let is_slot = matches!(base.kind, 1 | 3);
            if is_slot && !listed.iter().any(|other| same(base, other)) {
                listed.push(base.clone());
                record.locations.extend([base.clone(), base.clone()]);
            }
        }
    }
}

/// The first pair of a frame with a base slot that is not listed with itself, and that slot. The frame's pairs
/// are null or have the right form.
pub fn base_alone(scene: &Scene, stop: usize) -> Option<(usize, Slot)> {
    let pairs = plain::slots(scene, stop);
    let itself: Vec<Slot> = pairs
        .iter()
        .flatten()
        .filter(|[base, derived]| base == derived)
        .map(|[base, _]| *base)
        .collect();
    let bases = pairs
        .iter()
        .enumerate()
        .flat_map(|(nth, pair)| pair.iter().map(move |[base, _]| (nth, *base)));
    let mut alone = bases.filter(|(_, base)| !itself.contains(base));
    alone.next()
}

#[cfg(test)]
mod tests {
    use super::*;

    #[test]
    fn bases_are_alone_until_they_are_listed() {
        let mut rng = Rng::new(1);
        let mut alone = 0;
        for _ in 0..1_000 {
            let mut scene = Scene::many(&mut rng, 2);
            let is_alone = |scene: &Scene, stop| base_alone(scene, stop).is_some();
            alone += (0..2).filter(|stop| is_alone(&scene, *stop)).count();
            list_bases(&mut scene);
            assert!((0..2).all(|stop| !is_alone(&scene, stop)));
        }
        assert!((500..1_500).contains(&alone), "{alone}");
    }

    #[test]
    fn tables_after_a_table_have_no_fault() {
        let mut rng = Rng::new(1);
        let mut joined = 0;
        for _ in 0..1_000 {
            let table = Table::any(&mut rng);
            let next = table.next(&mut rng);
            for table in [&next, &table.joined(&next)] {
                assert!(table.olds.is_sorted_by(|one, next| one < next));
                assert!(!table.olds.contains(&0) && !table.news.contains(&0));
                assert_eq!(table.olds.len(), table.news.len());
            }
            joined += usize::from(!table.joined(&next).olds.is_empty());
        }
        assert!(joined > 500, "{joined}");
    }
}
