//! Two moves in a row as one: the joined table. It is made here, and not by the proved library.

use crate::{relocate_thread, Frames, Machine, MoveTable, Refusal};

/// A section of version 3 with nothing in it.
const EMPTY: [u8; 16] = [3, 0, 0, 0, 0, 0, 0, 0, 0, 0, 0, 0, 0, 0, 0, 0];

impl MoveTable<'_> {
    /// Whether a move would take this table: it is handed to the library with a thread of no frames, which
    /// only the table can be at fault in.
    ///
    /// # Errors
    ///
    /// 14 at 0: lists unequal, over 65,536 entries, old starts not strictly rising, or a 0 in either.
    ///
    /// # Examples
    ///
    /// ```
    /// use treskibben::MoveTable;
    ///
    /// assert_eq!(MoveTable::new(&[0x50000, 0x60000], &[0x90000, 0x80000]).check(), Ok(()));
    /// let falling = MoveTable::new(&[0x60000, 0x50000], &[0x90000, 0x80000]);
    /// assert_eq!(falling.check().unwrap_err().number(), 14);
    /// ```
    pub fn check(&self) -> Result<(), Refusal> {
        let (frames, machine) = (Frames::default(), Machine::Amd64);
        relocate_thread(&EMPTY, &mut [], 0, *self, machine, frames, &mut [])?;
        Ok(())
    }
}

/// The joined table of two: each old start of the first whose new start is an old start of the second, with
/// the second's new start for it. It is lent to a move by [`MoveTable::from`].
///
/// It is for a thread that is moved twice before it runs. **Where every pointer's base slot is also listed with
/// itself**, a move by the first table and, on what that left, a move by the second are both accepted exactly
/// when one move by the joined table is, and image and registers are then the same: that is proved
/// (`TwoMoves` in crates/relocate_twice). A base slot is listed with itself where some pointer of the frame's
/// statepoint has it as base and as derived; null pairs have no slots, and a base that holds 0 needs it like
/// any other. Nobody tests it here.
///
/// Without it one move can be another than the two, since the first leaves the old start in the base slot: the
/// second then finds no such object, or takes the derived pointer for one into what is there now.
///
/// # Errors
///
/// 14 at 0, where one of the two is no table that a move takes. [`MoveTable::check`] tells which. The joined
/// table of two others is always one.
///
/// # Examples
///
/// ```
/// use treskibben::{join, relocate, Frame, Machine, MoveTable};
/// # fn main() -> Result<(), Box<dyn std::error::Error>> {
/// // Two objects are moved. Then the first is moved once more, and the second is gone.
/// let first = MoveTable::new(&[0x50000, 0x60000], &[0x90000, 0x80000]);
/// let second = MoveTable::new(&[0x50000, 0x90000], &[0x70000, 0xa0000]);
/// let joined = join(first, second)?;
/// assert_eq!(joined, (vec![0x50000], vec![0xa0000]));
///
/// // The pairs of this statepoint are the slot at RSP + 8 with itself, and the one at RSP + 16 with that.
/// let section = std::fs::read("../samples/h-statepoint.section")?;
/// let stack = |slots: [u64; 3]| slots.map(u64::to_le_bytes).concat();
/// let moved = |mut image: Vec<u8>, table: MoveTable| {
///     let (machine, frame) = (Machine::Amd64, Frame::new(0x1020));
///     let mut registers = machine.registers(0, 0x7000);
///     relocate(&section, &mut image, 0x7000, table, machine, frame, &mut registers)?;
///     Ok::<_, treskibben::Refusal>(image)
/// };
/// let image = stack([7, 0x50000, 0x54e20]);
/// let once = moved(image.clone(), MoveTable::from(&joined))?;
/// assert_eq!(once, stack([7, 0xa0000, 0xa4e20]));
/// assert_eq!(once, moved(moved(image, first)?, second)?);
/// # Ok(())
/// # }
/// ```
pub fn join(first: MoveTable, second: MoveTable) -> Result<(Vec<u64>, Vec<u64>), Refusal> {
    first.check()?;
    second.check()?;
    let entries = first.old_starts().iter().zip(first.new_starts());
    let onward = |(old, between): (&u64, &u64)| {
        // The old starts of a table that is checked rise.
        let nth = second.old_starts().binary_search(between).ok()?;
        Some((*old, second.new_starts()[nth]))
    };
    Ok(entries.filter_map(onward).unzip())
}

#[cfg(test)]
mod tests {
    use super::*;

    type Entries<'a> = &'a [(u64, u64)];

    fn joined(first: Entries, second: Entries) -> Result<Vec<(u64, u64)>, u64> {
        let [first, second] = [first, second].map(|entries| {
            let entries = entries.iter().copied();
            entries.unzip::<u64, u64, Vec<u64>, Vec<u64>>()
        });
        let joined = join((&first).into(), (&second).into());
        let (olds, news) = joined.map_err(|refusal| refusal.number())?;
        Ok(olds.into_iter().zip(news).collect())
    }

    #[test]
    fn each_old_start_with_a_successor() {
        for (first, second, both) in [
            (&[][..], &[][..], &[][..]),
            (&[], &[(1, 2)], &[]),
            (&[(1, 2)], &[], &[]),
            // The order counts, and the first's new start is not kept.
            (&[(1, 2)], &[(2, 3)], &[(1, 3)]),
            (&[(2, 3)], &[(1, 2)], &[]),
            // An old start of the second alone is none of the joined table.
            (&[(1, 2)], &[(1, 9), (2, 3), (4, 5)], &[(1, 3)]),
            // Two objects that went to one place, one that went nowhere, and one that came back.
            (
                &[(1, 7), (2, 2), (3, 6), (4, 7), (8, u64::MAX)],
                &[(2, 4), (7, 1), (u64::MAX, 8)],
                &[(1, 1), (2, 4), (4, 1), (8, 8)],
            ),
        ] {
            assert_eq!(joined(first, second), Ok(both.to_vec()));
        }
    }

    /// A table that no move takes is refused in either place, though no entry of it would be used.
    #[test]
    fn tables_that_are_none() {
        for bad in [
            &[(0, 1)][..],
            &[(1, 0)],
            &[(2, 1), (2, 1)],
            &[(2, 1), (1, 1)],
        ] {
            assert_eq!(joined(bad, &[]), Err(14));
            assert_eq!(joined(&[], bad), Err(14));
        }
        let unequal = MoveTable::new(&[1, 2], &[1]);
        assert_eq!(
            join(unequal, MoveTable::default()).unwrap_err().number(),
            14
        );
        assert_eq!(
            join(MoveTable::default(), unequal).unwrap_err().number(),
            14
        );
    }

    #[test]
    fn as_many_entries_as_there_may_be() {
        let all: Vec<(u64, u64)> = (1..=65_536).map(|old| (old, 65_537 - old)).collect();
        let back: Vec<(u64, u64)> = (1..=65_536).map(|old| (old, old)).collect();
        assert_eq!(joined(&all, &all), Ok(back));
        let more: Vec<(u64, u64)> = (1..=65_537).map(|old| (old, old)).collect();
        assert_eq!(
            (joined(&more, &all), joined(&all, &more)),
            (Err(14), Err(14))
        );
    }
}
