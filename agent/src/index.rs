//! An address index of a section, and what is asked through it.

use crate::questions::found;
use crate::{ffi, thread, Found, Frames, Machine, MoveTable, Refusal, ThreadRefusal};
use std::ops::Range;

#[cfg(test)]
mod tests;

/// The most bytes that a section has, the fewest of a record of version 3, and where the header says how
/// many records there are.
const SECTION_MOST: usize = 16_777_216;
const RECORD_LEAST: usize = 24;
const NUM_RECORDS: Range<usize> = 12..16;

/// How many numbers an answer has in a list of answers.
const ANSWER: usize = 5;

/// Writes the index of `section` to the start of `index`, and gives how many entries are written: two a
/// record, its address and its number by turns, ordered by address and then by number. Entries beyond
/// them are unchanged.
///
/// [`Index::of`] makes the list itself.
///
/// # Errors
///
/// The refusal of [`check`](crate::check) if the section has a fault, 27 if it is of version 1, which has
/// no addresses, and 24 if the list is shorter than twice the number of records. A refusal leaves all of
/// the list unchanged.
///
/// # Examples
///
/// ```
/// # fn main() -> Result<(), Box<dyn std::error::Error>> {
/// // One record, number 0, at 0x1020.
/// let section = std::fs::read("../samples/h-statepoint.section")?;
/// let mut list = [9; 4];
/// assert_eq!(treskibben::fill_index(&section, &mut list)?, 2);
/// assert_eq!(list, [0x1020, 0, 9, 9]);
///
/// let refusal = treskibben::fill_index(&section, &mut list[..1]).unwrap_err();
/// assert_eq!(refusal.number(), 24);
/// # Ok(())
/// # }
/// ```
pub fn fill_index(section: &[u8], index: &mut [u64]) -> Result<usize, Refusal> {
    let written = ffi::index::fill(section, index).outcome()?;
    Ok(inside(written, index))
}

/// An address index: the addresses and numbers of a section's records in one list, ordered by address.
/// It owns the list and borrows the section that it was made from.
///
/// An index is for many addresses: every call checks the section and tests the list once, however many
/// it is asked by [`find_all`](Index::find_all). A single address is asked by [`find`](crate::find())
/// without an index.
///
/// Only sections of version 3 have one. The calls that are handed none are other functions, so that an
/// index without entries, which is that of a section without records, is not taken for none.
///
/// # Examples
///
/// ```
/// use treskibben::Index;
/// # fn main() -> Result<(), Box<dyn std::error::Error>> {
/// // A function at 0x1000 that has one record, at offset 0x20.
/// let section = std::fs::read("../samples/h-statepoint.section")?;
///
/// let index = Index::of(&section)?;
/// assert_eq!(index.entries(), [0x1020, 0]);
/// assert_eq!(index.find(0x1020), treskibben::find(&section, 0x1020));
///
/// let answers = index.find_all(&[0x1021, 0x1020])?;
/// assert_eq!(answers[0], None);
/// assert_eq!(answers[1].map(|found| found.record), Some(0));
/// # Ok(())
/// # }
/// ```
#[derive(Clone, Debug, PartialEq, Eq)]
pub struct Index<'a> {
    section: &'a [u8],
    entries: Vec<u64>,
}

impl<'a> Index<'a> {
    /// The index of `section`, as [`fill_index`] writes it.
    ///
    /// The list is made once, with as many entries as the section has.
    ///
    /// # Errors
    ///
    /// The refusal of [`check`](crate::check) if the section has a fault, and 27 if it is of version 1.
    ///
    /// # Examples
    ///
    /// ```
    /// use treskibben::Index;
    /// # fn main() -> Result<(), Box<dyn std::error::Error>> {
    /// let older = std::fs::read("../samples/h-version-1.section")?;
    /// assert_eq!(Index::of(&older).unwrap_err().number(), 27);
    ///
    /// // No records: the empty list is the right one.
    /// let section = std::fs::read("../samples/c-empty.section")?;
    /// assert!(Index::of(&section)?.entries().is_empty());
    /// # Ok(())
    /// # }
    /// ```
    pub fn of(section: &'a [u8]) -> Result<Index<'a>, Refusal> {
        let mut entries = vec![0; 2 * records(section)];
        let written = fill_index(section, &mut entries)?;
        entries.truncate(written);
        Ok(Index { section, entries })
    }

    /// A list that was filled before, for instance in another run, as an index of `section`.
    ///
    /// Nothing is tested here. Each call refuses the list by 29 unless it is exactly the entries that the
    /// section yields.
    ///
    /// # Examples
    ///
    /// ```
    /// use treskibben::Index;
    /// # fn main() -> Result<(), Box<dyn std::error::Error>> {
    /// let section = std::fs::read("../samples/h-statepoint.section")?;
    /// let kept = Index::of(&section)?.into_entries();
    /// assert!(Index::from_entries(&section, kept).find(0x1020).is_ok());
    ///
    /// let stale = Index::from_entries(&section, vec![0x1040, 0]);
    /// assert_eq!(stale.find(0x1040).unwrap_err().number(), 29);
    /// # Ok(())
    /// # }
    /// ```
    pub fn from_entries(section: &'a [u8], entries: Vec<u64>) -> Index<'a> {
        Index { section, entries }
    }

    /// The section.
    pub fn section(&self) -> &'a [u8] {
        self.section
    }

    /// The entries: address and number of each record by turns, ordered by address and then by number.
    pub fn entries(&self) -> &[u64] {
        &self.entries
    }

    /// The entries, without the section.
    pub fn into_entries(self) -> Vec<u64> {
        self.entries
    }

    /// The first record with this address, in section order: what [`find`](crate::find()) answers.
    ///
    /// # Errors
    ///
    /// The refusal of [`check`](crate::check) if the section has a fault, 27 if it is of version 1, 29 if
    /// the list is not its index, and 10 exactly if no record has the address. Of an index that
    /// [`of`](Index::of) made, only 10.
    pub fn find(&self, address: u64) -> Result<Found, Refusal> {
        found(ffi::index::find(self.section, &self.entries, address))
    }

    /// What [`find`](Index::find) answers for each of these addresses, in their order: the record, or
    /// `None` where no record has the address. The section is checked and the list tested once.
    ///
    /// # Errors
    ///
    /// The refusal of [`check`](crate::check) if the section has a fault, 27 if it is of version 1, and 29
    /// if the list is not its index. Of an index that [`of`](Index::of) made, none.
    pub fn find_all(&self, addresses: &[u64]) -> Result<Vec<Option<Found>>, Refusal> {
        let mut answers = vec![0; ANSWER * addresses.len()];
        self.find_all_into(addresses, &mut answers)?;
        let (answers, _) = answers.as_chunks::<ANSWER>();
        let found = |&[number, _, record, function, sharing]: &[u64; ANSWER]| {
            (number == 0).then_some(Found {
                record,
                function,
                sharing,
            })
        };
        Ok(answers.iter().map(found).collect())
    }

    /// What [`find`](Index::find) answers for each of these addresses, as numbers: five an address are
    /// written to the start of `answers`, and how many are written is given. Numbers beyond them are
    /// unchanged.
    ///
    /// The five are the refusal's number and place, the record, its function, and how many records have
    /// the address: 10 and four times 0 where none has it.
    ///
    /// # Errors
    ///
    /// As of [`find_all`](Index::find_all), and then 24 if the list is shorter than five times the number
    /// of addresses. A refusal leaves all of `answers` unchanged.
    ///
    /// # Examples
    ///
    /// ```
    /// use treskibben::Index;
    /// # fn main() -> Result<(), Box<dyn std::error::Error>> {
    /// let section = std::fs::read("../samples/h-statepoint.section")?;
    /// let mut answers = [9; 11];
    /// let written = Index::of(&section)?.find_all_into(&[0x1020, 0x1021], &mut answers)?;
    /// assert_eq!(written, 10);
    /// assert_eq!(answers, [0, 0, 0, 0, 1, 10, 0, 0, 0, 0, 9]);
    /// # Ok(())
    /// # }
    /// ```
    pub fn find_all_into(&self, addresses: &[u64], answers: &mut [u64]) -> Result<usize, Refusal> {
        let written = ffi::index::find_all(self.section, &self.entries, addresses, answers);
        Ok(inside(written.outcome()?, answers))
    }

    /// Moves the pointers of a whole thread as [`relocate_thread`](crate::relocate_thread) does, with this
    /// index of the section. With the right index the answer, the image and the registers are the same.
    ///
    /// # Errors
    ///
    /// Those of [`relocate_thread`](crate::relocate_thread); and between 14 and 25, once, 27 if the section
    /// is of version 1 and 29 if the list is not its index.
    ///
    /// # Examples
    ///
    /// ```
    /// use treskibben::{Frame, Index, Machine, MoveTable};
    /// # fn main() -> Result<(), Box<dyn std::error::Error>> {
    /// let section = std::fs::read("../samples/h-statepoint.section")?;
    /// let index = Index::of(&section)?;
    /// let table = MoveTable::new(&[0x50000], &[0x90000]);
    /// let mut image = [7, 0x50000, 0x54e20_u64].map(u64::to_le_bytes).concat();
    ///
    /// let (frames, machine) = ([Frame::new(0x1020)], Machine::Amd64);
    /// let mut registers = machine.registers(0, 0x7000);
    /// let moved =
    ///     index.relocate_thread(&mut image, 0x7000, table, machine, &frames, &mut registers);
    /// assert_eq!(moved, Ok(2));
    /// assert_eq!(image, [7, 0x90000, 0x94e20_u64].map(u64::to_le_bytes).concat());
    /// # Ok(())
    /// # }
    /// ```
    pub fn relocate_thread<'f>(
        &self,
        image: &mut [u8],
        first: u64,
        table: MoveTable,
        machine: Machine,
        frames: impl Into<Frames<'f>>,
        registers: &mut [u64],
    ) -> Result<usize, ThreadRefusal> {
        let (olds, news) = (table.old_starts(), table.new_starts());
        let (machine, frames) = (machine.number(), frames.into().numbers());
        let (section, index) = (self.section, &self.entries);
        thread::pointers(ffi::index::thread(
            section, image, first, olds, news, machine, frames, registers, index,
        ))
    }
}

/// How many records a section says that it has, or fewer where no accepted section of its length has so
/// many.
fn records(section: &[u8]) -> usize {
    let says = section.get(NUM_RECORDS).and_then(<[u8]>::first_chunk);
    let says = says.map_or(0, |bytes| u32::from_le_bytes(*bytes) as usize);
    says.min(section.len().min(SECTION_MOST) / RECORD_LEAST)
}

/// A number of entries that a list has room for. The library is proved to write no more.
fn inside(written: u64, list: &[u64]) -> usize {
    match usize::try_from(written) {
        Ok(number) if number <= list.len() => number,
        _ => panic!(
            "libtreskibben answers that it wrote {written} numbers to a list of {}",
            list.len()
        ),
    }
}
