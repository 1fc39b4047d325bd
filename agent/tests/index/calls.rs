//! The calls with an index on one section, by the library and by the second implementation.

use crate::common::differ;
use generator::indexes::right;
use generator::questions::{answer, Answer, Question};
use generator::{Case, Section, Version};
use treskibben::Index;

/// What stands in a list before a call.
const BEFORE: u64 = 0xa5a5_5a5a_c3c3_3c3c;

/// What is known of a case beforehand.
#[derive(Clone, Copy)]
pub struct Known<'a> {
    /// The section's own refusal, or 27: number and place.
    section: (u64, u64),
    /// Whether the index is the right one.
    right: bool,
    whole: &'a Section,
}

impl<'a> Known<'a> {
    /// Where the answer of the case is known, which is made of this section.
    pub fn of(case: &Case, whole: &'a Section, index: &[u64]) -> Option<Known<'a>> {
        let section = match (case.answer?, whole.version) {
            ((0, _), Version::One) => (27, 0),
            (own, _) => own,
        };
        let right = section.0 == 0 && index == right(whole);
        Some(Known {
            section,
            right,
            whole,
        })
    }

    /// The refusal of a call that is handed the index; none where it is right.
    pub fn refusal(&self) -> Option<(u64, u64)> {
        match self.section {
            (0, _) => (!self.right).then_some((29, 0)),
            own => Some(own),
        }
    }
}

/// Number, place and value of an answer, and the list after the call.
type Outcome = (u64, u64, u64, Vec<u64>);

fn outcome(answer: Result<u64, (u64, u64)>, list: Vec<u64>) -> Outcome {
    let (number, place) = answer.err().unwrap_or((0, 0));
    (number, place, answer.unwrap_or(0), list)
}

/// Number and place of a refusal, by the library and by the second implementation.
fn refused(refusal: treskibben::Refusal) -> (u64, u64) {
    (refusal.number(), refusal.place())
}
fn refused_2(refusal: reference::Refusal) -> (u64, u64) {
    (refusal.number, refusal.place)
}

/// All that the calls are given.
pub struct Calls<'a> {
    pub case: &'a Case,
    pub known: Option<Known<'a>>,
    pub index: &'a [u64],
    pub addresses: &'a [u64],
}

impl Calls<'_> {
    fn index(&self) -> Index<'_> {
        Index::from_entries(&self.case.bytes, self.index.to_vec())
    }

    /// Shows the case, and fails.
    fn fail(&self, why: &str) -> ! {
        let (index, addresses) = (self.index, self.addresses);
        let shown = &index[..index.len().min(200)];
        let words = format!("{why}\nindex {shown:x?}, addresses {addresses:x?}");
        differ(self.case.name, &self.case.bytes, &words)
    }

    /// Compares two outcomes, and with what is known: number, place, and what is written. What lies beyond,
    /// and all on a refusal, stays as it was. Gives the outcome.
    fn same(
        &self,
        one: Outcome,
        other: Outcome,
        known: Option<Result<&[u64], (u64, u64)>>,
    ) -> Outcome {
        let written = one.2 as usize;
        let beyond = one.3.get(written..);
        let kept = beyond.is_some_and(|beyond| beyond.iter().all(|own| *own == BEFORE));
        let as_known = known.is_none_or(|known| match known {
            Ok(list) => one.0 == 0 && one.3.get(..written) == Some(list),
            Err((number, place)) => (one.0, one.1, written) == (number, place, 0),
        });
        if one != other || !kept || !as_known || (one.0 != 0 && written != 0) {
            self.fail(&format!(
                "by the library {one:x?}, by the second implementation {other:x?}, known beforehand {known:x?}"
            ));
        }
        one
    }

    /// Fills a list that has room for so many entries. Gives the number.
    pub fn fill(&self, room: usize) -> u64 {
        let bytes = &self.case.bytes;
        let (mut list, mut second) = (vec![BEFORE; room], vec![BEFORE; room]);
        let library = treskibben::fill_index(bytes, &mut list);
        let library = outcome(library.map(|own| own as u64).map_err(refused), list);
        let written = reference::fill_index(bytes, &mut second);
        let second = outcome(written.map_err(refused_2), second);
        let entries = self.known.map(|known| right(known.whole));
        let known =
            self.known
                .zip(entries.as_deref())
                .map(|(known, entries)| match known.section.0 {
                    0 if room < entries.len() => Err((24, 0)),
                    0 => Ok(entries),
                    _ => Err(known.section),
                });
        let (number, _, _, list) = self.same(library, second, known);
        if number == 0 {
            let own = Index::of(bytes);
            assert!(own.is_ok_and(|own| list.starts_with(own.entries())));
        }
        number
    }

    /// Looks an address up. With the right index it is the question without one. Gives the number.
    pub fn find(&self, address: u64) -> u64 {
        let bytes = &self.case.bytes;
        let library = self.index().find(address);
        let row = library.map(|own| vec![own.record, own.function, own.sharing]);
        let row = row.map_err(refused);
        let second = reference::by_index(bytes, self.index, address);
        let second = second.map(|own| vec![own.record, own.function, own.sharing]);
        let known = self.known.map(|known| match known.refusal() {
            Some(refusal) => Err(refusal),
            None => plain(known.whole, address),
        });
        let second = second.map_err(refused_2);
        if row != second || known.as_ref().is_some_and(|known| row != *known) {
            self.fail(&format!(
                "{address:#x}: {row:x?}, {second:x?}, known {known:x?}"
            ));
        }
        let number = row.err().map_or(0, |(number, _)| number);
        if [0, 10].contains(&number) && treskibben::find(bytes, address) != library {
            self.fail(&format!(
                "{address:#x}: {library:x?}, without an index otherwise"
            ));
        }
        number
    }

    /// Looks all addresses up, into a list that has room for so many numbers. Gives the number and what is
    /// written.
    pub fn find_all(&self, room: usize) -> (u64, Vec<u64>) {
        let (mut list, mut second) = (vec![BEFORE; room], vec![BEFORE; room]);
        let library = self.index().find_all_into(self.addresses, &mut list);
        let library = outcome(library.map(|own| own as u64).map_err(refused), list);
        let written =
            reference::all_by_index(&self.case.bytes, self.index, self.addresses, &mut second);
        let second = outcome(written.map_err(refused_2), second);
        let rows = self.known.map(|known| {
            let row = |address: &u64| row(plain(known.whole, *address));
            self.addresses.iter().flat_map(row).collect::<Vec<u64>>()
        });
        let known = self
            .known
            .zip(rows.as_deref())
            .map(|(known, rows)| match known.refusal() {
                Some(refusal) => Err(refusal),
                None if room < rows.len() => Err((24, 0)),
                None => Ok(rows),
            });
        let (number, _, written, mut list) = self.same(library, second, known);
        list.truncate(written as usize);
        self.as_one_by_one(number, &list);
        (number, list)
    }

    /// The answers of a list are those of the safe interface.
    fn as_one_by_one(&self, number: u64, list: &[u64]) {
        let all = self.index().find_all(self.addresses);
        let same = match &all {
            Ok(all) if number == 0 => all.iter().zip(list.chunks(5)).all(|(own, row)| {
                let five = own.map(|own| [0, 0, own.record, own.function, own.sharing]);
                row == five.unwrap_or([10, 0, 0, 0, 0])
            }),
            Ok(_) => number == 24,
            Err(refusal) => refusal.number() == number,
        };
        if !same {
            self.fail(&format!(
                "{number}, {list:x?}, and by the safe interface {all:x?}"
            ));
        }
    }
}

/// What a whole section answers to the question by address: record, function and sharing, or number and
/// place.
fn plain(section: &Section, address: u64) -> Result<Vec<u64>, (u64, u64)> {
    match answer(section, Question::Find(address)) {
        Answer::Found {
            record,
            function,
            sharing,
        } => Ok(vec![record, function, sharing]),
        Answer::Refused { number, place } => Err((number, place)),
        other => panic!("{other:?} answers no question by address"),
    }
}

/// The five numbers of an answer.
fn row(answer: Result<Vec<u64>, (u64, u64)>) -> [u64; 5] {
    match answer {
        Ok(own) => [0, 0, own[0], own[1], own[2]],
        Err((number, place)) => [number, place, 0, 0, 0],
    }
}
