//! The monthly report of a fleet: the totals of many sections, all together and machine by machine.
//!
//! A machine is a computer of the fleet, by the name of the folder that its sections were gathered in. What a
//! section adds and every sum is the library's.

pub mod count;
pub mod gather;
pub mod saved;

use crate::library::{self, Refusal, Totals};
use std::collections::HashMap;

/// The totals of all sections, and those of each machine, which add up to them.
#[derive(Default)]
pub struct Report {
    totals: Totals,
    machines: Vec<Machine>,
    /// Where each machine stands in the list.
    places: HashMap<Option<String>, usize>,
}

/// A machine and the totals of its sections. Sections that were named one by one are of a machine without name.
struct Machine {
    name: Option<String>,
    totals: Totals,
}

impl Report {
    /// The totals of all sections.
    pub fn totals(&self) -> Totals {
        self.totals
    }

    /// Where the machine of this name stands in the list, at whose end it is put where it is new.
    pub fn machine(&mut self, name: Option<String>) -> usize {
        let next = self.machines.len();
        let place = *self.places.entry(name.clone()).or_insert(next);
        if place == next {
            let totals = Totals::default();
            self.machines.push(Machine { name, totals });
        }
        place
    }

    /// Adds totals to a machine: 34, which changes nothing.
    pub fn add(&mut self, machine: usize, totals: Totals) -> Result<(), Refusal> {
        let mut all = self.totals;
        library::join(&mut all, totals)?;
        // The sums of one machine are at most those of all, so that none of them passes here.
        library::join(&mut self.machines[machine].totals, totals)?;
        self.totals = all;
        Ok(())
    }
}

/// Which total passes 2^64 - 1 where totals are added, and by what. None where none does.
pub fn passing(before: Totals, more: Totals) -> Option<String> {
    let [own, other] = [before, more].map(lines);
    let mut pairs = own.into_iter().zip(other);
    let ((name, own), (_, other)) =
        pairs.find(|((_, own), (_, other))| own.checked_add(*other).is_none())?;
    Some(format!(
        "{name} is {own} before, and {other} more are to be added"
    ))
}

/// The totals by their names.
fn lines(totals: Totals) -> [(&'static str, u64); 13] {
    let kinds = totals.kinds;
    [
        ("sections", totals.sections),
        ("refused", totals.refused),
        ("functions", totals.functions),
        ("records", totals.records),
        ("statepoints", totals.statepoints),
        ("pairs", totals.pairs),
        ("kind Register", kinds.register),
        ("kind Direct", kinds.direct),
        ("kind Indirect", kinds.indirect),
        ("kind Constant", kinds.constant),
        ("kind ConstIndex", kinds.const_index),
        ("stack", totals.stack),
        ("unknown", totals.unknown),
    ]
}

#[cfg(test)]
mod tests {
    use super::*;

    fn sections(sections: u64) -> Totals {
        Totals {
            sections,
            ..Totals::default()
        }
    }

    #[test]
    fn machines_stand_in_the_order_in_which_they_came() {
        let mut report = Report::default();
        let name = |name: &str| Some(name.to_string());
        let places = [name("b"), None, name("a"), name("b"), None].map(|name| report.machine(name));
        assert_eq!(places, [0, 1, 2, 0, 1]);
        for (place, more) in [(0, 1), (1, 10), (0, 100)] {
            report.add(place, sections(more)).unwrap();
        }
        let own: Vec<_> = report
            .machines
            .iter()
            .map(|own| own.totals.sections)
            .collect();
        assert_eq!((report.totals.sections, own), (111, vec![101, 10, 0]));
    }

    #[test]
    fn what_passes_changes_nothing() {
        let mut report = Report::default();
        let [one, other] = [Some("a".to_string()), None].map(|name| report.machine(name));
        report.add(one, sections(u64::MAX)).unwrap();
        let refusal = report.add(other, sections(1)).unwrap_err();
        assert_eq!((refusal.number, refusal.place), (34, 0));
        assert_eq!(report.totals, sections(u64::MAX));
        assert_eq!(report.machines[other].totals, Totals::default());
        let found = passing(report.totals, sections(1)).unwrap();
        assert_eq!(
            found,
            "sections is 18446744073709551615 before, and 1 more are to be added"
        );
        assert_eq!(passing(sections(1), sections(u64::MAX - 1)), None);
    }
}
