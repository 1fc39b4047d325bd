//! Records at the edge of being statepoints, in both versions, each alone in a section, and what every kind of
//! location counts.

use crate::step;
use generator::layout::{Function, LiveOut, Location, Record, Section};
use generator::reports::TOTALS;
use generator::Version;

fn location(kind: u8, offset: i32) -> Location {
    Location {
        kind,
        size: 8,
        register: 7,
        offset: offset as u32,
    }
}

/// The totals of a section with this record alone.
fn of_record(version: Version, locations: &[Location], live_outs: usize) -> [u64; TOTALS] {
    let register = 3;
    let record = Record {
        id: 7,
        offset: 0x20,
        locations: locations.to_vec(),
        live_outs: vec![LiveOut { register, size: 8 }; live_outs],
    };
    let function = Function {
        address: 0x1000,
        stack_size: 24,
        record_count: u64::from(version == Version::Three),
    };
    let section = Section {
        version,
        functions: vec![function],
        constants: vec![5, 6],
        records: vec![record],
    };
    let (totals, passed) = step([0; TOTALS], &section.encode());
    assert!(!passed);
    assert_eq!((totals[0], totals[1], totals[2], totals[3]), (1, 0, 1, 1));
    totals
}

/// Whether it is a statepoint, and its pairs.
fn statepoint(version: Version, locations: &[Location], live_outs: usize) -> (u64, u64) {
    let totals = of_record(version, locations, live_outs);
    (totals[4], totals[5])
}

/// Three constants, the last of which tells so many deopt locations, and so many locations after them.
fn head(deopt: i32, rest: usize) -> Vec<Location> {
    let mut locations = vec![location(4, 7), location(4, -1), location(4, deopt)];
    locations.resize(3 + rest, location(3, 8));
    locations
}

/// Every count of deopt locations around what is there, with an even and an odd rest.
#[test]
fn deopt_counts() {
    for version in Version::ALL {
        for rest in 0..=9 {
            for deopt in -3..=rest as i32 + 4 {
                let left = rest as i32 - deopt;
                let is = deopt >= 0 && left >= 0 && left % 2 == 0;
                let expected = if is { (1, left as u64 / 2) } else { (0, 0) };
                let own = statepoint(version, &head(deopt, rest), 0);
                assert_eq!(own, expected, "{version:?}: {deopt} of {rest}");
            }
            for deopt in [
                i32::MIN,
                i32::MIN + 1,
                i32::MAX,
                65_536,
                -65_536,
                1 << 16 | 2,
            ] {
                assert_eq!(statepoint(version, &head(deopt, rest), 0), (0, 0));
            }
        }
    }
}

/// Too few locations, a head that isn't three constants of kind 4, and live-outs.
#[test]
fn other_heads() {
    for version in Version::ALL {
        for count in 0..3 {
            let few = vec![location(4, 0); count];
            assert_eq!(statepoint(version, &few, 0), (0, 0), "{count}");
        }
        for at in 0..5 {
            for kind in 1..=5 {
                let mut locations = head(0, 2);
                locations[at] = location(kind, 0);
                let is = at >= 3 || kind == 4;
                let expected = if is { (1, 1) } else { (0, 0) };
                assert_eq!(statepoint(version, &locations, 0), expected);
            }
        }
        for live_outs in 1..4 {
            assert_eq!(statepoint(version, &head(0, 4), live_outs), (0, 0));
        }
    }
}

/// Pairs of any number and any form.
#[test]
fn pairs_of_every_form_count() {
    for version in Version::ALL {
        for pairs in [0, 1, 2, 255, 256, 257, 300, 32_766] {
            let own = statepoint(version, &head(0, 2 * pairs), 0);
            assert_eq!(own, (1, pairs as u64));
        }
        for (base, derived) in (1..=5).flat_map(|kind| (1..=5).map(move |other| (kind, other))) {
            let mut locations = head(0, 0);
            locations.extend([location(base, 0), location(derived, 1)]);
            assert_eq!(statepoint(version, &locations, 0), (1, 1));
        }
    }
}

/// So many of each kind, no two alike: each stands in its own place.
#[test]
fn every_kind_is_counted_in_its_own_place() {
    for version in Version::ALL {
        for live_outs in [0, 3] {
            let kinds = [1, 2, 2, 3, 3, 3, 4, 4, 4, 4, 5, 5, 5, 5, 5];
            let locations = kinds.map(|kind| location(kind, 1));
            let totals = of_record(version, &locations, live_outs);
            assert_eq!(totals[6..11], [1, 2, 3, 4, 5]);
            assert_eq!((totals[11], totals[12]), (24, 0));
        }
        let mut deopt = head(5, 5);
        deopt[3..].clone_from_slice(&[1, 2, 3, 4, 5].map(|kind| location(kind, 0)));
        let totals = of_record(version, &deopt, 0);
        assert_eq!((totals[4], totals[5]), (1, 0));
        assert_eq!(totals[6..11], [1, 1, 1, 4, 1]);
    }
}
