//! The check in unproved C, compiled from `check.c`, beside the proved one: on sections of several kinds.

use crate::measure::{measure, ratio, say, table, Row};
use crate::section::{self, Statepoints};
use crate::{on, words};

const CHECK: &str = "treskibben check";
const UNPROVED: &str = "unproved C check";
const PLAIN: &str = "plain read";

/// The ratios to reach on the benchmark's section and on one of statepoints.
const MOST_OF_C: f64 = 0.75;
const MOST_OF_READ: f64 = 3.0;

extern "C" {
    fn unproved_check(bytes: *const u8, length: usize) -> i32;
}

/// Whether the C check accepts the section.
pub fn check(bytes: &[u8]) -> bool {
    // SAFETY: it only reads, and `check.c` looks at no byte that it has not found to be inside.
    unsafe { unproved_check(bytes.as_ptr(), bytes.len()) == 1 }
}

/// Both checks and a plain read, on each kind of section; the first two have ratios to reach.
pub fn rows(rounds: usize, bytes: &[u8], limit: usize) {
    let plain = Statepoints::default();
    let of = |kind| section::statepoints(limit, kind);
    let statepoints = of(plain);
    println!(
        "\nthe check in unproved C compiled with {}",
        env!("CHECK_COMPILER")
    );
    for (name, bytes) in [
        ("the benchmark's section", bytes),
        ("statepoints", &statepoints),
    ] {
        let rows = of_section(rounds, name, bytes);
        println!("{}", table(&rows, &[UNPROVED, PLAIN]));
        say(&rows, CHECK, UNPROVED, "the unproved C", MOST_OF_C);
        say(&rows, CHECK, PLAIN, "a plain read", MOST_OF_READ);
    }
    println!("\nthe check of other kinds of section, of the unproved C and of a plain read");
    for (name, bytes) in [
        (
            "statepoints, odd and even",
            of(Statepoints {
                parity_mixed: true,
                ..plain
            }),
        ),
        (
            "live-outs in 10% of the records",
            of(Statepoints {
                live_outs: 10,
                ..plain
            }),
        ),
        (
            "live-outs in every record",
            of(Statepoints {
                live_outs: 100,
                ..plain
            }),
        ),
        (
            "a ConstIndex in 10% of the records",
            of(Statepoints {
                const_index: 10,
                ..plain
            }),
        ),
        (
            "a ConstIndex in every record",
            of(Statepoints {
                const_index: 100,
                ..plain
            }),
        ),
        ("short records", section::short_records(limit, 4096)),
        ("version 1", crate::version_1::of(&statepoints)),
    ] {
        let rows = of_section(rounds, "", &bytes);
        println!(
            "{name:<36}{:>8.3}{:>8.3}",
            ratio(&rows, CHECK, UNPROVED),
            ratio(&rows, CHECK, PLAIN)
        );
    }
}

fn of_section(rounds: usize, name: &str, bytes: &[u8]) -> Vec<Row> {
    assert!(
        check(bytes) && treskibben::check(bytes).is_ok(),
        "a check refuses the section"
    );
    if !name.is_empty() {
        println!("\n{name}, {} bytes", bytes.len());
    }
    measure(
        rounds,
        &mut [
            (CHECK, &mut on(bytes, treskibben::check)),
            (UNPROVED, &mut on(bytes, check)),
            (PLAIN, &mut on(bytes, words::sum)),
        ],
    )
}

#[cfg(test)]
mod tests {
    use super::*;
    use crate::section::Numbers;

    /// It accepts what the second implementation accepts, of sections with one or two bytes changed.
    #[test]
    fn the_same_as_the_second_implementation() {
        let kind = Statepoints {
            parity_mixed: true,
            live_outs: 30,
            const_index: 30,
        };
        for bytes in [
            section::build(3_000),
            section::statepoints(3_000, kind),
            section::short_records(3_000, 5),
        ] {
            same_of(&bytes);
            same_of(&crate::version_1::of(&bytes));
        }
    }

    fn same_of(bytes: &[u8]) {
        assert!(check(bytes), "it refuses an accepted section");
        let mut numbers = Numbers(1);
        let mut accepted = 0;
        for _ in 0..20_000 {
            let mut changed = bytes.to_vec();
            for _ in 0..1 + numbers.below(2) {
                let at = numbers.below(bytes.len() as u64) as usize;
                changed[at] = numbers.below(8) as u8;
            }
            let wanted = reference::section::check(&changed).is_ok();
            assert_eq!(check(&changed), wanted);
            accepted += usize::from(wanted);
        }
        assert!(
            (1_000..19_000).contains(&accepted),
            "{accepted} accepted: both answers are to be met"
        );
        for length in 0..bytes.len() {
            assert_eq!(
                check(&bytes[..length]),
                reference::section::check(&bytes[..length]).is_ok()
            );
        }
    }
}
