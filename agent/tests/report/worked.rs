//! The rows of the papers, and the lines of a report.

use crate::rows::{C, H, H_1};
use crate::{numbers, of};
use generator::reports::TOTALS;
use generator::Rng;
use reference::report::{self as second, lines};
use treskibben::report::Totals;

/// Row C alone, as document 02 writes it.
#[test]
fn row_c_alone_is_written_as_in_the_paper() {
    let expected = "sections 1\nrefused 0\nfunctions 0\nrecords 0\nstatepoints 0\npairs 0\n\
                    kinds 0 0 0 0 0\nstack 0\nunknown 0\n";
    let mut of_version_1 = C;
    of_version_1[0] = 1;
    for section in [C, of_version_1] {
        let totals = Totals::of([section]).expect("small sums");
        assert_eq!(totals.to_string(), expected);
    }
}

#[test]
fn row_h_counts_alike_in_both_versions() {
    let expected = [1, 0, 1, 1, 1, 2, 0, 0, 4, 3, 0, 24, 0];
    assert_eq!(Totals::of([H]).map(numbers), Ok(expected));
    assert_eq!(Totals::of([H_1]).map(numbers), Ok(expected));
    let both = Totals::of([&H[..], &H_1[..]]).map(numbers);
    assert_eq!(both, Ok(expected.map(|own| 2 * own)));
}

/// Each prefix of row H, each byte too many, and a flat section's version.
#[test]
fn a_refused_section_adds_to_sections_and_refused_alone() {
    let refused = [1, 1, 0, 0, 0, 0, 0, 0, 0, 0, 0, 0, 0];
    let mut sections: Vec<Vec<u8>> = (0..H.len()).map(|end| H[..end].to_vec()).collect();
    sections.extend((0..H_1.len()).map(|end| H_1[..end].to_vec()));
    sections.extend((1..5).map(|more| [&H[..], &vec![0; more]].concat()));
    sections.push([&[2], &H[1..]].concat());
    sections.push([&H[..151], &[1]].concat());
    for section in sections {
        assert!(treskibben::check(&section).is_err());
        assert_eq!(Totals::of([&section]).map(numbers), Ok(refused));
    }
}

/// No sections at all.
#[test]
fn nothing_is_all_zeros() {
    let nothing: [&[u8]; 0] = [];
    assert_eq!(Totals::of(nothing), Ok(Totals::default()));
    assert_eq!(numbers(Totals::default()), [0; TOTALS]);
}

/// The lines are those of the second implementation.
#[test]
fn lines_are_written_alike() {
    let mut rng = Rng::new(15);
    for nth in 0..1_000 {
        let mut own: [u64; TOTALS] = std::array::from_fn(|nth| nth as u64 + 1);
        if nth > 0 {
            own = std::array::from_fn(|_| rng.number(64));
        }
        let report = second::Report {
            refusal: None,
            totals: second::Totals::of(own),
        };
        let text = String::from_utf8(lines(report)).expect("letters and digits");
        assert_eq!(of(own).to_string(), text);
        assert_eq!(numbers(of(own)), own);
    }
}
