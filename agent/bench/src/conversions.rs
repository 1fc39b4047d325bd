//! Section to listing and back, each beside the second implementation and a plain copy of the bytes that it reads.

use crate::measure::{measure, say, table};
use crate::svg;
use std::hint::black_box;

/// Rows that the conversions are compared with, and the ratio to reach to the first.
const REFERENCE: &str = "reference";
const COPY: &str = "plain copy";
const MOST_OF_REFERENCE: f64 = 1.1;

/// A conversion, which says whether it is accepted.
type Convert = fn(&[u8], &mut [u8]) -> bool;

/// Both conversions of an accepted section.
pub fn rows(rounds: usize, section: &[u8]) {
    let listing = agree(section);
    println!("\nlisting of {} bytes", listing.len());
    let library: Convert = |input, output| treskibben::to_listing(input, output).is_ok();
    let second: Convert = |input, output| reference::to_listing(input, output).is_ok();
    one_way(rounds, "section to listing", section, library, second);
    let library: Convert = |input, output| treskibben::to_section(input, output).is_ok();
    let second: Convert = |input, output| reference::to_section(input, output).is_ok();
    one_way(rounds, "listing to section", &listing, library, second);
}

/// Both implementations give the same listing, and of it the same section again. Gives the listing.
fn agree(section: &[u8]) -> Vec<u8> {
    let Ok(listing) = treskibben::listing_of(section) else {
        panic!("the section has no listing")
    };
    let mut second = vec![0; listing.len()];
    assert_eq!(
        reference::to_listing(section, &mut second),
        Ok(listing.len()),
        "the second listing's length"
    );
    assert!(second == listing, "the second listing differs");
    assert!(
        treskibben::section_of(&listing).as_deref() == Ok(section),
        "the listing's section differs"
    );
    second.resize(section.len(), 0);
    assert_eq!(
        reference::to_section(&listing, &mut second),
        Ok(section.len()),
        "the second section's length"
    );
    assert!(second == section, "the second section differs");
    listing
}

/// One conversion, by both and as a copy of its input, each into an output of its own.
fn one_way(rounds: usize, name: &str, input: &[u8], library: Convert, second: Convert) {
    let copy: Convert = |input, output| {
        output[..input.len()].copy_from_slice(input);
        true
    };
    let action = |convert: Convert| {
        let mut output = vec![0; 2 * input.len()];
        move || {
            assert!(
                convert(black_box(input), black_box(&mut output)),
                "{name} is refused"
            )
        }
    };
    let rows = measure(
        rounds,
        &mut [
            (name, &mut action(library)),
            (REFERENCE, &mut action(second)),
            (COPY, &mut action(copy)),
        ],
    );
    println!("\n{}", table(&rows, &[REFERENCE, COPY]));
    let title = format!(
        "{name}: times on {} bytes, {rounds} rounds in one run",
        input.len()
    );
    svg::save(
        &format!("{}.svg", name.replace(' ', "-")),
        &svg::bars(&title, &rows, REFERENCE),
    );
    say(&rows, name, REFERENCE, "the reference", MOST_OF_REFERENCE);
}
