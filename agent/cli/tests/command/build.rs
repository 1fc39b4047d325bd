//! `build`: the section of a listing.

use crate::fixtures::{row_h, with, C};
use crate::list::h_listing;
use crate::run::{sample, Folder};
use generator::layout::Version;
use std::fs;

#[test]
fn the_sections_of_rows_c_and_h() {
    let folder = Folder::new();
    folder.put("c", [6]);
    let ran = folder.run(["build", "c"]);
    assert_eq!(
        (ran.status, &ran.out[..], ran.err.as_str()),
        (Some(0), &C[..], "")
    );
    folder.put("h", h_listing());
    folder.run(["build", "h", "--output", "section"]).done("");
    let shipped = fs::read(sample("h-statepoint.section")).unwrap();
    assert_eq!(folder.get("section"), shipped);
    assert_eq!(row_h(), shipped);
}

#[test]
fn there_and_back_again() {
    let folder = Folder::new();
    let mut rng = generator::Rng::part(7, 0);
    for _ in 0..40 {
        let version = rng.pick(&Version::ALL);
        let section = generator::section_in(&mut rng, version).encode();
        folder.put("section", &section);
        folder
            .run(["list", "section", "--output", "listing"])
            .done("");
        folder
            .run(["build", "listing", "--output", "back"])
            .done("");
        assert_eq!(folder.get("back"), section);
    }
}

/// A listing is refused so, and what it was to be written to is left alone.
#[track_caller]
fn refused(listing: &[u8], number: u64, place: u64, cause: &str) {
    let folder = Folder::new();
    folder.put("listing", listing);
    folder.put("old", "something else");
    let ran = folder.run(["build", "listing", "--output", "old"]);
    ran.refused(number, place, &format!("listing: {cause}"));
    let ran = folder.run(["build", "listing"]);
    ran.refused(number, place, &format!("listing: {cause}"));
    assert_eq!(ran.out, b"");
    assert_eq!(folder.get("old"), b"something else");
    assert_eq!(folder.names(), ["listing", "old"]);
}

#[test]
fn refusals_of_a_listing() {
    let grammar = "listing breaks its grammar";
    refused(&[], 22, 0, grammar);
    refused(&[6, 6], 22, 1, grammar);
    refused(&h_listing()[..108], 22, 108, grammar);
    refused(&h_listing()[..100], 22, 98, grammar);
    let many = [&[3; 13][..], &b"\x05abc".repeat(65_536), &[6]].concat();
    refused(
        &many,
        23,
        0,
        "over 65,535 locations or live-outs in a record",
    );
    refused(&[7, 3, 6], 22, 0, grammar);
    let kind = with(h_listing(), 25 + 13 + 1, 9);
    refused(&kind, 6, 56, "location kind not 1 to 5");
    let count = with(h_listing(), 17, 2);
    refused(
        &count,
        5,
        12,
        "record counts, added exactly, differ from NumRecords",
    );
}

#[test]
fn a_listing_over_its_limit_is_not_read_whole() {
    let folder = Folder::new();
    folder.put_sparse("huge", &[6], 1 << 42);
    let mut command = folder.shell("ulimit -v 524288");
    let ran = crate::run::Ran::of(command.args(["build", "huge"]));
    let cause = "section under 16 or over 16,777,216 bytes, or listing over 33,554,432 bytes";
    let found = ran.refused(1, 0, &format!("huge: {cause}"));
    assert_eq!(found, "it has 4398046511104 bytes");
}

#[test]
fn wrong_calls_of_build() {
    let folder = Folder::new();
    folder.run(["build"]).failed("", "<LISTING>");
    folder
        .run(["build", "missing"])
        .failed("missing: cannot be read: ", "No such file");
    folder
        .run(["build", "."])
        .failed(".: cannot be read: ", "directory");
    let twice = ["build", "--output", "a", "--output=b", "c"];
    folder.run(twice).failed("", "'--output <FILE>'");
}
