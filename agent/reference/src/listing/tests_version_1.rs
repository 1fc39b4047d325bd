//! Listings of version 1: item 7, refusal 28 and its order, and the way back.

use super::tests::*;
use super::*;
use crate::encode_version_1;
use crate::fixtures::*;

const VERSION: &str = "07 01 ";
const UNCOUNTED: &str =
    "01 00 10 00 00 00 00 00 00 18 00 00 00 00 00 00 00 00 00 00 00 00 00 00 00 ";
/// A location of size 256.
const WIDE: &str = "04 01 00 01 03 00 00 00 00 00 ";
/// A location of kind 9.
const KIND_9: &str = "04 09 08 00 03 00 00 00 00 00 ";

fn listing(items: &[&str]) -> Vec<u8> {
    hex(&items.concat())
}

/// The refusal of a listing written as items, with room to spare.
fn refused(items: &[&str]) -> (u64, u64) {
    let refusal = section_in(&listing(items), 1_000).unwrap_err();
    (refusal.number, refusal.place)
}

#[test]
fn rows_c_and_h_convert_both_ways() {
    let row_c_1 = with(row_c(), 0, 1);
    assert_eq!(listing_in(&row_c_1, 100), Ok(hex("07 01 06")));
    assert_eq!(section_in(&hex("07 01 06"), 100), Ok(row_c_1));
    assert_eq!(row_h_1_listing().len(), 111);
    assert_eq!(listing_in(&row_h_1(), 200), Ok(row_h_1_listing()));
    assert_eq!(section_in(&row_h_1_listing(), 200), Ok(row_h_1()));
}

#[test]
fn every_kind_of_item_converts_both_ways() {
    let items = [
        VERSION, UNCOUNTED, CONSTANT, RECORD, LOCATION, LIVE_OUT, RECORD, END,
    ];
    let section = hex("01 00 00 00 01 00 00 00 01 00 00 00 02 00 00 00
         00 10 00 00 00 00 00 00 18 00 00 00 00 00 00 00
         05 00 00 00 00 00 00 00
         07 00 00 00 00 00 00 00 20 00 00 00 00 00 01 00
         01 08 03 00 00 00 00 00
         00 00 01 00
         03 00 00 08
         07 00 00 00 00 00 00 00 20 00 00 00 00 00 00 00
         00 00 00 00
         00 00 00 00");
    assert_eq!(section_in(&listing(&items), 200), Ok(section.clone()));
    assert_eq!(listing_in(&section, 200), Ok(listing(&items)));
}

#[test]
fn an_item_7_with_another_body_is_22() {
    for body in (0..=255).filter(|body| *body != 1) {
        assert_eq!(section_in(&[7, body, 6], 100), refusal(22, 0), "{body}");
    }
}

#[test]
fn an_item_7_after_another_item_is_22() {
    assert_eq!(grammar_place(&[VERSION, VERSION, END]), 2);
    assert_eq!(grammar_place(&[VERSION, "07 03 ", END]), 2);
    assert_eq!(grammar_place(&[FUNCTION, VERSION, END]), 25);
    assert_eq!(grammar_place(&[VERSION, CONSTANT, VERSION, END]), 11);
    assert_eq!(grammar_place(&[RECORD, VERSION, END]), 13);
    assert_eq!(grammar_place(&[END, VERSION]), 1);
    assert_eq!(grammar_place(&[VERSION, END, VERSION]), 3);
}

#[test]
fn a_cut_item_7_and_a_missing_end_are_22() {
    assert_eq!(section_in(&[7], 100), refusal(22, 0));
    assert_eq!(section_in(&[7, 1], 100), refusal(22, 2));
    assert_eq!(section_in(&[7, 1, 7], 100), refusal(22, 2));
    assert_eq!(section_in(&[7, 3], 100), refusal(22, 0));
}

#[test]
fn the_grammar_after_item_7_is_as_without_it() {
    assert_eq!(grammar_place(&[VERSION, LOCATION, END]), 2);
    assert_eq!(grammar_place(&[VERSION, CONSTANT, UNCOUNTED, END]), 11);
    assert_eq!(grammar_place(&[VERSION, END, END]), 3);
    assert_eq!(grammar_place(&[VERSION, "08 ", END]), 2);
}

#[test]
fn a_record_count_other_than_0_is_28_at_its_function() {
    assert_eq!(refused(&[VERSION, FUNCTION, RECORD, END]), (28, 2));
    assert_eq!(refused(&[VERSION, UNCOUNTED, FUNCTION, END]), (28, 27));
    for byte in 17..25 {
        let items = with(listing(&[VERSION, UNCOUNTED, END]), 2 + byte, 0x80);
        assert_eq!(section_in(&items, 100), refusal(28, 2), "{byte}");
    }
}

#[test]
fn a_size_over_255_is_28_at_its_location() {
    let size = |size: u16| {
        let mut items = listing(&[VERSION, RECORD, LOCATION, END]);
        items[17..19].copy_from_slice(&size.to_le_bytes());
        section_in(&items, 100).map(|section| section[33])
    };
    assert_eq!(size(0), Ok(0));
    assert_eq!(size(255), Ok(255));
    for wide in [256, 257, 0x8000, 0xFFFF] {
        assert_eq!(size(wide), refusal(28, 15), "{wide}");
    }
}

#[test]
fn the_first_offending_item_is_the_place() {
    let items = [VERSION, RECORD, LOCATION, WIDE, RECORD, WIDE, END];
    assert_eq!(refused(&items), (28, 2 + 13 + 10));
    assert_eq!(
        refused(&[VERSION, UNCOUNTED, FUNCTION, RECORD, WIDE, END]),
        (28, 27)
    );
}

#[test]
fn a_version_3_listing_is_never_28() {
    let items = [FUNCTION, RECORD, WIDE, END];
    assert!(section_in(&listing(&items), 100).is_ok());
}

#[test]
fn the_whole_listing_is_judged_by_22_before_28() {
    assert_eq!(refused(&[VERSION, FUNCTION]), (22, 27));
    assert_eq!(
        refused(&[VERSION, FUNCTION, RECORD, WIDE, END, END]),
        (22, 51)
    );
}

#[test]
fn the_whole_listing_is_judged_by_23_before_28() {
    let mut items = listing(&[VERSION, FUNCTION, RECORD, WIDE, RECORD]);
    let full = items.len() - 13;
    items.extend(hex(LIVE_OUT).repeat(65_536));
    items.push(6);
    assert_eq!(section_in(&items, 0), refusal(23, full as u64));
    items.truncate(items.len() - 5);
    items.push(6);
    assert_eq!(section_in(&items, 0), refusal(28, 2));
}

#[test]
fn refusal_28_comes_before_the_built_sections() {
    assert_eq!(refused(&[VERSION, RECORD, KIND_9, WIDE, END]), (28, 25));
    assert_eq!(refused(&[VERSION, RECORD, KIND_9, END]), (6, 32));
    let mut long = listing(&[VERSION, RECORD, WIDE]);
    long.extend(hex(RECORD).repeat(700_000));
    long.push(6);
    assert_eq!(section_in(&long, 0), refusal(28, 15));
    long[17..19].copy_from_slice(&[255, 0]);
    assert_eq!(section_in(&long, 0), refusal(1, 0));
}

#[test]
fn the_built_section_is_refused_by_6_and_7_and_never_by_5_or_8() {
    let index = with(hex(LOCATION), 1, 5);
    let items = [listing(&[VERSION, UNCOUNTED, RECORD]), index, hex(END)].concat();
    assert_eq!(section_in(&items, 100), refusal(7, 48));
    let mut high = listing(&[VERSION, UNCOUNTED, RECORD, RECORD, END]);
    high[3..11].fill(0xFF);
    assert!(section_in(&high, 100).is_ok());
    assert!(section_in(&listing(&[VERSION, RECORD, END]), 100).is_ok());
}

#[test]
fn refusal_24_comes_last() {
    assert_eq!(section_in(&row_h_1_listing(), 111), refusal(24, 0));
    assert_eq!(section_in(&row_h_1_listing(), 112), Ok(row_h_1()));
    assert_eq!(listing_in(&row_h_1(), 110), refusal(24, 0));
    assert_eq!(listing_in(&row_h_1(), 111), Ok(row_h_1_listing()));
    assert_eq!(
        section_in(&listing(&[VERSION, FUNCTION, END]), 0),
        refusal(28, 2)
    );
    assert_eq!(
        section_in(&listing(&[VERSION, RECORD, KIND_9, END]), 0),
        refusal(6, 32)
    );
}

/// The longest listing that an accepted section has is one that is read.
#[test]
fn the_longest_listing_of_an_accepted_section_converts_back() {
    let section = encode_version_1(&vec![function(1, 2, 0); 1_048_575], &[], &[]);
    let listing = listing_in(&section, MAX_LISTING).unwrap();
    assert_eq!(listing.len(), 26_214_378);
    assert_eq!(section_in(&listing, 16_777_216), Ok(section));
}
