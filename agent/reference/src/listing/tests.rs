//! Rows C and H both ways, refusals 22 to 24 and the built section's own, and
//! the open points of the listing.

use super::*;
use crate::fixtures::*;

pub(super) const FUNCTION: &str =
    "01 00 10 00 00 00 00 00 00 18 00 00 00 00 00 00 00 01 00 00 00 00 00 00 00 ";
pub(super) const CONSTANT: &str = "02 05 00 00 00 00 00 00 00 ";
pub(super) const RECORD: &str = "03 07 00 00 00 00 00 00 00 20 00 00 00 ";
pub(super) const LOCATION: &str = "04 01 08 00 03 00 00 00 00 00 ";
pub(super) const LIVE_OUT: &str = "05 03 00 08 ";
pub(super) const END: &str = "06 ";

/// Converts to a section; output beyond the length, and all of it on a
/// refusal, must be unchanged.
pub(super) fn section_in(listing: &[u8], room: usize) -> Result<Vec<u8>, Refusal> {
    let mut out = vec![0xA5; room];
    let answer = to_section(listing, &mut out);
    let length = answer.unwrap_or(0);
    assert!(out[length..].iter().all(|byte| *byte == 0xA5));
    answer.map(|length| out[..length].to_vec())
}

pub(super) fn listing_in(section: &[u8], room: usize) -> Result<Vec<u8>, Refusal> {
    let mut out = vec![0xA5; room];
    let answer = to_listing(section, &mut out);
    let length = answer.unwrap_or(0);
    assert!(out[length..].iter().all(|byte| *byte == 0xA5));
    answer.map(|length| out[..length].to_vec())
}

/// The place of 22 for a listing written as items.
pub(super) fn grammar_place(items: &[&str]) -> u64 {
    match section_in(&hex(&items.concat()), 1_000) {
        Err(Refusal { number: 22, place }) => place,
        other => panic!("{other:?}"),
    }
}

#[test]
fn rows_c_and_h_convert_both_ways() {
    assert_eq!(listing_in(&row_c(), 100), Ok(hex("06")));
    assert_eq!(section_in(&hex("06"), 100), Ok(row_c()));
    assert_eq!(row_h_listing().len(), 109);
    assert_eq!(listing_in(&row_h(), 200), Ok(row_h_listing()));
    assert_eq!(section_in(&row_h_listing(), 200), Ok(row_h()));
}

#[test]
fn every_kind_of_item_converts_both_ways() {
    let listing = hex(&[
        FUNCTION, CONSTANT, CONSTANT, RECORD, LOCATION, LOCATION, LIVE_OUT, END,
    ]
    .concat());
    let section = hex("03 00 00 00 01 00 00 00 02 00 00 00 01 00 00 00
         00 10 00 00 00 00 00 00 18 00 00 00 00 00 00 00 01 00 00 00 00 00 00 00
         05 00 00 00 00 00 00 00  05 00 00 00 00 00 00 00
         07 00 00 00 00 00 00 00 20 00 00 00 00 00 02 00
         01 00 08 00 03 00 00 00 00 00 00 00
         01 00 08 00 03 00 00 00 00 00 00 00
         00 00 01 00
         03 00 00 08");
    assert_eq!(section_in(&listing, 200), Ok(section.clone()));
    assert_eq!(listing_in(&section, 200), Ok(listing));
}

#[test]
fn a_sections_own_refusal_comes_before_24() {
    assert_eq!(listing_in(&[], 0), refusal(1, 0));
    assert_eq!(listing_in(&with(row_h(), 128, 9), 0), refusal(6, 128));
    assert_eq!(listing_in(&with(row_h(), 151, 9), 200), refusal(3, 151));
}

#[test]
fn refusal_24_is_for_output_shorter_than_the_whole_result() {
    assert_eq!(listing_in(&row_h(), 108), refusal(24, 0));
    assert_eq!(listing_in(&row_h(), 109), Ok(row_h_listing()));
    assert_eq!(listing_in(&row_c(), 0), refusal(24, 0));
    assert_eq!(section_in(&row_h_listing(), 151), refusal(24, 0));
    assert_eq!(section_in(&row_h_listing(), 152), Ok(row_h()));
    assert_eq!(section_in(&hex("06"), 15), refusal(24, 0));
}

#[test]
fn refusal_24_comes_after_all_others() {
    assert_eq!(section_in(&[], 0), refusal(22, 0));
    assert_eq!(section_in(&hex(&[RECORD, END].concat()), 0), refusal(5, 12));
}

#[test]
fn refusal_1_is_for_a_listing_over_33554432_bytes() {
    let mut listing = vec![0; 33_554_432];
    assert_eq!(section_in(&listing, 0), refusal(22, 0));
    listing.push(0);
    assert_eq!(section_in(&listing, 0), refusal(1, 0));
}

#[test]
fn an_unknown_kind_is_22_at_its_item() {
    assert_eq!(grammar_place(&["00 ", END]), 0);
    assert_eq!(grammar_place(&[FUNCTION, "08 ", END]), 25);
    assert_eq!(grammar_place(&[CONSTANT, "FF ", END]), 9);
}

#[test]
fn a_cut_item_is_22_at_its_first_byte() {
    for (item, length) in [(FUNCTION, 25), (CONSTANT, 9), (RECORD, 13)] {
        for cut in 1..length {
            assert_eq!(section_in(&hex(item)[..cut], 1_000), refusal(22, 0));
        }
    }
    for (item, length) in [(LOCATION, 10), (LIVE_OUT, 4)] {
        for cut in 1..length {
            let listing = [hex(RECORD), hex(item)[..cut].to_vec()].concat();
            assert_eq!(section_in(&listing, 1_000), refusal(22, 13));
        }
    }
}

#[test]
fn the_later_of_two_items_out_of_order_is_the_fault() {
    assert_eq!(grammar_place(&[CONSTANT, FUNCTION, END]), 9);
    assert_eq!(grammar_place(&[RECORD, FUNCTION, END]), 13);
    assert_eq!(grammar_place(&[RECORD, CONSTANT, END]), 13);
    assert_eq!(grammar_place(&[RECORD, LIVE_OUT, LOCATION, END]), 17);
    assert_eq!(grammar_place(&[FUNCTION, LOCATION, END]), 25);
    assert_eq!(grammar_place(&[LIVE_OUT, END]), 0);
}

#[test]
fn a_new_record_may_have_locations_after_live_outs_of_the_last() {
    let items = [FUNCTION, RECORD, LIVE_OUT, RECORD, LOCATION, END].concat();
    assert_eq!(
        section_in(&hex(&items), 1_000),
        refusal(5, 12),
        "the grammar is kept"
    );
}

#[test]
fn anything_after_an_end_is_22_at_its_first_byte() {
    assert_eq!(grammar_place(&[END, END]), 1);
    assert_eq!(grammar_place(&[END, "00"]), 1);
    assert_eq!(grammar_place(&[CONSTANT, END, "02"]), 10);
    assert_eq!(grammar_place(&[CONSTANT, END, CONSTANT, END]), 10);
}

#[test]
fn a_missing_end_is_22_at_the_listings_length() {
    assert_eq!(section_in(&[], 100), refusal(22, 0), "the empty listing");
    assert_eq!(grammar_place(&[FUNCTION]), 25);
    assert_eq!(grammar_place(&[FUNCTION, RECORD, LOCATION]), 48);
    assert_eq!(section_in(&row_h_listing()[..108], 200), refusal(22, 108));
    assert_eq!(
        section_in(&row_h_listing()[..107], 200),
        refusal(22, 98),
        "the last item is cut"
    );
}

/// A listing of one function and a small record, then a record with so many
/// locations and live-outs, whose item is at 25 + 13.
fn full(num_locations: usize, num_live_outs: usize, end: &str) -> Vec<u8> {
    let mut listing = with(hex(FUNCTION), 17, 2);
    listing.extend([hex(RECORD), hex(RECORD)].concat());
    listing.extend(hex(LOCATION).repeat(num_locations));
    listing.extend(hex(LIVE_OUT).repeat(num_live_outs));
    listing.extend(hex(end));
    listing
}

#[test]
fn refusal_23_is_at_the_record_item_with_too_many_entries() {
    assert_eq!(section_in(&full(65_536, 0, END), 0), refusal(23, 38));
    assert_eq!(section_in(&full(0, 65_536, END), 0), refusal(23, 38));
    assert_eq!(section_in(&full(65_535, 65_535, END), 0), refusal(24, 0));
}

#[test]
fn a_record_with_65535_of_both_converts_back() {
    let listing = full(65_535, 65_535, END);
    let section = section_in(&listing, 2_000_000).unwrap();
    assert_eq!(
        section.len(),
        16 + 24 + 24 + 16 + 65_535 * 12 + 4 + 4 + 65_535 * 4
    );
    assert_eq!(listing_in(&section, listing.len()), Ok(listing));
}

#[test]
fn the_whole_listing_is_judged_by_22_before_23() {
    let listing = full(65_536, 0, "");
    assert_eq!(section_in(&listing, 0), refusal(22, 51 + 655_360));
}

#[test]
fn refusal_23_comes_before_the_sections_own() {
    let mut listing = full(65_536, 0, END);
    listing[17] = 9;
    assert_eq!(section_in(&listing, 0), refusal(23, 38));
}

#[test]
fn values_are_no_grammar() {
    let kind_9 = with(hex(LOCATION), 1, 9);
    let listing = [hex(FUNCTION), hex(RECORD), kind_9, hex(END)].concat();
    assert_eq!(section_in(&listing, 200), refusal(6, 56));
    assert_eq!(section_in(&with(listing, 17, 2), 200), refusal(5, 12));
}

#[test]
fn the_built_sections_refusal_is_at_its_place_there() {
    let index = with(hex(LOCATION), 1, 5);
    let listing = [hex(FUNCTION), hex(RECORD), hex(LOCATION), index, hex(END)].concat();
    assert_eq!(section_in(&listing, 200), refusal(7, 68));
    let mut listing = row_h_listing();
    listing[1..9].fill(0xFF);
    assert_eq!(section_in(&listing, 200), refusal(8, 40));
}

#[test]
fn a_section_over_16777216_bytes_is_1_at_0() {
    let records = |count: u64| {
        let mut listing = hex(FUNCTION);
        listing[17..25].copy_from_slice(&count.to_le_bytes());
        listing.extend(hex(RECORD).repeat(count as usize));
        listing.push(6);
        listing
    };
    // 16 + 24 + 24 * 699,049 is 16,777,216.
    assert_eq!(section_in(&records(699_049), 0), refusal(24, 0));
    assert_eq!(section_in(&records(699_050), 0), refusal(1, 0));
}

#[test]
fn the_longest_listing_of_an_accepted_section_converts_back() {
    let section = crate::encode(&[], &vec![0x0203_0405; 2_097_150], &[]);
    assert_eq!(section.len(), 16_777_216);
    let listing = listing_in(&section, 18_874_351).unwrap();
    assert_eq!(listing.len(), 9 * 2_097_150 + 1);
    assert_eq!(section_in(&listing, 16_777_216), Ok(section));
}

#[test]
fn random_sections_and_damaged_listings_convert_both_ways() {
    let mut random = Random(3);
    for _ in 0..10_000 {
        let section = random.section();
        let mut listing = listing_in(&section, 10_000).unwrap();
        assert_eq!(section_in(&listing, 10_000), Ok(section));
        let at = random.below(listing.len() as u64) as usize;
        listing[at] = random.next() as u8;
        if let Ok(section) = section_in(&listing, 10_000) {
            assert_eq!(listing_in(&section, 10_000), Ok(listing));
        }
    }
}
