//! The question by address over all maps, worked out by hand.

use super::tests::{row_c_1, row_h_at};
use super::*;
use crate::fixtures::*;
use crate::questions::by_address;
use crate::section::encode;

fn found(map: u64, record: u64, function: u64, sharing: u64) -> Result<Found, Refusal> {
    Ok(Found {
        map,
        record,
        function,
        sharing,
    })
}

/// Row H has its record at 0x1020.
#[test]
fn the_first_record_in_order_and_its_own_map() {
    let two = [row_h(), row_h_at(0x2000)].concat();
    assert_eq!(find(&two, 0x1020), found(0, 0, 0, 1));
    assert_eq!(find(&two, 0x2020), found(1, 0, 0, 1));
    assert_eq!(find(&two, 0x1021), refusal(10, 0));
    assert_eq!(find(&two, 0x1000), refusal(10, 0));
    let last = [row_c(), row_c(), row_h()].concat();
    assert_eq!(find(&last, 0x1020), found(2, 0, 0, 1));
    assert_eq!(find(&row_c().repeat(3), 0), refusal(10, 0));
}

#[test]
fn records_that_share_the_address_are_counted_over_all_maps() {
    assert_eq!(find(&row_h().repeat(2), 0x1020), found(0, 0, 0, 2));
    let later = [row_h_at(0x3000), row_c(), row_h(), row_h(), row_h()].concat();
    assert_eq!(find(&later, 0x1020), found(2, 0, 0, 3));
    assert_eq!(find(&later, 0x3020), found(0, 0, 0, 1));
}

/// A first map with functions at 0x100 and 0x200 and records at 0x210 and 0x220;
/// a second with three functions at 0x200, and records at 0x210, 0x220, 0x220
/// and 0x230.
#[test]
fn numbers_are_those_in_the_own_map() {
    let at = |offset| record(offset, vec![], vec![]);
    let functions = [function(0x100, 8, 0), function(0x200, 8, 2)];
    let one = encode(&functions, &[], &[0x10, 0x20].map(at));
    let functions = [0, 3, 1].map(|count| function(0x200, 8, count));
    let other = encode(&functions, &[1], &[0x10, 0x20, 0x20, 0x30].map(at));
    let both = [&one[..], &other].concat();
    assert_eq!(find(&both, 0x210), found(0, 0, 1, 2));
    assert_eq!(find(&both, 0x220), found(0, 1, 1, 3));
    assert_eq!(find(&both, 0x230), found(1, 3, 2, 1));
    let turned = [&other[..], &one].concat();
    assert_eq!(find(&turned, 0x210), found(0, 0, 1, 2));
    assert_eq!(find(&turned, 0x220), found(0, 1, 1, 3));
    assert_eq!(find(&turned, 0x230), found(0, 3, 2, 1));
}

#[test]
fn a_map_of_version_1_is_27_at_its_first_byte() {
    assert_eq!(find(&row_c_1(), 0), refusal(27, 0));
    assert_eq!(find(&row_h_1(), 0x1020), refusal(27, 0));
    let late = [row_h(), row_c(), row_h_1(), row_c_1(), row_c()].concat();
    assert_eq!(find(&late, 0x1020), refusal(27, 168));
    assert_eq!(find(&late, 7), refusal(27, 168));
}

#[test]
fn the_maps_refusals_come_before_27() {
    let row_e = [row_c_1(), row_h(), vec![0]].concat();
    assert_eq!(find(&row_e, 0x1020), refusal(1, 168));
    let row_d = [row_c_1(), with(row_c(), 0, 2)].concat();
    assert_eq!(find(&row_d, 0x1020), refusal(2, 16));
    assert_eq!(find(&[], 0x1020), refusal(1, 0));
}

/// On a section that is one map it is the question by address.
#[test]
fn one_map_is_answered_as_a_section() {
    let mut random = Random(0x3333);
    for _ in 0..3_000 {
        let section = random.section();
        let address = random.below(8) * 0x1000 + random.below(64);
        let plain = by_address(&section, address).map(|own| Found {
            map: 0,
            record: own.record,
            function: own.function,
            sharing: own.sharing,
        });
        assert_eq!(find(&section, address), plain);
    }
}
