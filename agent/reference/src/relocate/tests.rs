//! The worked table's rows I to L with what is said beside them, the slips
//! seen before, and refusals 10 and 12 to 17.

use super::*;
use crate::fixtures::*;
use crate::section::encode;

/// The refusal of a changed row I.
fn refused(change: impl Fn(&mut Move)) -> (u64, u64) {
    let mut row = Move::row_i();
    change(&mut row);
    let refusal = row.run().unwrap_err();
    (refusal.number, refusal.place)
}

/// The pairs of row H with another last offset.
fn last_offset(offset: i32) -> Vec<u8> {
    one_function(
        24,
        &[],
        &[statepoint(0x20, &[(rsp(8), rsp(8)), (rsp(8), rsp(offset))])],
    )
}

#[test]
fn row_i() {
    let mut row = Move::row_i();
    assert_eq!(row.run(), Ok(2));
    assert_eq!((row.slot(8), row.slot(16)), (0x90000, 0x94E20));
    assert_eq!(row.image[..8], [0xEE; 8]);
}

#[test]
fn row_j() {
    let mut row = Move::row_i();
    let pairs = [(rsp(8), rsp(16)), (rsp(8), rsp(8))];
    row.section = one_function(24, &[], &[statepoint(0x20, &pairs)]);
    assert_ne!(row.section, row_h());
    assert_eq!(row.run(), Ok(2));
    let mut row_i = Move::row_i();
    row_i.run().unwrap();
    assert_eq!(row.image, row_i.image);
}

#[test]
fn row_k() {
    let mut row = Move::row_i();
    row.set(16, 0x4B1E0);
    assert_eq!(row.run(), Ok(2));
    assert_eq!((row.slot(8), row.slot(16)), (0x90000, 0x8B1E0));
}

#[test]
fn row_l() {
    let mut row = Move::row_i();
    row.set(16, 0x4FFE0);
    row.new_starts = vec![0x10];
    assert_eq!(row.run(), Ok(2));
    assert_eq!((row.slot(8), row.slot(16)), (0x10, 0xFFFF_FFFF_FFFF_FFF0));
}

#[test]
fn also_a_base_inside_an_object_is_21_at_pair_0() {
    assert_eq!(refused(|row| row.set(8, 0x50008)), (21, 0));
}

#[test]
fn also_last_offset_17_is_19_at_pair_1() {
    assert_eq!(refused(|row| row.section = last_offset(17)), (19, 1));
}

#[test]
fn also_last_offset_12_is_20_at_pair_1() {
    assert_eq!(refused(|row| row.section = last_offset(12)), (20, 1));
}

#[test]
fn also_256_pairs_pass_17_and_257_do_not() {
    let mut row = Move::of_pairs(1, &vec![(rsp(0), rsp(0)); 256]);
    row.set(0, 0x50000);
    assert_eq!(row.run(), Ok(256));
    assert_eq!(row.slot(0), 0x90000);
    assert_eq!(
        Move::of_pairs(1, &vec![(rsp(0), rsp(0)); 257]).run(),
        refusal(17, 0)
    );
}

#[test]
fn also_no_pairs_is_accepted_with_0() {
    let mut row = Move::of_pairs(1, &[]);
    row.set(0, 0x50000);
    assert_eq!(row.run(), Ok(0));
    assert_eq!(row.slot(0), 0x50000);
}

#[test]
fn slip_pair_1_is_read_before_pair_0_is_written() {
    let mut row = Move::row_i();
    row.old_starts = vec![0x50000, 0x90000];
    row.new_starts = vec![0x90000, 0xF0000];
    assert_eq!(row.run(), Ok(2));
    assert_eq!((row.slot(8), row.slot(16)), (0x90000, 0x94E20));
}

#[test]
fn slip_the_object_is_not_found_by_the_derived_pointer() {
    let mut row = Move::row_i();
    row.old_starts = vec![0x50000, 0x54E20];
    row.new_starts = vec![0x90000, 0x10];
    assert_eq!(row.run(), Ok(2));
    assert_eq!(row.slot(16), 0x94E20);
}

#[test]
fn slip_an_offset_does_not_wrap_into_the_image() {
    let mut low = Move::of_pairs(3, &[(rbp(-16), rbp(-16))]);
    low.first = u64::MAX - 31;
    low.set_stack_pointer(low.first);
    assert_eq!(low.run(), refusal(19, 0), "RBP 0 and -16 is below 0");
    low.set_frame_pointer(u64::MAX);
    assert_eq!(low.run(), Ok(1), "the slot from 2^64 - 17 on");
    let mut high = Move::of_pairs(3, &[(rbp(17), rbp(17))]);
    high.first = 0;
    high.set_pointers(u64::MAX, 0);
    assert_eq!(high.run(), refusal(19, 0), "above 2^64 - 1");
}

#[test]
fn a_sections_refusal_comes_before_13() {
    let long = vec![0; 1_048_577];
    assert_eq!(
        refused(|row| (row.section, row.image) = (vec![], long.clone())),
        (1, 0)
    );
    assert_eq!(refused(|row| row.section[128] = 9), (6, 128));
    assert_eq!(refused(|row| row.section[151] = 9), (3, 151));
}

#[test]
fn refusal_13_is_for_a_long_image_and_comes_before_14() {
    let mut row = Move::row_i();
    row.image.resize(1_048_576, 0);
    assert_eq!(row.run(), Ok(2));
    row.image.push(0);
    assert_eq!(row.run(), refusal(13, 0));
    row.old_starts.clear();
    assert_eq!(row.run(), refusal(13, 0));
}

#[test]
fn refusal_14_is_for_a_bad_table() {
    assert_eq!(refused(|row| row.old_starts.push(0x60000)), (14, 0));
    assert_eq!(refused(|row| row.new_starts.push(0x60000)), (14, 0));
    assert_eq!(refused(|row| row.old_starts.clear()), (14, 0));
    let table = |old: [u64; 2], new: [u64; 2]| {
        let mut row = Move::row_i();
        (row.old_starts, row.new_starts) = (old.to_vec(), new.to_vec());
        row.run()
            .err()
            .map(|refusal| (refusal.number, refusal.place))
    };
    assert_eq!(table([0x50000, 0x50001], [1, 2]), None);
    assert_eq!(table([0x50000, 0x50000], [1, 2]), Some((14, 0)));
    assert_eq!(table([0x50001, 0x50000], [1, 2]), Some((14, 0)));
    assert_eq!(table([0, 0x50000], [1, 2]), Some((14, 0)));
    assert_eq!(table([0x50000, 0x50001], [1, 0]), Some((14, 0)));
}

#[test]
fn refusal_10_is_for_an_address_without_a_record() {
    assert_eq!(refused(|row| row.frame.address = 0x1021), (10, 0));
    assert_eq!(refused(|row| row.section = row_c()), (10, 0));
}

#[test]
fn refusal_15_is_for_shared_addresses_and_comes_before_12() {
    let two = [record(0x20, vec![], vec![]), statepoint(0x20, &[])];
    assert_eq!(
        refused(|row| row.section = one_function(24, &[], &two)),
        (15, 0)
    );
    let functions = [function(0x1000, 24, 1), function(0x1020, 24, 1)];
    let apart = encode(
        &functions,
        &[],
        &[statepoint(0x20, &[]), statepoint(0, &[])],
    );
    assert_eq!(refused(|row| row.section = apart.clone()), (15, 0));
}

/// The refusal of row I at a record with these locations and live-outs.
fn record_refused(locations: &[Location], live_outs: usize) -> Option<u64> {
    let mut row = Move::row_i();
    let live_outs = vec![live_out(3, 8); live_outs];
    row.section = one_function(24, &[0], &[record(0x20, locations.to_vec(), live_outs)]);
    row.run().err().map(|refusal| refusal.number)
}

#[test]
fn refusal_12_is_for_a_record_that_is_no_statepoint() {
    let zero = small(0);
    let three = [zero.clone(), zero.clone(), zero.clone()];
    assert_eq!(record_refused(&three, 0), None);
    assert_eq!(record_refused(&three, 1), Some(12), "live-outs");
    assert_eq!(record_refused(&three[..2], 0), Some(12), "two locations");
    assert_eq!(record_refused(&[], 0), Some(12));
    for at in 0..3 {
        for kind in [1, 2, 3] {
            let mut locations = three.clone();
            locations[at].kind = kind;
            assert_eq!(record_refused(&locations, 0), Some(12));
        }
    }
    let odd = [three.as_slice(), &[rsp(8)]].concat();
    assert_eq!(record_refused(&odd, 0), Some(12), "one location remains");
}

#[test]
fn refusal_12_reads_the_deopt_count_as_a_signed_number() {
    let deopt = |count: i32, rest: usize| {
        let head = [small(-9), small(5), small(count)];
        record_refused(&[head.to_vec(), vec![small(0); rest]].concat(), 0)
    };
    assert_eq!(deopt(1, 1), None);
    assert_eq!(deopt(1, 3), None, "a null pair");
    assert_eq!(deopt(3, 3), None);
    assert_eq!(deopt(1, 2), Some(12));
    assert_eq!(deopt(4, 3), Some(12));
    assert_eq!(deopt(5, 3), Some(12));
    assert_eq!(deopt(-1, 3), Some(12));
    assert_eq!(deopt(-2, 2), Some(12));
    assert_eq!(deopt(i32::MAX, 2), Some(12));
    assert_eq!(deopt(i32::MIN, 2), Some(12));
}

#[test]
fn deopt_locations_are_no_pairs() {
    let mut row = Move::row_i();
    let head = [small(0), small(0), small(2), rsp(8), rsp(8)];
    let locations = [head.as_slice(), &[rsp(8), rsp(16)]].concat();
    row.section = one_function(24, &[], &[record(0x20, locations, vec![])]);
    assert_eq!(row.run(), Ok(1));
    assert_eq!((row.slot(8), row.slot(16)), (0x50000, 0x94E20));
}

#[test]
fn refusal_16_is_for_an_extent_not_inside_the_image() {
    assert_eq!(
        refused(|row| row.section[24..32].fill(0xFF)),
        (16, 0),
        "unknown"
    );
    assert_eq!(refused(|row| row.section[24] = 25), (16, 0));
    assert_eq!(refused(|row| row.set_stack_pointer(0x6FFF)), (16, 0));
    assert_eq!(refused(|row| row.set_stack_pointer(0x7001)), (16, 0));
    assert_eq!(refused(|row| row.set_stack_pointer(u64::MAX)), (16, 0));
    assert_eq!(
        refused(|row| row.section[24..32].copy_from_slice(&(u64::MAX - 1).to_le_bytes())),
        (16, 0)
    );
}

#[test]
fn refusal_16_comes_before_17() {
    let mut row = Move::of_pairs(1, &vec![(rsp(0), rsp(0)); 257]);
    row.image.pop();
    assert_eq!(row.run(), refusal(16, 0));
}
