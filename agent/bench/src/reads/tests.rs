use super::{lists, near_end, plain, READS};

const LENGTH: usize = 8 * READS + 8;

#[test]
fn every_list_has_as_many_places_with_eight_bytes_at_each() {
    for length in [LENGTH, LENGTH + 1, 2 * LENGTH + 7] {
        for (name, places) in lists(length) {
            assert_eq!(places.len(), READS, "{name}");
            assert!(places.iter().all(|at| at + 8 <= length), "{name}");
        }
    }
}

#[test]
fn lists_are_what_their_names_say() {
    for (name, places) in lists(LENGTH) {
        let aligned = places.iter().all(|at| at % 8 == 0);
        let odd = places.iter().all(|at| at % 2 == 1);
        assert_eq!(
            (aligned, odd),
            (name.ends_with("aligned to 8"), name.ends_with("odd")),
            "{name}"
        );
        assert_eq!(places.is_sorted(), name.starts_with("in order"), "{name}");
    }
}

#[test]
fn a_plain_read_takes_the_lowest_byte_first_and_nothing_past_the_end() {
    let bytes = [0, 1, 2, 3, 4, 5, 6, 7, 8, 0];
    assert_eq!(plain(&bytes, &[0, 1, 2, 1], 0x0807_0605_0403_0201), 2);
    let zeros = [0; 24];
    assert_eq!(
        plain(&zeros, &near_end(zeros.len()), 0),
        2,
        "the two places 9 and 8 bytes before the end"
    );
}
