use super::*;
use std::panic::catch_unwind;

/// What the panic says that `action` ends with.
fn panic_of<T>(action: impl Fn() -> T + std::panic::UnwindSafe) -> String {
    let payload = catch_unwind(action).err().expect("a panic");
    *payload.downcast().expect("a panic with a text")
}

/// A map of nothing.
const C: [u8; 16] = [3, 0, 0, 0, 0, 0, 0, 0, 0, 0, 0, 0, 0, 0, 0, 0];

/// The list that is made first has room for 64 maps; with more of them a second one is made.
#[test]
fn any_number_of_maps() {
    for count in [1, 2, 63, 64, 65, 66, 1_000] {
        let section = C.repeat(count);
        let expected: Vec<Map> = (0..count)
            .map(|number| Map {
                first: 16 * number,
                length: 16,
            })
            .collect();
        assert_eq!(maps(&section).as_ref(), Ok(&expected), "{count}");
        assert_eq!(cut(&section).map(|parts| parts.concat()), Ok(section));
    }
}

#[test]
fn a_refusal_after_many_maps_is_the_maps_own() {
    for count in [0, 1, 64, 65, 1_000] {
        let section = [&C.repeat(count)[..], &[3; 15]].concat();
        let refusal = maps(&section).unwrap_err();
        let place = 16 * count as u64;
        assert_eq!((refusal.number(), refusal.place()), (1, place));
    }
}

#[test]
fn maps_beyond_the_list_are_a_panic_that_says_so() {
    for count in [0, 1, 2] {
        assert_eq!(inside(count, &[9; 5]), count as usize);
    }
    for count in [3, u64::MAX] {
        let text = panic_of(|| inside(count, &[9; 5]));
        let start = format!("libtreskibben answers that it wrote {count} maps to a list of 5 ");
        assert!(text.starts_with(&start), "{text}");
    }
}

#[test]
fn a_map_outside_is_a_panic_that_says_so() {
    let whole = Map {
        first: 3,
        length: 7,
    };
    assert_eq!(map(&[0; 10], [3, 7]), whole);
    assert_eq!(whole.range(), 3..10);
    const MAX: u64 = u64::MAX;
    for [first, length] in [[0, 11], [10, 1], [11, 0], [MAX, 1], [1, MAX], [MAX, MAX]] {
        let text = panic_of(|| map(&[0; 10], [first, length]));
        let start = format!("libtreskibben answers a map of {length} bytes from byte {first}, ");
        assert!(text.starts_with(&start), "{text}");
    }
}
