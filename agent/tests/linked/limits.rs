//! Linked sections of the largest length, and calls with little stack.

use crate::calls::Calls;
use crate::common::{say, seed};
use crate::library;
use crate::rows::C;
use generator::layout::LARGEST;
use generator::linked::{whole, Linked};
use generator::questions::addresses;
use generator::{of_length_in, Rng, Section, Version};

/// Linked sections with more bytes behind them than a section has, whatever they are.
fn over(case: &Linked, more: &[u8]) {
    let case = Linked {
        name: "over the largest length",
        bytes: [&case.bytes, more].concat(),
        maps: Vec::new(),
        answer: Some((1, 0)),
    };
    let calls = Calls::new(&case);
    assert_eq!(
        (calls.cut.number(), calls.fill(0), calls.fill(8)),
        (1, 1, 1)
    );
    assert_eq!(calls.find(0), Err((1, 0)));
}

/// As many maps as there can be, each of them empty.
#[test]
fn the_most_maps() {
    let count = LARGEST / C.len();
    let case = whole(vec![Section::default(); count]);
    assert_eq!(case.bytes.len(), LARGEST);
    let calls = Calls::new(&case);
    assert_eq!(calls.cut.maps.len(), 1_048_576);
    assert_eq!((calls.fill(2 * count - 1), calls.fill(2 * count)), (24, 0));
    assert_eq!(calls.find(0), Err((10, 0)));
    over(&case, &[3]);
    over(&case, &C);
}

/// So many maps of one length, which together have at most the largest.
fn equal_lengths(rng: &mut Rng, count: usize) -> Linked {
    let length = LARGEST / count / 8 * 8;
    let maps = (0..count).map(|_| of_length_in(rng, Version::Three, length));
    whole(maps.collect())
}

#[test]
fn large_maps() {
    let mut rng = Rng::new(seed("large linked sections"));
    for count in [1, 2, 1_000] {
        let case = equal_lengths(&mut rng, count);
        let calls = Calls::new(&case);
        assert_eq!((calls.cut.number(), calls.cut.maps.len()), (0, count));
        assert_eq!(
            (calls.fill(2 * count - 1), calls.fill(2 * count + 1)),
            (24, 0)
        );
        let last = addresses(&case.maps[count - 1]).last();
        let (_, last) = last.expect("a record");
        assert!(calls.find(last).is_ok());
        let left = LARGEST - case.bytes.len();
        over(&case, &vec![0; left + 1]);
        say(&format!("{count} maps in {} bytes", case.bytes.len()));
    }
}

/// The calls need little stack, however many maps there are: none is cut by calls in calls.
#[test]
fn linked_sections_with_little_stack() {
    const LITTLE: usize = 64 * 1024;
    let section = C.repeat(100_000);
    let run = move || {
        let maps = library::maps(&section).map(|maps| maps.len());
        let found = library::find(&section, 7);
        let filled = library::fill(&section, &mut [0; 4]);
        (maps, found, filled)
    };
    let little = std::thread::Builder::new().stack_size(LITTLE).spawn(run);
    let answers = little.expect("a thread").join().expect("no panic");
    assert_eq!(answers, (Ok(100_000), Err((10, 0)), [24, 0, 0]));
}
