use super::*;
use crate::layout::Version;
use reference::editions::{Settings, Store};
use reference::replay::{parse, replay};
use reference::restore::Restore;
use reference::Refusal;

/// A store whose edition 1 allows 256 pointers, this machine and both versions.
fn store(machine: u64) -> Store {
    let mut store = Store::empty();
    let settings = Settings {
        largest_count: 256,
        machine,
        version_1: true,
        version_3: true,
    };
    store.make(settings).expect("right settings");
    store
}

/// What is known of a trace is what the second implementation answers, and the image comes out as known.
#[test]
fn traces_are_answered_as_known() {
    let mut rng = Rng::new(12);
    let (mut same, mut differs, mut broken) = (0, 0, [0; Break::ALL.len()]);
    let (mut numbers, mut versions, mut late) = ([0; 34], [0; 2], 0);
    for _ in 0..20_000 {
        let trace = Trace::any(&mut rng);
        let scene = &trace.scene;
        let store = store(scene.machine);
        let restore = Restore {
            store: &store,
            edition: 1,
            section: &trace.section,
            first: scene.first,
            old_starts: &scene.table.olds,
            new_starts: &scene.table.news,
        };
        let mut image = scene.image.clone();
        let answer = replay(&restore, &mut image, &trace.bytes);
        let expected = match trace.known {
            Known::Same => Ok(None),
            Known::Differs(nth) => Ok(Some(nth)),
            Known::Broken(place) => Err(Refusal { number: 35, place }),
        };
        assert_eq!(answer, expected, "{:?} {:x?}", trace.broken, trace.items);
        assert!(image == trace.image);
        match trace.known {
            Known::Same => {
                same += 1;
                for step in parse(&trace.bytes).expect("a right trace") {
                    numbers[usize::from(step.answer.number)] += 1;
                }
                versions[usize::from(scene.section.version == Version::One)] += 1;
            }
            Known::Differs(nth) => {
                differs += 1;
                late += u32::from(nth > 0);
            }
            Known::Broken(_) => {
                let way = Break::ALL.iter().position(|way| Some(*way) == trace.broken);
                broken[way.expect("a way to break it")] += 1;
            }
        }
    }
    assert!(
        same > 3_000 && differs > 2_000 && late > 500,
        "{same} {differs} {late}"
    );
    assert!(broken.iter().all(|count| *count > 200), "{broken:?}");
    assert!(versions.iter().all(|count| *count > 1_000), "{versions:?}");
    for number in [0, 4, 10, 12, 13, 14, 15, 16, 17, 18, 19, 20, 21, 33] {
        assert!(numbers[number] > 20, "{number}: {} times", numbers[number]);
    }
}

/// The items' lengths are those that the shape fixes.
#[test]
fn items_have_the_lengths_of_the_shape() {
    let mut rng = Rng::new(13);
    for _ in 0..200 {
        let trace = Trace::right(&mut rng);
        let lengths = [END, FRAME, ANSWER, END];
        for item in &trace.items {
            assert_eq!(item.bytes.len(), lengths[usize::from(item.kind())]);
        }
        assert_eq!(items::bytes(&trace.items), trace.bytes);
    }
}
