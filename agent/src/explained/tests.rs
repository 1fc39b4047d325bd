use super::*;
use crate::ffi::Answer;
use std::cell::RefCell;

const MOVED: Reason = Reason::Moved {
    pair: 7,
    old_base: 8,
    new_base: 0x90,
};

/// The rows of a moved register with a base in memory, and of a null pair.
const ROWS: [[u64; ROW]; 2] = [
    [4, 9, 1, 0x7008, 8, 1, 0, 0, 0, 2, 3, 0x10, 3, 7, 8, 0x90],
    [5, 6, 0, 0, 0, 0, 0, 0, 0, 0, 0, 0, 0, 0, 0, 0],
];

#[test]
fn a_row_is_a_pointer() {
    let base = ExplainedSlot {
        slot: Slot::Address(0x7008),
        content: 8,
        reason: Reason::OnlyBase,
    };
    let derived = ExplainedSlot {
        slot: Slot::Register(3),
        content: 0x10,
        reason: MOVED,
    };
    let expected = [
        ExplainedPointer {
            frame: 4,
            pair: 9,
            slots: Some((base, derived)),
        },
        ExplainedPointer {
            frame: 5,
            pair: 6,
            slots: None,
        },
    ];
    assert_eq!(pointers(ROWS.as_flattened(), 32), expected);
    assert_eq!(pointers(ROWS.as_flattened(), 16), expected[..1]);
    assert_eq!(pointers(ROWS.as_flattened(), 0), []);
    assert_eq!(pointers(&[], 0), []);
}

#[test]
fn only_a_moved_slot_gets_another_content() {
    let slot = |reason| ExplainedSlot {
        slot: Slot::Register(3),
        content: 0x10,
        reason,
    };
    assert_eq!(slot(MOVED).new_content(), 0x98);
    let back = Reason::Moved {
        pair: 0,
        old_base: 0x20,
        new_base: 8,
    };
    assert_eq!(slot(back).new_content(), u64::MAX - 7);
    for reason in [Reason::Unlisted, Reason::OnlyBase, Reason::NullBase] {
        assert_eq!(slot(reason).new_content(), 0x10);
    }
}

/// The text of the panic that a list of rows makes.
fn panic_of(rows: &[u64], written: u64) -> String {
    let payload = std::panic::catch_unwind(|| pointers(rows, written)).expect_err("a panic");
    *payload.downcast::<String>().expect("a panic with a text")
}

#[test]
fn other_numbers_are_a_panic_that_says_so() {
    for written in [1, 15, 17, 31, 48, u64::MAX] {
        let text = panic_of(ROWS.as_flattened(), written);
        assert!(text.contains(&format!("wrote {written} numbers")), "{text}");
        assert!(text.contains("a list of 32"), "{text}");
    }
    for kind in [3, 4, 1 << 32, u64::MAX] {
        for at in [2, 9] {
            let mut row = ROWS[0];
            row[at] = kind;
            let text = panic_of(&row, 16);
            assert!(text.contains(&format!("kind of slot {kind}, ")), "{text}");
        }
    }
    let mut row = ROWS[0];
    row[12] = 4;
    assert!(panic_of(&row, 16).contains("the reason 4, "));
}

/// A call for a thread of so many frames that needs so many rows, and the rooms that it is given.
fn rooms(frames: usize, needs: usize) -> (Result<usize, u64>, Vec<usize>) {
    let rooms = RefCell::new(vec![]);
    let told = thread_rows(&vec![0; 2 * frames], |rows: &mut [u64]| {
        rooms.borrow_mut().push(rows.len());
        match rows.len() < needs {
            true => Answer::refused(24, 0),
            false => Answer::accepted(needs as u64),
        }
    });
    let told = told.map(|pointers| pointers.len());
    (told.map_err(|refusal| refusal.number()), rooms.into_inner())
}

#[test]
fn a_list_of_rows_is_made_longer_once() {
    assert_eq!(rooms(3, 0), (Ok(0), vec![768]));
    assert_eq!(rooms(3, 768), (Ok(48), vec![768]));
    assert_eq!(rooms(3, 784), (Ok(49), vec![768, 12_288]));
    assert_eq!(rooms(3, 12_288), (Ok(768), vec![768, 12_288]));
    assert_eq!(rooms(0, 0), (Ok(0), vec![0]));
    // A library that wants more than there can be is not asked for ever.
    assert_eq!(rooms(3, 12_304), (Err(24), vec![768, 12_288]));
    // A list that is refused by 25 gets no more room than the longest that is not.
    assert_eq!(rooms(1 << 20, 16), (Ok(1), vec![1 << 20]));
}

#[test]
fn another_refusal_is_given_as_it_is() {
    let refused = thread_rows(&[0; 8], |_| Answer::refused(21, 3)).unwrap_err();
    assert_eq!((refused.number(), refused.position()), (21, Some(3)));
    let refused = frame_rows(|_| Answer::refused(21, 3)).unwrap_err();
    assert_eq!((refused.number(), refused.place()), (21, 3));
    assert_eq!(
        frame_rows(|rows| Answer::accepted(rows.len() as u64 / 256)).map(|rows| rows.len()),
        Ok(1)
    );
}
