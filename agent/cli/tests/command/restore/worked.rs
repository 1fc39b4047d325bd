//! The worked rows I to L, the cases beside them, and the samples.

use super::Restore;
use crate::fixtures::{of_pairs, rsp, words};
use crate::run::{sample, Folder};
use std::fs;

const REST: u64 = 0xEEEE_EEEE_EEEE_EEEE;

#[test]
fn row_i() {
    let image = Restore::row_i().done("1 frame moved, 2 pointers");
    assert_eq!(image, words(&[REST, 0x90000, 0x94E20]));
}

#[test]
fn row_j_the_pairs_exchanged() {
    let row = Restore {
        section: of_pairs(24, &[[rsp(8), rsp(16)], [rsp(8), rsp(8)]]),
        ..Restore::row_i()
    };
    let image = row.done("1 frame moved, 2 pointers");
    assert_eq!(image, words(&[REST, 0x90000, 0x94E20]));
}

#[test]
fn row_k_a_derived_pointer_below_its_base() {
    let row = Restore {
        image: words(&[REST, 0x50000, 0x4B1E0]),
        ..Restore::row_i()
    };
    let image = row.done("1 frame moved, 2 pointers");
    assert_eq!(image, words(&[REST, 0x90000, 0x8B1E0]));
}

#[test]
fn row_l_below_zero() {
    let row = Restore {
        image: words(&[REST, 0x50000, 0x4FFE0]),
        moves: "50000 10".to_string(),
        ..Restore::row_i()
    };
    let image = row.done("1 frame moved, 2 pointers");
    assert_eq!(image, words(&[REST, 0x10, 0xFFFF_FFFF_FFFF_FFF0]));
}

#[test]
fn also_a_base_inside_an_object() {
    let row = Restore {
        image: words(&[REST, 0x50008, 0x54E20]),
        ..Restore::row_i()
    };
    assert_eq!(
        row.refused(21, 0),
        "frames:1: base neither 0 nor an old start; frame 0 (address 0x1020, RBP 0x0, RSP 0x7000): pair 0: \
         its base slot RSP+0x8 at 0x7008 holds 0x50008; the old start below it is 0x50000, 8 bytes before"
    );
}

#[test]
fn also_a_slot_outside_and_a_collision() {
    for (offset, number, cause) in [
        (17, 19, "a slot not wholly inside the extent"),
        (12, 20, "collision"),
    ] {
        let row = Restore {
            section: of_pairs(24, &[[rsp(8), rsp(8)], [rsp(8), rsp(offset)]]),
            ..Restore::row_i()
        };
        let words = row.refused(number, 0);
        assert!(
            words.starts_with(&format!("frames:1: {cause}; ")),
            "{words}"
        );
        assert!(
            words.contains("): pair 1: its derived slot RSP+0x"),
            "{words}"
        );
    }
}

#[test]
fn also_256_pairs_and_257_and_none() {
    for pairs in [256, 257, 0] {
        let row = Restore {
            section: of_pairs(24, &vec![[rsp(8), rsp(8)]; pairs]),
            ..Restore::row_i()
        };
        match pairs {
            256 => {
                let image = row.done("1 frame moved, 256 pointers");
                assert_eq!(image, words(&[REST, 0x90000, 0x54E20]));
            }
            257 => assert!(row
                .refused(17, 0)
                .starts_with("frames:1: over 256 pointers; ")),
            _ => assert_eq!(row.done("1 frame moved, 0 pointers"), row.image),
        }
    }
}

/// The samples are row I, and the session in docs/COMMAND.md.
#[test]
fn the_samples() {
    let folder = Folder::new();
    fs::copy(sample("i.image"), folder.at("i.image")).unwrap();
    let text = |name| sample(name).into_os_string().into_string().unwrap();
    let ran = folder.run([
        "restore",
        "--section",
        &text("h-statepoint.section"),
        "--image",
        "i.image",
        "--first",
        "0x7000",
        "--moves",
        &text("i.moves"),
        "--frames",
        &text("i.frames"),
        "--in-place",
    ]);
    ran.done("i.image: 1 frame moved, 2 pointers\n");
    assert_eq!(folder.get("i.image"), words(&[0, 0x90000, 0x94E20]));
    assert_eq!(
        fs::read(sample("i.image")).unwrap(),
        words(&[0, 0x50000, 0x54E20])
    );
}
