//! The receipt in a folder, and what it keeps from being moved twice.

use super::{in_rbx, into, register, SAYS};
use crate::fixtures::{of_pairs, words};
use crate::restore::receipts::digest;
use crate::restore::Restore;
use crate::run::{Folder, Ran};
use serde_json::{json, Value};

/// Row I with its base in RBX, and a table by which what was moved can be moved again.
fn chain() -> Restore {
    Restore {
        moves: "50000 90000\n90000 a0000\n".to_string(),
        ..in_rbx()
    }
}

/// Runs a restore of these files into a folder.
fn restore(folder: &Folder, image: &str, frames: &str, into: &str, more: &[&str]) -> Ran {
    let call = format!(
        "restore --section section --image {image} --first 7000 --moves moves --frames {frames} --into {into}"
    );
    folder.run(call.split(' ').chain(more.iter().copied()))
}

#[test]
fn what_a_receipt_says() {
    let (row, folder) = (chain(), Folder::new());
    row.put(&folder);
    into(&row, &folder, &[]).done(SAYS);
    let receipt: Value = serde_json::from_slice(&folder.get("new/image.receipt.json")).unwrap();
    for (field, file, bytes) in [
        ("before", "image", row.image.clone()),
        ("frames", "frames", row.frames.clone().into_bytes()),
        ("after", "new/image", folder.get("new/image")),
        ("frames_after", "new/frames", folder.get("new/frames")),
    ] {
        assert_eq!(receipt[field]["file"], file);
        assert_eq!(receipt[field]["bytes"], bytes.len());
        assert_eq!(receipt[field]["sha256"], digest(&bytes), "{field}");
    }
    let moved = ["moved_frames", "moved_pointers", "moved_registers"].map(|field| &receipt[field]);
    assert_eq!(moved, [&json!(1), &json!(2), &json!(1)]);
}

/// The new image with either list of frames, and the new frames with the old image, are refused.
#[test]
fn neither_half_is_moved_twice_by_accident() {
    let (row, folder) = (chain(), Folder::new());
    row.put(&folder);
    into(&row, &folder, &[]).done(SAYS);
    for (image, frames, which) in [
        ("new/image", "frames", "new/image"),
        ("new/image", "new/frames", "new/image"),
        ("image", "new/frames", "new/frames"),
    ] {
        let ran = restore(&folder, image, frames, "newer", &[]);
        let start = format!("{which}: refused: it was restored already; ");
        assert!(ran.err.starts_with(&start), "{}", ran.err);
        assert_eq!((ran.status, folder.at("newer").exists()), (Some(1), false));
    }
    let says = "newer: 1 frame moved, 2 pointers, 1 register changed\n";
    restore(&folder, "new/image", "new/frames", "newer", &["--again"]).done(says);
    assert!(folder.get("newer/frames").ends_with(b"rbx=0xa0000\n"));
    assert_eq!(folder.get("newer/image")[16..], words(&[0xA4E20]));
}

/// Registers alone: the image is as it was, and yet the frames that were written are not moved again.
#[test]
fn nor_are_registers_alone() {
    let (mut row, folder) = (chain(), Folder::new());
    row.section = of_pairs(24, &[[register(3), register(3)]]);
    row.put(&folder);
    into(&row, &folder, &[]).done("new: 1 frame moved, 1 pointer, 1 register changed\n");
    assert_eq!(folder.get("new/image"), row.image);
    let ran = restore(&folder, "new/image", "new/frames", "newer", &[]);
    let start = "new/frames: refused: it was restored already; its SHA-256 is 'frames_after' in new/image.receipt.json";
    assert!(ran.err.starts_with(start), "{}", ran.err);
    assert!(!folder.at("newer").exists());
    // The old frames may be moved with that image: it is the old one.
    let says = "newer: 1 frame moved, 1 pointer, 1 register changed\n";
    restore(&folder, "new/image", "frames", "newer", &[]).done(says);
}

/// Frames that were written without a changed register are no others than before.
#[test]
fn frames_that_did_not_change_are_no_obstacle() {
    let (row, folder) = (Restore::row_i(), Folder::new());
    row.put(&folder);
    into(&row, &folder, &[]).done("new: 1 frame moved, 2 pointers, 0 registers changed\n");
    let says = "newer: 1 frame moved, 2 pointers, 0 registers changed\n";
    restore(&folder, "image", "new/frames", "newer", &[]).done(says);
}
