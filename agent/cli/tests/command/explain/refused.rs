//! What a restore refuses is refused here too.

use super::{every_reason, explain};
use crate::fixtures::{of_pairs, rsp};
use crate::restore::registers::in_rbx;
use crate::restore::Restore;
use crate::run::Folder;

/// A thread is refused at a frame's position, a frame by itself at the pair.
#[test]
fn places_of_a_thread_and_of_a_frame() {
    let (mut row, folder) = (every_reason(), Folder::new());
    // The pair (RSP+0x28, RSP+0x38) of the first frame finds no old start.
    row.moves = "50000 90000\n".to_string();
    let ran = explain(&row, &folder, &[]);
    let words = "frames:2: base neither 0 nor an old start";
    assert!(ran
        .refused(21, 0, words)
        .contains(": pair 6: its base slot RSP+0x28 at 0x7028 "));
    let ran = explain(&row, &folder, &["--frame", "0"]);
    assert!(ran
        .refused(21, 6, words)
        .contains(": pair 6: its base slot RSP+0x28 at 0x7028 "));
    let ran = explain(&row, &folder, &["--frame", "0", "--slot", "7008"]);
    ran.refused(21, 6, words);
    // The other frame is not concerned.
    let ran = explain(&row, &folder, &["--frame", "1"]);
    assert_eq!((ran.status, ran.err.as_str()), (Some(0), ""));
    assert_eq!(folder.names(), crate::restore::FILES);
}

/// What all frames share is refused whatever is asked for, also of a frame that is not there.
#[test]
fn what_all_frames_share() {
    let (mut row, folder) = (every_reason(), Folder::new());
    row.moves = "0 1\n".to_string();
    for more in [&[][..], &["--frame", "1"], &["--frame", "9"]] {
        let found = explain(&row, &folder, more);
        let words = "moves:1: lists unequal, over 65,536 entries, old starts not strictly rising, \
            or a 0 in either";
        assert_eq!(found.refused(14, 0, words), "the old start is 0");
    }
    row.section[0] = 2;
    for more in [&[][..], &["--frame", "1"], &["--frame", "9"]] {
        explain(&row, &folder, more).refused(2, 0, "section: version neither 1 nor 3");
    }
}

/// Extents that share a byte are refused of a thread; each frame by itself can be told.
#[test]
fn extents_that_share_a_byte() {
    let (mut row, folder) = (Restore::row_i(), Folder::new());
    row.frames = row.frames.repeat(2);
    let ran = explain(&row, &folder, &[]);
    ran.refused(
        26,
        1,
        "frames:2: extent shares a byte with that of an earlier frame",
    );
    let ran = explain(&row, &folder, &["--frame", "1"]);
    assert_eq!((ran.status, ran.err.as_str()), (Some(0), ""));
}

/// A register that isn't told would count as 0; of another frame it is no matter.
#[test]
fn registers_that_are_not_told() {
    let (mut row, folder) = (in_rbx(), Folder::new());
    row.frames = "1020 0 7000\n1020 0 7000 rbx=50000\n".to_string();
    for more in [
        &[][..],
        &["--frame", "0"],
        &["--frame", "0", "--slot", "rbx"],
    ] {
        let ran = explain(&row, &folder, more);
        let start = "frames:1: refused: a register of the frame is not told; frame 0 (";
        assert!(ran.err.starts_with(start), "{}", ran.err);
        assert_eq!((ran.status, ran.text()), (Some(1), ""));
    }
    let ran = explain(&row, &folder, &["--frame", "1"]);
    assert_eq!((ran.status, ran.err.as_str()), (Some(0), ""));
}

/// With several tables a base slot has to be listed with itself, as in a restore.
#[test]
fn joined_tables_need_self_pairs() {
    let (mut row, folder) = (Restore::row_i(), Folder::new());
    row.section = of_pairs(24, &[[rsp(8), rsp(16)]]);
    row.put(&folder);
    folder.put("second", "90000 a0000\n");
    for more in [&[][..], &["--frame", "0"]] {
        let ran = explain(&row, &folder, &[&["--moves", "second"], more].concat());
        let start = "frames:1: refused: a base slot is not listed with itself; ";
        assert!(ran.err.starts_with(start), "{}", ran.err);
        assert_eq!(ran.status, Some(1));
    }
}
