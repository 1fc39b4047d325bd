//! One slot of a frame that is asked for, listed or not.

use super::{every_reason, explain, told};
use crate::run::Folder;

/// The line of a slot, without the blanks between its columns.
#[track_caller]
fn slot(more: &[&str]) -> String {
    let text = told(&every_reason(), more);
    let lines: Vec<&str> = text.lines().collect();
    assert_eq!(lines.len(), 3, "{text}");
    assert!(lines[0].starts_with("frame "), "{text}");
    assert!(lines[1].starts_with("  slot "), "{text}");
    let words: Vec<&str> = lines[2].split_whitespace().collect();
    words.join(" ")
}

#[test]
fn slots_by_address_register_and_distance() {
    let moved =
        "RSP+0x10 0x7010 0x54e20 0x50000 0x90000 0x94e20 moved: pair 1, from the base RSP+0x8";
    for asked in ["7010", "0x7010", "rsp+10", "RSP+0x10", "rbp-48"] {
        assert_eq!(slot(&["--frame", "0", "--slot", asked]), moved, "{asked}");
    }
    assert_eq!(
        slot(&["--frame", "0", "--slot", "rbx"]),
        "RBX - 0x4fff0 0x50000 0x90000 0x8fff0 moved: pair 3, from the base RBP-0x10"
    );
    assert_eq!(
        slot(&["--frame", "0", "--slot", "rbp-10"]),
        "RBP-0x10 0x7048 0x50000 - - 0x50000 stays, only a base: of pairs 3 and 7"
    );
    assert_eq!(
        slot(&["--frame", "0", "--slot", "rsp+18"]),
        "RSP+0x18 0x7018 0x1234 - - 0x1234 stays, null base: pair 4, from the base RSP+0x0"
    );
}

/// A slot that no pointer has: beside the listed ones, inside one, in registers, and outside the image.
#[test]
fn slots_that_are_not_listed() {
    let unlisted = "stays, unlisted: it is no pointer's slot";
    for (asked, line) in [
        ("rsp+20", "RSP+0x20 0x7020 0x0 - - 0x0"),
        ("rcx", "RCX - 0x9 - - 0x9"),
        ("rdx", "RDX - - - - -"),
        ("rsp", "RSP - 0x7000 - - 0x7000"),
        ("3", "RSP-0x6ffd 0x3 - - - -"),
        ("70a0", "RSP+0xa0 0x70a0 - - - -"),
        ("ffffffffffffffff", "RSP-0x7001 0xffffffffffffffff - - - -"),
    ] {
        let expected = format!("{line} {unlisted}");
        assert_eq!(
            slot(&["--frame", "0", "--slot", asked]),
            expected,
            "{asked}"
        );
    }
    // Some of its bytes are in a slot that moves, and change with that.
    assert_eq!(
        slot(&["--frame", "0", "--slot", "rsp+9"]),
        "RSP+0x9 0x7009 0x2000000000000500 - - 0x2000000000000900 \
         unlisted: no slot begins here, and RSP+0x8 has some of its bytes"
    );
    // The slots of one frame are none of another.
    assert_eq!(
        slot(&["--frame", "1", "--slot", "7010"]),
        format!("RSP-0x40 0x7010 0x54e20 - - 0x54e20 {unlisted}")
    );
}

#[test]
fn slots_that_are_none() {
    let folder = Folder::new();
    let row = every_reason();
    for asked in ["", "rip", "xyz", "rsp+", "rsp+1+1", "x0", "rsp-8000"] {
        let ran = explain(&row, &folder, &["--frame", "0", "--slot", asked]);
        ran.failed(
            &format!("--slot: '{asked}' is not an address, a register "),
            "rsp+10",
        );
    }
    let ran = explain(&row, &folder, &["--frame", "0", "--slot", "rdi+8"]);
    ran.failed("--slot: the frame's line doesn't tell what RDI holds", "");
    let ran = explain(&row, &folder, &["--slot", "7010"]);
    ran.failed("", "--frame <POSITION>");
    let ran = explain(&row, &folder, &["--frame", "2"]);
    ran.failed(
        "frames: has no frame 2: it has 2 frames, counted from 0",
        "",
    );
    let ran = explain(&row, &folder, &["--frame", "18446744073709551615"]);
    ran.failed("frames: has no frame 18446744073709551615: ", "");
}
