//! `explain`: why each slot moves or stays, of a thread, a frame and a slot; as text and for programs.

mod objects;
mod random;
mod refused;
mod slots;
mod threads;

use crate::fixtures::{constant, location, one_function, rsp, statepoint, words};
use crate::restore::registers::register;
use crate::restore::Restore;
use crate::run::{Folder, Ran};

/// A slot at RBP plus an offset.
fn rbp(offset: i32) -> generator::layout::Location {
    location(3, 8, 6, offset)
}

/// Two frames, of which one has every reason, a pair of two pointers and null pairs.
fn every_reason() -> Restore {
    let two = |offset| location(3, 16, 7, offset);
    let pairs = [
        // Moved: by itself, and from a base that is moved; twice from one base.
        [rsp(8), rsp(8)],
        [rsp(8), rsp(16)],
        [constant(0), constant(0)],
        // Only a base, and what is derived from it in a register.
        [rbp(-16), register(3)],
        // A base of 0.
        [rsp(0), rsp(24)],
        [constant(0), constant(0)],
        [two(40), two(56)],
        [rbp(-16), rsp(16)],
    ];
    let other = [[rsp(8), rsp(8)], [rsp(8), rsp(0)]];
    let records = vec![statepoint(0x20, &pairs), statepoint(0x30, &other)];
    // The last pair derives what pair 1 derives, from another slot that holds the same start.
    let image = words(&[
        0, 0x50000, 0x54e20, 0x1234, 0, 0x60000, 0, 0x60010, 0x7, 0x50000, 0xaaaa, 0, 0, 0, 0, 0,
        0, 0, 0, 0,
    ]);
    let mut row = Restore {
        section: one_function(80, records).encode(),
        image,
        first: 0x7000,
        moves: "50000 90000\n60000 5f000\n".to_string(),
        frames: "# Two frames\n1020 7058 7000 rbx=4fff0 rcx=9\n1030 0 7050\n".to_string(),
    };
    // The second frame's base holds 0, as all its words.
    row.image[0x48..0x50].copy_from_slice(&0x50000u64.to_le_bytes());
    row
}

/// Runs it on the files of a restore.
fn explain(row: &Restore, folder: &Folder, more: &[&str]) -> Ran {
    row.put(folder);
    let mut command = folder.command();
    let first = format!("{:x}", row.first);
    command.args(["explain", "--section", "section", "--image", "image"]);
    command.args(["--first", &first, "--moves", "moves", "--frames", "frames"]);
    Ran::of(command.args(more))
}

/// What it tells, where it is not refused; nothing but the files may be there.
#[track_caller]
fn told(row: &Restore, more: &[&str]) -> String {
    let folder = Folder::new();
    let ran = explain(row, &folder, more);
    assert_eq!((ran.status, ran.err.as_str()), (Some(0), ""));
    assert_eq!(folder.names(), crate::restore::FILES);
    assert_eq!(folder.get("image"), row.image);
    ran.text().to_string()
}
