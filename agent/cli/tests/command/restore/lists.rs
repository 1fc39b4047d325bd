//! The lists of moves and frames, and the other arguments of a restore.

use super::Restore;
use crate::fixtures::words;
use crate::run::{Folder, Ran};
use std::fs;

#[test]
fn all_that_a_list_may_have() {
    let row = Restore {
        moves: "\n# a comment\r\n\t 0x1 ffffffffffffffff # another\n0X00050000\t90000#\n \n".into(),
        frames: "# ADDRESS RBP RSP\n\n  0x1020   0xFFFFFFFFFFFFFFFF 0x7000".into(),
        ..Restore::row_i()
    };
    let image = row.done("1 frame moved, 2 pointers");
    assert_eq!(image[8..], words(&[0x90000, 0x94E20]));
}

#[test]
fn bad_moves_are_named() {
    let bad = |text: &str, line: u64, why: &str| {
        let row = Restore {
            moves: text.into(),
            ..Restore::row_i()
        };
        row.failed(
            &format!("moves:{line}: {why}"),
            "; a line has the form OLD NEW\n",
        );
    };
    let number = "is not a hexadecimal number of at most 64 bits";
    bad("50000 90000\n1", 2, "1 word");
    bad("# moves\n\n1 2 3\n", 3, "3 words");
    bad("1 -2\n", 1, &format!("'-2' {number}"));
    bad("1 +2\n", 1, &format!("'+2' {number}"));
    bad("1, 2\n", 1, &format!("'1,' {number}"));
    bad("1 2; 3 4", 1, &format!("'2;' {number}"));
    bad("1 2\n0x 3\n", 2, &format!("'0x' {number}"));
    bad(
        "1 10000000000000000\n",
        1,
        &format!("'10000000000000000' {number}"),
    );
    bad("1 2\n\0\0\0", 2, &format!("'\\x00\\x00\\x00' {number}"));
}

#[test]
fn bad_frames_are_named() {
    let bad = |text: &str, line: u64, why: &str| {
        let row = Restore {
            frames: text.into(),
            ..Restore::row_i()
        };
        row.failed(
            &format!("frames:{line}: {why}"),
            "; a line has the form ADDRESS RBP RSP [REGISTER=VALUE..]\n",
        );
    };
    bad("1020 0\n", 1, "2 words");
    bad("1020 0 7000 0\n", 1, "4 words");
    bad("0+20 0 7000\n", 1, "'0+20' is not a hexadecimal number");
    bad(
        "1020 0 7000\nrip rbp rsp\n",
        2,
        "'rip' is not a hexadecimal number",
    );
    bad(
        "1020 0 7000 rip=0\n",
        1,
        "'rip' is not a register of x86-64",
    );
    bad("1020 0 7000 rbx=0 RBX=0\n", 1, "RBX is told twice");
    bad("1020 0 7000 rbx=x\n", 1, "'x' is not a hexadecimal number");
    bad("1020 rsp=7000\n", 1, "RBP is not told");
}

/// A bad line is told before any refusal, as nothing can be moved by a list that isn't one.
#[test]
fn bad_lines_come_before_refusals() {
    let row = Restore {
        section: vec![],
        frames: "x".into(),
        ..Restore::row_i()
    };
    row.failed("frames:1: ", "'x' is not");
}

#[test]
fn files_that_are_none() {
    let row = Restore::row_i();
    for name in ["section", "image", "moves", "frames"] {
        let folder = Folder::new();
        row.put(&folder);
        fs::remove_file(folder.at(name)).unwrap();
        let ran = Ran::of(row.call(&mut folder.command()));
        ran.failed(&format!("{name}: cannot be "), "No such file or directory");
        fs::create_dir(folder.at(name)).unwrap();
        let ran = Ran::of(row.call(&mut folder.command()));
        ran.failed(&format!("{name}: cannot be "), "");
        fs::remove_dir(folder.at(name)).unwrap();
        if name != "image" {
            assert_eq!(folder.get("image"), row.image);
        }
    }
}

/// Files that claim a terabyte are answered at once, with little memory.
#[test]
fn files_beyond_their_limits() {
    let row = Restore::row_i();
    let says = [
        (
            "section",
            1,
            "section: refused 1 at 0: section under 16 or over 16,777,216 bytes",
        ),
        (
            "image",
            1,
            "image: refused 13 at 0: image over 1,048,576 bytes",
        ),
        (
            "moves",
            2,
            "treskibben: moves: is too long: a list has at most 16777216 bytes",
        ),
        (
            "frames",
            2,
            "treskibben: frames: is too long: a list has at most 16777216 bytes",
        ),
    ];
    for (name, status, start) in says {
        let folder = Folder::new();
        row.put(&folder);
        let there = folder.get(name);
        folder.put_sparse(name, &there, 1 << 40);
        let mut command = folder.shell("ulimit -v 262144");
        let ran = Ran::of(row.call(&mut command));
        assert!(ran.err.starts_with(start), "{}", ran.err);
        assert_eq!(ran.status, Some(status));
        assert_eq!(folder.names(), super::FILES);
        if name != "image" {
            assert_eq!(folder.get("image"), row.image);
        }
    }
}

const WHOLE: &str =
    "restore --section section --image image --first 7000 --moves moves --frames frames --in-place";

#[test]
fn an_option_is_missing() {
    let (row, folder) = (Restore::row_i(), Folder::new());
    row.put(&folder);
    for option in (1..11).step_by(2) {
        let mut call: Vec<&str> = WHOLE.split(' ').collect();
        let name = call.remove(option);
        call.remove(option);
        folder.run(call).failed("", &format!("\n  {name} <"));
    }
    assert_eq!(folder.get("image"), row.image);
}

#[test]
fn wrong_calls() {
    let (row, folder) = (Restore::row_i(), Folder::new());
    row.put(&folder);
    let first = |first: &str| {
        let mut call: Vec<&str> = WHOLE.split(' ').collect();
        call[6] = first;
        folder.run(call)
    };
    for text in ["rsp", "0x10000000000000000"] {
        let why = format!("'{text}' for '--first <ADDRESS>': not a hexadecimal number");
        first(text).failed("", &why);
    }
    first("-1").failed("", "'-1'");
    let with = |more: &str| folder.run(WHOLE.split(' ').chain([more]));
    with("more").failed("", "'more'");
    with("--first=7000").failed("", "'--first <ADDRESS>'");
    with("--force").failed("", "'--force'");
    with("--output=new").failed("", "'--in-place'");
    assert_eq!(folder.get("image"), row.image);
    first("0X7000").done("image: 1 frame moved, 2 pointers\n");
}
