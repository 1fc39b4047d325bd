//! `--moves` several times: one restore by the joined table, and the same as one restore after the other; or a
//! frame is named that has a base slot which is not listed with itself.

mod random;

use super::receipts::digest;
use super::registers::{in_rbx, register};
use super::{Restore, FILES, RECEIPT};
use crate::fixtures::{constant, location, of_pairs, one_function, rsp, statepoint, words};
use crate::run::{Folder, Ran};
use generator::layout::Location;
use serde_json::{json, Value};

const REST: u64 = 0xEEEE_EEEE_EEEE_EEEE;
const ALONE: &str = "refused: a base slot is not listed with itself; frame ";

/// Runs a restore in place with a second table, and gives what it says and the folder.
fn run(row: &Restore, second: &str, more: &[&str]) -> (Ran, Folder) {
    let folder = Folder::new();
    row.put(&folder);
    folder.put("second", second);
    let mut command = folder.command();
    row.inputs(&mut command).args(["--moves", "second"]);
    (Ran::of(command.args(more)), folder)
}

/// A restore in place that is refused for a base alone, which is told so.
#[track_caller]
fn alone(row: &Restore, second: &str, told: &str) {
    let (ran, folder) = run(row, second, &["--in-place"]);
    let why = "one move by the joined table might not be what the moves in a row are";
    let line = format!("{ALONE}{told}, and no pair has it as base and derived: {why}");
    assert_eq!((ran.status, ran.text()), (Some(1), ""));
    let says = format!("frames:1: {line}\nimage: is as it was\n");
    assert_eq!(ran.err, says);
    assert!(folder.get("image") == row.image);
    let [one, two, three, four] = FILES;
    assert_eq!(folder.names(), [one, two, three, "second", four]);
}

#[test]
fn one_restore_for_two_moves() {
    let row = Restore::row_i();
    let (ran, folder) = run(&row, "50000 70000\n90000 a0000\n", &["--in-place"]);
    ran.done("image: 1 frame moved, 2 pointers\n");
    assert_eq!(folder.get("image"), words(&[REST, 0xA0000, 0xA4E20]));
    // The last new start may be the first old one: nothing has moved then.
    let (ran, folder) = run(&row, "90000 50000\n", &["--in-place"]);
    ran.done("image: 1 frame moved, 2 pointers\n");
    assert_eq!(folder.get("image"), row.image);
    // Three moves.
    folder.put("third", "50000 b0000\n");
    let mut command = folder.command();
    let call = row.inputs(&mut command);
    call.args(["--moves", "second", "--moves", "third", "--output", "new"]);
    Ran::of(&mut command).done("new: 1 frame moved, 2 pointers\n");
    assert_eq!(folder.get("new"), words(&[REST, 0xB0000, 0xB4E20]));
}

/// Both counterexamples of crates/relocate_twice/specs/Without.antt: the second move would be refused, and the
/// images would differ.
#[test]
fn a_base_slot_alone() {
    let row = Restore {
        section: of_pairs(24, &[[rsp(8), rsp(16)]]),
        ..Restore::row_i()
    };
    let told = "0 (address 0x1020, RBP 0x0, RSP 0x7000): the base slot of pair 0 is at 0x7008";
    for second in ["90000 a0000\n", "50000 70000\n90000 a0000\n"] {
        alone(&row, second, told);
    }
    // By one table each of them is what the counterexample says.
    let mut between = row.clone();
    between.image = row.done("1 frame moved, 1 pointer");
    assert_eq!(between.image, words(&[REST, 0x50000, 0x94E20]));
    between.moves = "90000 a0000\n".to_string();
    between.refused(21, 0);
    between.moves = "50000 70000\n90000 a0000\n".to_string();
    let two = between.done("1 frame moved, 1 pointer");
    assert_eq!(two, words(&[REST, 0x50000, 0xB4E20]));
    let mut joined = row.clone();
    joined.moves = "50000 a0000\n".to_string();
    let one = joined.done("1 frame moved, 1 pointer");
    assert_eq!(one, words(&[REST, 0x50000, 0xA4E20]));
}

#[test]
fn in_registers() {
    let row = in_rbx();
    let (ran, folder) = run(&row, "90000 a0000\n", &["--into", "new"]);
    ran.done("new: 1 frame moved, 2 pointers, 1 register changed\n");
    let frames = String::from_utf8(folder.get("new/frames")).unwrap();
    assert!(
        frames.ends_with("\n0x1020 0x0 0x7000 rbx=0xa0000\n"),
        "{frames}"
    );
    assert_eq!(folder.get("new/image"), words(&[REST, 0x50000, 0xA4E20]));
    // Without the pair of RBX, and with another register's.
    let told = "0 (address 0x1020, RBP 0x0, RSP 0x7000): the base slot of pair 0 is RBX";
    for more in [rsp(8), register(1)] {
        let pairs = [[register(3), rsp(16)], [more.clone(), more]];
        let row = Restore {
            section: of_pairs(24, &pairs),
            frames: "1020 0 7000 rbx=50000 rdx=50000\n".to_string(),
            ..Restore::row_i()
        };
        alone(&row, "90000 a0000\n", told);
    }
}

/// Slots are compared by what they are, not by how they are written; null pairs have none; a base that holds 0
/// needs its pair too.
#[test]
fn slots_are_compared_one_by_one() {
    let rbp = |offset| location(3, 8, 6, offset);
    let wide = |offset| location(3, 16, 7, offset);
    let of = |pairs: &[[Location; 2]]| Restore {
        section: of_pairs(40, pairs),
        image: words(&[REST, 0x50000, 0x50000, 0x54E20, 0x54E20]),
        frames: "1020 7010 7000\n".to_string(),
        ..Restore::row_i()
    };
    let null = [constant(0), constant(0)];
    // RBP - 8 is RSP + 8.
    let both = [[rsp(8), rsp(24)], null.clone(), [rbp(-8), rbp(-8)]];
    // Two pointers with two pairs of one each, and the other way round.
    let pairs = [[wide(8), wide(24)], [rsp(8), rbp(-8)], [rsp(16), rsp(16)]];
    let other = [[rsp(8), rsp(24)], [rsp(16), rsp(32)], [wide(8), wide(8)]];
    for (pairs, image) in [
        (&both, [REST, 0xA0000, 0x50000, 0xA4E20, 0x54E20]),
        (&pairs, [REST, 0xA0000, 0xA0000, 0xA4E20, 0xA4E20]),
        (&other, [REST, 0xA0000, 0xA0000, 0xA4E20, 0xA4E20]),
    ] {
        let (ran, folder) = run(&of(pairs), "90000 a0000\n", &["--in-place"]);
        assert_eq!((ran.status, ran.err.as_str()), (Some(0), ""));
        assert_eq!(folder.get("image"), words(&image));
    }
    // The second of two pointers has no pair with itself.
    let row = of(&[[rsp(8), rsp(8)], [wide(8), wide(24)]]);
    let told = "0 (address 0x1020, RBP 0x7010, RSP 0x7000): the base slot of pair 1 is at 0x7010";
    alone(&row, "90000 a0000\n", told);
    let mut row = of(&[[rsp(16), rsp(32)]]);
    row.image = words(&[REST, 0, 0, 0, 0x54E20]);
    let told = "0 (address 0x1020, RBP 0x7010, RSP 0x7000): the base slot of pair 0 is at 0x7010";
    alone(&row, "90000 a0000\n", told);
}

/// The library's refusals come first, and those of a table name its file and line.
#[test]
fn what_is_refused_before() {
    let row = Restore {
        section: of_pairs(24, &[[rsp(8), rsp(16)]]),
        ..Restore::row_i()
    };
    let refused = |row: &Restore, second: &str, start: &str| {
        let (ran, folder) = run(row, second, &["--in-place"]);
        assert!(ran.err.starts_with(start), "{}", ran.err);
        assert_eq!((ran.status, ran.text()), (Some(1), ""));
        assert!(folder.get("image") == row.image);
        ran.err
    };
    let told = refused(&row, "80000 a0000\n", "frames:1: refused 21 at 0: ");
    let found = ": pair 0, by the joined table: its base slot RSP+0x8 at 0x7008 holds 0x50000; ";
    assert!(told.contains(found), "{told}");
    refused(&row, "# x\n90000 0\n", "second:2: refused 14 at 0: ");
    refused(&row, "2 1\n1 1\n", "second:2: refused 14 at 0: ");
    let mut bad = row.clone();
    bad.moves = "0 1\n".to_string();
    refused(&bad, "2 1\n1 1\n", "moves:1: refused 14 at 0: ");
    bad.section.push(0);
    refused(&bad, "2 1\n", "section: refused 9 at ");
    let mut outside = row.clone();
    outside.frames = "1020 0 7000\n1020 0 7008\n".to_string();
    refused(&outside, "90000 a0000\n", "frames:2: refused 16 at 1: ");
}

/// A frame late in the list is named by its line and position, in JSON too.
#[test]
fn the_frame_is_named() {
    let base = [rsp(8), rsp(8)];
    let records = vec![
        statepoint(0x20, &[base.clone(), [rsp(8), rsp(16)]]),
        statepoint(0x40, &[base, [rsp(16), rsp(16)], [rsp(0), rsp(16)]]),
    ];
    let row = Restore {
        section: one_function(24, records).encode(),
        image: words(&[REST; 6]),
        frames: "# frames\n\n1020 0 7000 # one\n1040 0 7018\n1040 0 7030\n".to_string(),
        moves: format!("{REST:x} 90000\n"),
        ..Restore::row_i()
    };
    // The third frame is refused by the library, and that comes first.
    let (ran, _) = run(&row, "90000 a0000\n", &["--in-place"]);
    assert!(
        ran.err.starts_with("frames:5: refused 16 at 2: "),
        "{}",
        ran.err
    );
    let row = Restore {
        frames: row.frames.replace("1040 0 7030\n", ""),
        ..row
    };
    let (ran, _) = run(&row, "90000 a0000\n", &["--in-place", "--json"]);
    assert_eq!((ran.status, ran.err.as_str()), (Some(1), ""));
    let answer: Value = serde_json::from_str(ran.text()).unwrap();
    let cause = "a base slot is not listed with itself";
    for (field, value) in [
        ("answer", json!("refused")),
        ("file", json!("frames")),
        ("line", json!(4)),
        ("frame", json!(1)),
        ("pair", json!(2)),
        ("cause", json!(cause)),
        ("number", Value::Null),
    ] {
        assert_eq!(answer[field], value, "{field}");
    }
}

/// The receipt has the joined table as `join` writes it, and the files that it is of.
#[test]
fn what_the_receipt_says() {
    let row = Restore::row_i();
    let (ran, folder) = run(&row, "90000 a0000\n", &["--in-place"]);
    ran.done("image: 1 frame moved, 2 pointers\n");
    let receipt: Value = serde_json::from_slice(&folder.get(RECEIPT)).unwrap();
    let joined = folder.run(["join", "moves", "second"]).out;
    let entry = |file: &str, bytes: &[u8]| {
        let (length, sha256) = (bytes.len(), digest(bytes));
        json!({ "file": file, "bytes": length, "sha256": sha256 })
    };
    assert_eq!(receipt["moves"], entry("moves + second", &joined));
    let first = entry("moves", row.moves.as_bytes());
    let of = json!([first, entry("second", b"90000 a0000\n")]);
    assert_eq!(receipt["joined"], of);
    // It keeps the image from being restored once more, by either way.
    for more in [&[][..], &["--moves", "second"]] {
        let ran = Ran::of(row.call(&mut folder.command()).args(more));
        let start = "image: refused: it was restored already; ";
        assert!(ran.err.starts_with(start), "{}", ran.err);
    }
    // A table that is joined already is one file's, and moves the same.
    folder.put("moves", &joined);
    folder.put("image", &row.image);
    let mut command = folder.command();
    let ran = Ran::of(row.inputs(&mut command).args(["--output", "new"]));
    ran.done("new: 1 frame moved, 2 pointers\n");
    let one: Value = serde_json::from_slice(&folder.get("new.receipt.json")).unwrap();
    assert_eq!(one["moves"]["sha256"], receipt["moves"]["sha256"]);
    assert_eq!(
        (&one["after"]["sha256"], one.get("joined")),
        (&receipt["after"]["sha256"], None)
    );
}
