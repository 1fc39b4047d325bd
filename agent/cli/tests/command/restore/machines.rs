//! Frames of both machines: `--machine`, its spellings, and what is told of a frame.

use super::{Restore, RECEIPT};
use crate::fixtures::{location, of_pairs, words};
use crate::run::{Folder, Ran};
use generator::layout::Location;
use serde_json::Value;

const REST: u64 = 0xEEEE_EEEE_EEEE_EEEE;

/// Row I with slots from this register.
fn row(register: u16) -> Restore {
    let slot = |offset| -> Location { location(3, 8, register, offset) };
    Restore {
        section: of_pairs(24, &[[slot(8), slot(8)], [slot(8), slot(16)]]),
        frames: "1020 7000 7000\n".to_string(),
        ..Restore::row_i()
    }
}

/// What a restore in place says with these arguments more, and the folder.
fn run(row: &Restore, more: &[&str]) -> (Ran, Folder) {
    let folder = Folder::new();
    row.put(&folder);
    let ran = Ran::of(row.call(&mut folder.command()).args(more));
    (ran, folder)
}

#[test]
fn every_spelling_names_its_machine() {
    let spellings: [(&[&str], &str, [u16; 2]); 6] = [
        (&[], "x86-64", [6, 7]),
        (&["--machine", "x86-64"], "x86-64", [6, 7]),
        (&["--machine=amd64"], "x86-64", [6, 7]),
        (&["--machine", "x86_64"], "x86-64", [6, 7]),
        (&["--machine", "aarch64"], "aarch64", [29, 31]),
        (&["--machine=arm64"], "aarch64", [29, 31]),
    ];
    for (arguments, machine, own) in spellings {
        for register in [6, 7, 29, 31] {
            let row = row(register);
            let (ran, folder) = run(&row, arguments);
            if !own.contains(&register) {
                assert_eq!(
                    ran.status,
                    Some(1),
                    "{arguments:?}, {register}: {}",
                    ran.err
                );
                assert!(ran.err.contains("refused 18 at 0: "), "{}", ran.err);
                assert!(folder.get("image") == row.image);
                continue;
            }
            ran.done("image: 1 frame moved, 2 pointers\n");
            assert_eq!(folder.get("image"), words(&[REST, 0x90000, 0x94E20]));
            let receipt: Value = serde_json::from_slice(&folder.get(RECEIPT)).unwrap();
            assert_eq!(receipt["machine"], machine);
        }
    }
}

#[test]
fn other_machines_are_none() {
    for name in ["vax", "arm", "x86", "AArch64", "0", ""] {
        let (ran, folder) = run(&row(7), &["--machine", name]);
        ran.failed("", "'--machine <NAME>'");
        assert!(folder.get("image") == row(7).image);
    }
}

/// A frame is told by the machine's names of its registers, and so is the form of a line.
#[test]
fn registers_are_named_by_the_machine() {
    let mut on = row(31);
    on.frames = "1020 1 7001\n".to_string();
    let (ran, _) = run(&on, &["--machine", "aarch64"]);
    let told = "frame 0 (address 0x1020, X29 0x1, SP 0x7001): extent 0x7001 to 0x7019";
    assert!(ran.err.contains(told), "{}", ran.err);
    let (ran, _) = run(&on, &[]);
    let told = "frame 0 (address 0x1020, RBP 0x1, RSP 0x7001): extent 0x7001 to 0x7019";
    assert!(ran.err.contains(told), "{}", ran.err);
    on.frames = "1020 1\n".to_string();
    let (ran, _) = run(&on, &["--machine", "arm64"]);
    ran.failed("frames:1: ", "ADDRESS X29 SP");
    let (ran, _) = run(&on, &[]);
    ran.failed("frames:1: ", "ADDRESS RBP RSP");
}

/// A receipt from before there were two machines has none, and still tells what was restored.
#[test]
fn a_receipt_without_a_machine() {
    let on = row(7);
    let (ran, folder) = run(&on, &[]);
    ran.done("image: 1 frame moved, 2 pointers\n");
    let text = String::from_utf8(folder.get(RECEIPT)).unwrap();
    let old = text.replacen("  \"machine\": \"x86-64\",\n", "", 1);
    assert_ne!(old, text);
    folder.put(RECEIPT, old);
    let ran = Ran::of(on.call(&mut folder.command()));
    assert_eq!(ran.status, Some(1), "{}", ran.err);
    assert!(ran.err.contains("it was restored already"), "{}", ran.err);
}
