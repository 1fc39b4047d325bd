//! A full disk: a small file system in memory, where one can be mounted.

use crate::fixtures::{of_pairs, row_h, rsp, C};
use crate::restore::registers::in_rbx;
use crate::restore::{threads, Restore};
use crate::run::{skipped, Folder, Ran, PROGRAM};
use std::process::{Command, Stdio};

/// Runs a call where the disk has so many KiB and these files on it, and gives the answer; what is there
/// afterwards is on standard output. None where nothing can be mounted.
fn on_a_disk(folder: &Folder, size: u64, files: &str, call: &str) -> Option<Ran> {
    std::fs::create_dir_all(folder.at("disk")).unwrap();
    let script = format!(
        "mount -t tmpfs -o size={size}k none disk || exit 99
        cp {files} disk/ && cd disk || exit 99
        '{PROGRAM}' {call} >/dev/null
        status=$?
        for file in {files}; do cmp $file ../$file || exit 98; done
        ls -A
        exit $status"
    );
    let mut command = Command::new("unshare");
    command.args(["--mount", "sh", "-c", &script]);
    command.current_dir(folder.path()).stdin(Stdio::null());
    let ran = command.output().ok().map(Ran::from);
    let ran = ran.filter(|ran| !ran.err.starts_with("unshare: ") && ran.status != Some(99));
    if ran.is_none() {
        skipped("a full disk: no file system can be mounted");
    }
    ran
}

/// The call fails for want of room, and only the files that were there are there.
#[track_caller]
fn full(ran: &Ran, start: &str, names: &str) {
    assert!(
        ran.err.starts_with(&format!("treskibben: {start}")),
        "{}",
        ran.err
    );
    assert!(ran.err.contains("No space left"), "{}", ran.err);
    assert_eq!((ran.status, ran.text()), (Some(2), names));
}

const RESTORE: &str =
    "restore --section section --image image --first 7000 --moves moves --frames frames";
const FILES: &str = "frames image moves section";
const NAMES: &str = "frames\nimage\nmoves\nsection\n";

/// There is no room for the new image, and then for all but its receipt.
#[test]
fn a_restore() {
    let (mut row, folder) = (Restore::row_i(), Folder::new());
    row.image.resize(1_048_576, 0xAB);
    row.put(&folder);
    for (size, receipt) in [(1400, ""), (2060, "its receipt ")] {
        for (place, start) in [
            ("--in-place", "image: cannot be replaced: "),
            ("--output new", "new: cannot be written: "),
        ] {
            let call = format!("{RESTORE} {place}");
            let Some(ran) = on_a_disk(&folder, size, FILES, &call) else {
                return;
            };
            full(&ran, &format!("{start}{receipt}"), NAMES);
        }
    }
    let call = format!("{RESTORE} --output new");
    let ran = on_a_disk(&folder, 2064, FILES, &call).unwrap();
    assert_eq!(ran.status, Some(0), "{}", ran.err);
}

/// There is no room in the folder for the image, for the frames, or for the receipt: then there is no folder.
#[test]
fn a_restore_into_a_folder() {
    let (mut row, folder) = (in_rbx(), Folder::new());
    row.image.resize(1_048_576, 0xAB);
    row.put(&folder);
    let call = format!("{RESTORE} --into new");
    for (size, name) in [
        (1400, "image"),
        (2060, "frames"),
        (2064, "image.receipt.json"),
    ] {
        let Some(ran) = on_a_disk(&folder, size, FILES, &call) else {
            return;
        };
        full(&ran, &format!("new/{name}: cannot be written: "), NAMES);
    }
    let ran = on_a_disk(&folder, 2068, FILES, &call).unwrap();
    assert_eq!(ran.status, Some(0), "{}", ran.err);
}

/// There is no room for the report, for the image, or for its receipt: then there is no new image, and no report,
/// whole or in part.
#[test]
fn a_report() {
    let (row, folder) = (Restore::row_i(), Folder::new());
    row.put(&folder);
    for (size, place, start) in [
        (16, "--in-place --report why", "why: cannot be written: "),
        (20, "--in-place --report why", "image: cannot be replaced: "),
        (
            24,
            "--in-place --report why",
            "image: cannot be replaced: its receipt ",
        ),
        (16, "--output new --report why", "why: cannot be written: "),
        (20, "--output new --report why", "new: cannot be written: "),
        (
            24,
            "--output new --report why",
            "new: cannot be written: its receipt ",
        ),
        (
            24,
            "--into new --report new/why",
            "new/why: cannot be written: ",
        ),
        (
            28,
            "--into new --report new/why",
            "new/image.receipt.json: cannot be written: ",
        ),
    ] {
        let call = format!("{RESTORE} {place}");
        let Some(ran) = on_a_disk(&folder, size, FILES, &call) else {
            return;
        };
        full(&ran, start, NAMES);
    }
    let call = format!("{RESTORE} --output new --report why");
    let ran = on_a_disk(&folder, 64, FILES, &call).unwrap();
    let names = "frames\nimage\nmoves\nnew\nnew.receipt.json\nsection\nwhy\n";
    assert_eq!((ran.status, ran.text()), (Some(0), names), "{}", ran.err);
}

#[test]
fn a_list_and_a_build() {
    let folder = Folder::new();
    folder.put("section", of_pairs(24, &vec![[rsp(8), rsp(8)]; 30_000]));
    folder
        .run(["list", "section", "--output", "listing"])
        .done("");
    for (file, call) in [
        ("section", "list section --output new"),
        ("section", "list --text section --output new"),
        ("listing", "build listing --output new"),
    ] {
        let Some(ran) = on_a_disk(&folder, 1100, file, call) else {
            return;
        };
        full(&ran, "new: cannot be written: ", &format!("{file}\n"));
    }
}

#[test]
fn a_cut() {
    let folder = Folder::new();
    folder.put("all", [C.repeat(100), row_h()].concat());
    let Some(ran) = on_a_disk(&folder, 200, "all", "cut all --into parts") else {
        return;
    };
    full(&ran, "parts/part-", "all\n");
}

/// There is no room for the new store, and then there is.
#[test]
fn an_edition() {
    let folder = Folder::new();
    let make = "edition make --store s --machine x86-64";
    let begin = format!("{make} --new");
    let begun = folder.run(begin.split(' '));
    assert_eq!(begun.status, Some(0), "{}", begun.err);
    for call in [make, "edition retire --store s 1"] {
        let Some(ran) = on_a_disk(&folder, 4, "s", call) else {
            return;
        };
        full(&ran, "s: cannot be replaced: ", "s\n");
    }
    // With room the store is another one, which is what status 98 tells here.
    let ran = on_a_disk(&folder, 8, "s", make).unwrap();
    assert_eq!(ran.status, Some(98), "{}", ran.err);
}

/// There is no room for the trace, for the image beside it, or for the receipt: there is none of them.
#[test]
fn a_trace() {
    let (row, folder) = (threads::thread(500), Folder::new());
    row.put(&folder);
    // The files have 32 KiB, the trace 140, the image 12 and the receipt 4.
    for (size, call, start) in [
        (168, "--output new --trace t", "t: cannot be written: "),
        (180, "--output new --trace t", "new: cannot be written: "),
        (
            184,
            "--output new --trace t",
            "new: cannot be written: its receipt ",
        ),
        (
            184,
            "--in-place --trace t",
            "image: cannot be replaced: its receipt ",
        ),
        (168, "--into new --trace t", "t: cannot be written: "),
        (
            180,
            "--into new --trace t",
            "new/image: cannot be written: ",
        ),
        (
            172,
            "--into new --trace new/t",
            "new/t: cannot be written: ",
        ),
    ] {
        let call = format!("{RESTORE} {call}");
        let Some(ran) = on_a_disk(&folder, size, FILES, &call) else {
            return;
        };
        full(&ran, start, NAMES);
    }
    let call = format!("{RESTORE} --output new --trace t");
    let ran = on_a_disk(&folder, 188, FILES, &call).unwrap();
    assert_eq!(ran.status, Some(0), "{}", ran.err);
}
