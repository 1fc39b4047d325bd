//! `--trace`: the trace of a restore, there before the new image and not at all where there is none.

mod ended;

use super::registers::in_rbx;
use super::{threads, Restore, FILES, RECEIPT};
use crate::run::{Folder, Ran};
use crate::trace::{answer, frame, of, row_i};
use serde_json::Value;
use std::fs::{self, Permissions};
use std::os::unix::fs::{symlink, PermissionsExt};
use std::process::Command;

const RECORDED: &str = "t: 1 frame recorded\n";

/// Runs a restore in a folder with these arguments.
fn restore(row: &Restore, folder: &Folder, more: &[&str]) -> Ran {
    Ran::of(row.inputs(&mut folder.command()).args(more))
}

/// The names in a folder are those of the inputs and these.
#[track_caller]
fn has(folder: &Folder, more: &[&str]) {
    let mut names = [&FILES[..], more].concat();
    names.sort();
    assert_eq!(folder.names(), names);
}

#[test]
fn beside_each_way_of_writing() {
    let row = Restore::row_i();
    for (way, says, made) in [
        (
            &["--in-place"][..],
            "image: 1 frame moved, 2 pointers\n",
            &["image.receipt.json", "t"][..],
        ),
        (
            &["--output", "new"],
            "new: 1 frame moved, 2 pointers\n",
            &["new", "new.receipt.json", "t"],
        ),
        (
            &["--into", "new"],
            "new: 1 frame moved, 2 pointers, 0 registers changed\n",
            &["new", "t"],
        ),
    ] {
        let folder = Folder::new();
        row.put(&folder);
        let ran = restore(&row, &folder, &[way, &["--trace", "t"]].concat());
        ran.done(&format!("{says}{RECORDED}"));
        has(&folder, made);
        assert_eq!(folder.get("t"), row_i());
    }
}

/// A thread's trace has its frames in the order of the list, with their registers before the move.
#[test]
fn what_is_recorded() {
    let (row, folder) = (in_rbx(), Folder::new());
    row.put(&folder);
    let ran = restore(&row, &folder, &["--into", "new", "--trace", "t"]);
    ran.done(&format!(
        "new: 1 frame moved, 2 pointers, 1 register changed\n{RECORDED}"
    ));
    let stopped = frame(0, 0x1020, 0, &[(7, 0x7000), (3, 0x50000)]);
    assert_eq!(folder.get("t"), of(&[stopped, answer(0, 2)]));
    let (row, folder) = (threads::thread(3), Folder::new());
    let row = Restore {
        frames: row.frames.lines().rev().collect::<Vec<_>>().join("\n"),
        ..row
    };
    row.put(&folder);
    restore(&row, &folder, &["--in-place", "--trace", "t"])
        .done("image: 3 frames moved, 6 pointers\nt: 3 frames recorded\n");
    let item = |rsp: u64| [frame(0, 0x1020, 0, &[(7, rsp)]), answer(0, 2)].concat();
    assert_eq!(folder.get("t"), of(&[0x7030, 0x7018, 0x7000].map(item)));
    let empty = Restore {
        frames: String::new(),
        ..Restore::row_i()
    };
    empty.put(&folder);
    let more = ["--in-place", "--again", "--allow-empty", "--trace", "none"];
    restore(&empty, &folder, &more)
        .done("image: 0 frames moved, 0 pointers\nnone: 0 frames recorded\n");
    assert_eq!(folder.get("none"), of(&[]));
}

/// Where it stands in the folder of `--into`, it is of the same step.
#[test]
fn in_the_folder() {
    let row = Restore::row_i();
    for (folder_name, trace) in [("new", "new/t"), ("new/", "./new/t"), ("./new", "new//t")] {
        for there in [false, true] {
            let folder = Folder::new();
            row.put(&folder);
            if there {
                fs::create_dir(folder.at("new")).unwrap();
            }
            let ran = restore(&row, &folder, &["--into", folder_name, "--trace", trace]);
            assert_eq!((ran.status, ran.err.as_str()), (Some(0), ""));
            has(&folder, &["new"]);
            assert_eq!(folder.get("new/t"), row_i());
            assert_eq!(fs::read_dir(folder.at("new")).unwrap().count(), 4);
        }
    }
}

#[test]
fn for_programs_and_in_the_receipt() {
    let (row, folder) = (Restore::row_i(), Folder::new());
    row.put(&folder);
    let ran = restore(
        &row,
        &folder,
        &["--output", "new", "--trace", "t", "--json"],
    );
    let told: Value = serde_json::from_str(ran.text()).unwrap();
    assert_eq!(
        (&told["answer"], &told["trace"]),
        (&"restored".into(), &"t".into())
    );
    let receipt: Value = serde_json::from_slice(&folder.get("new.receipt.json")).unwrap();
    let trace = &receipt["trace"];
    assert_eq!(
        (&trace["file"], &trace["bytes"]),
        (&"t".into(), &285.into())
    );
    let sum = Command::new("sha256sum").arg(folder.at("t")).output();
    let sum = String::from_utf8(sum.unwrap().stdout).unwrap();
    assert!(sum.starts_with(trace["sha256"].as_str().unwrap()), "{sum}");
    // Without one neither names any.
    let ran = restore(&row, &folder, &["--output", "other", "--json"]);
    let told: Value = serde_json::from_str(ran.text()).unwrap();
    let receipt: Value = serde_json::from_slice(&folder.get("other.receipt.json")).unwrap();
    assert_eq!((told.get("trace"), receipt.get("trace")), (None, None));
}

/// It is for those who may read the image.
#[test]
fn permissions_are_those_of_the_image() {
    let row = Restore::row_i();
    for way in [
        &["--in-place"][..],
        &["--output", "new"],
        &["--into", "new"],
    ] {
        for name in ["t", "new/t"] {
            let folder = Folder::new();
            row.put(&folder);
            fs::set_permissions(folder.at("image"), Permissions::from_mode(0o640)).unwrap();
            let inside = name == "new/t";
            if inside && way != ["--into", "new"] {
                continue;
            }
            let ran = restore(&row, &folder, &[way, &["--trace", name]].concat());
            assert_eq!(ran.status, Some(0), "{}", ran.err);
            let mode = fs::metadata(folder.at(name)).unwrap().permissions().mode();
            assert_eq!(mode & 0o7777, 0o640, "{way:?} {name}");
        }
    }
}

/// A refused restore has moved nothing, and leaves no trace.
#[test]
fn refusals_leave_none() {
    let wrong = [
        ("1021 0 7000\n", "frames:1: refused 10 at 0: "),
        ("1020 0 7000\n1020 0 7000\n", "frames:2: refused 26 at 1: "),
        ("", "frames: refused: no frames in the list"),
    ];
    for (frames, start) in wrong {
        let row = Restore {
            frames: frames.to_string(),
            ..Restore::row_i()
        };
        for (way, said) in [
            (&["--in-place"][..], "image: is as it was"),
            (&["--output", "new"], "new: is not written"),
            (&["--into", "new"], "new: is not made"),
        ] {
            let folder = Folder::new();
            row.put(&folder);
            let ran = restore(&row, &folder, &[way, &["--trace", "t"]].concat());
            assert!(ran.err.starts_with(start), "{}", ran.err);
            let lines: Vec<&str> = ran.err.lines().skip(1).collect();
            assert_eq!(
                (ran.status, &lines[..]),
                (Some(1), &[said, "t: is not written"][..])
            );
            has(&folder, &[]);
            assert_eq!(folder.get("image"), row.image);
        }
    }
}

/// No file is written over; one that a killed run has left is the same, and stays.
#[test]
fn a_name_that_is_taken() {
    let (row, folder) = (Restore::row_i(), Folder::new());
    row.put(&folder);
    folder.put("t", "mine");
    symlink("nowhere", folder.at("link")).unwrap();
    let taken = "cannot be written: it exists already and is not this trace";
    for (name, way) in [
        ("t", &["--in-place"][..]),
        ("t", &["--output", "new"]),
        ("t", &["--into", "new"]),
        ("link", &["--in-place"]),
        (".", &["--in-place"]),
        ("image", &["--in-place"]),
        ("section", &["--in-place"]),
    ] {
        let ran = restore(&row, &folder, &[way, &["--trace", name]].concat());
        match name {
            // The image itself, and what has no name.
            "image" => ran.failed("--trace image: the restore writes image there", ""),
            "." => ran.failed("", ""),
            name => ran.failed(&format!("{name}: {taken}"), ""),
        }
        has(&folder, &["link", "t"]);
        assert_eq!(
            (folder.get("image"), folder.get("t")),
            (row.image.clone(), b"mine".to_vec())
        );
    }
    folder.put("t", row_i());
    let before = fs::metadata(folder.at("t")).unwrap().modified().unwrap();
    let ran = restore(&row, &folder, &["--in-place", "--trace", "t"]);
    ran.done(&format!("image: 1 frame moved, 2 pointers\n{RECORDED}"));
    let after = fs::metadata(folder.at("t")).unwrap().modified().unwrap();
    assert_eq!(before, after);
}

#[test]
fn names_that_are_none() {
    let (row, folder) = (Restore::row_i(), Folder::new());
    row.put(&folder);
    fs::create_dir(folder.at("there")).unwrap();
    symlink("there", folder.at("same")).unwrap();
    for (way, name, start) in [
        (&["--in-place"][..], "-", "--trace needs a name"),
        (&["--in-place"], "/", "--trace needs a name"),
        (
            &["--output", "new"],
            "new",
            "--trace new: the restore writes new there",
        ),
        (
            &["--output", "new"],
            "./new.receipt.json",
            "--trace ./new.receipt.json: the restore writes new.receipt.json there",
        ),
        (
            &["--output", "there/new"],
            "same/new",
            "--trace same/new: the restore writes there/new there",
        ),
        (
            &["--in-place"],
            RECEIPT,
            "--trace image.receipt.json: the restore writes ",
        ),
        (
            &["--into", "new"],
            "new/image",
            "--trace new/image: the restore writes ",
        ),
        (
            &["--into", "new"],
            "new/frames",
            "--trace new/frames: the restore writes ",
        ),
        (
            &["--into", "new"],
            "./new/image.receipt.json",
            "--trace ./new/image.receipt.json: ",
        ),
        (&["--in-place"], "none/t", "none/t: cannot be written: "),
        (&["--into", "new"], "none/t", "none/t: cannot be written: "),
        (
            &["--into", "new"],
            "new/in/t",
            "new/in/t: cannot be written: ",
        ),
    ] {
        let ran = restore(&row, &folder, &[way, &["--trace", name]].concat());
        ran.failed(start, "");
        has(&folder, &["same", "there"]);
        assert_eq!(folder.get("image"), row.image, "{way:?} {name}");
    }
}

/// The trace is ready and the image can't be put in place: it is taken away again.
#[test]
fn an_image_that_cannot_be_put_in_place() {
    let (row, folder) = (Restore::row_i(), Folder::new());
    row.put(&folder);
    // Nothing can replace a folder that has the receipt's name.
    fs::create_dir_all(folder.at("image.receipt.json/full")).unwrap();
    let ran = restore(&row, &folder, &["--in-place", "--again", "--trace", "t"]);
    ran.failed("image: cannot be replaced: its receipt ", "");
    has(&folder, &[RECEIPT]);
    assert_eq!(folder.get("image"), row.image);
}
