//! The report that a restore leaves with the new image: whole, and there with it, or not at all.

use super::faults::{as_a_stranger, set_mode};
use super::killed::{image, thread, NEW, OLD};
use super::receipts::digest;
use super::registers::{in_rbx, made, MADE};
use super::{Restore, DONE, FILES, RECEIPT};
use crate::run::{until_there, Folder, Ran};
use serde_json::Value;
use std::fs::{self, Permissions};
use std::os::unix::fs::PermissionsExt;
use std::process::Stdio;
use std::thread::sleep;
use std::time::{Duration, Instant};

/// Runs a restore.
fn restore(row: &Restore, folder: &Folder, more: &[&str]) -> Ran {
    Ran::of(row.inputs(&mut folder.command()).args(more))
}

/// What the report holds: what `explain` tells.
fn report(row: &Restore) -> String {
    let folder = Folder::new();
    row.put(&folder);
    let ran = restore(row, &folder, &["--dry-run"]);
    assert_eq!((ran.status, ran.err.as_str()), (Some(0), ""));
    ran.text().to_string()
}

/// The receipt of a file, as data.
fn receipt(folder: &Folder, name: &str) -> Value {
    serde_json::from_slice(&folder.get(name)).unwrap()
}

#[test]
fn beside_an_image_and_in_a_folder() {
    let (row, folder) = (Restore::row_i(), Folder::new());
    row.put(&folder);
    restore(&row, &folder, &["--output", "new", "--report", "why"])
        .done("new: 1 frame moved, 2 pointers\n");
    assert_eq!(folder.get("why"), report(&row).as_bytes());
    let told = &receipt(&folder, "new.receipt.json")["report"];
    assert_eq!(
        (&told["file"], &told["sha256"]),
        (&"why".into(), &digest(&folder.get("why")).into())
    );
    let ran = restore(
        &row,
        &folder,
        &["--in-place", "--report", "./else", "--json"],
    );
    let answer: Value = serde_json::from_slice(&ran.out).unwrap();
    assert_eq!(
        (&answer["answer"], &answer["report"]),
        (&"restored".into(), &"./else".into())
    );
    assert_eq!(folder.get("else"), folder.get("why"));

    let (row, folder) = (in_rbx(), Folder::new());
    row.put(&folder);
    restore(&row, &folder, &["--into", "new", "--report", "new/why"])
        .done("new: 1 frame moved, 2 pointers, 1 register changed\n");
    assert_eq!(made(&folder), [&MADE[..], &["why"]].concat());
    assert_eq!(folder.get("new/why"), report(&row).as_bytes());
    let told = &receipt(&folder, "new/image.receipt.json")["report"];
    assert_eq!(told["sha256"], digest(&folder.get("new/why")));
}

/// It tells what is in the image, so that who may not read that may not read it either.
#[test]
fn permissions_are_those_of_the_image() {
    for (place, name) in [
        (&["--output", "new", "--report", "why"][..], "why"),
        (&["--in-place", "--report", "why"], "why"),
        (&["--into", "new", "--report", "new/why"], "new/why"),
    ] {
        let (row, folder) = (Restore::row_i(), Folder::new());
        row.put(&folder);
        fs::set_permissions(folder.at("image"), Permissions::from_mode(0o640)).unwrap();
        assert_eq!(restore(&row, &folder, place).status, Some(0));
        let mode = fs::metadata(folder.at(name)).unwrap().permissions().mode();
        assert_eq!(mode & 0o7777, 0o640, "{place:?}");
    }
}

/// A refused restore leaves none, and says so.
#[test]
fn a_refused_restore() {
    let (mut row, folder) = (Restore::row_i(), Folder::new());
    row.image[8] = 8;
    row.put(&folder);
    for (place, end) in [
        (
            &["--output", "new", "--report", "why"][..],
            "new: is not written\nwhy: is not written\n",
        ),
        (
            &["--in-place", "--report", "why"],
            "image: is as it was\nwhy: is not written\n",
        ),
        (
            &["--into", "new", "--report", "new/why"],
            "new: is not made\nnew/why: is not written\n",
        ),
    ] {
        let ran = restore(&row, &folder, place);
        assert_eq!((ran.status, ran.text()), (Some(1), ""));
        assert!(ran.err.ends_with(end), "{}", ran.err);
        assert_eq!(folder.names(), FILES);
    }
}

/// No file is written over. What a run has left that was ended before the image had its name is the same
/// report, and stays.
#[test]
fn a_file_that_is_there() {
    let (row, folder) = (Restore::row_i(), Folder::new());
    row.put(&folder);
    for bytes in ["somebody's", "", &report(&row)[1..]] {
        folder.put("why", bytes);
        for place in [&["--output", "new"][..], &["--in-place"]] {
            let ran = restore(&row, &folder, &[place, &["--report", "why"]].concat());
            let why = "it exists already and is not this report, and --report writes no file over";
            ran.failed("why: cannot be written: ", why);
            assert_eq!(folder.get("why"), bytes.as_bytes());
            assert_eq!(folder.get("image"), row.image);
            assert_eq!(folder.names().len(), FILES.len() + 1);
        }
    }
    folder.put("why", report(&row));
    restore(&row, &folder, &["--in-place", "--report", "why"])
        .done("image: 1 frame moved, 2 pointers\n");
    assert_eq!(folder.get("why"), report(&row).as_bytes());
}

/// Names that are the restore's own, or that are none.
#[test]
fn names_that_cannot_be() {
    let (row, folder) = (Restore::row_i(), Folder::new());
    row.put(&folder);
    fs::create_dir(folder.at("d")).unwrap();
    for (place, name, words) in [
        (
            &["--output", "new"][..],
            "new",
            "the restore writes new there",
        ),
        (
            &["--output", "new"],
            "./new",
            "the restore writes new there",
        ),
        (
            &["--output", "new"],
            "d/../new.receipt.json",
            "the restore writes new.receipt.json there",
        ),
        (&["--in-place"], "image", "the restore writes image there"),
        (
            &["--in-place"],
            RECEIPT,
            "the restore writes image.receipt.json there",
        ),
        (
            &["--into", "d"],
            "d/image",
            "the restore writes d/image there",
        ),
        (
            &["--into", "d"],
            "./d/frames",
            "the restore writes d/frames there",
        ),
        (
            &["--into", "d"],
            "why",
            "with --into the report stands in that folder, as d/why",
        ),
        (
            &["--into", "e"],
            "d/why",
            "with --into the report stands in that folder, as e/why",
        ),
        (
            &["--into", "e"],
            "e/f/why",
            "with --into the report stands in that folder, as e/why",
        ),
        (
            &["--output", "new", "--trace", "t"],
            "./t",
            "the restore writes t there",
        ),
        (&["--output", "new"], "-", "needs a name"),
        (&["--output", "new"], "..", "needs a name"),
    ] {
        let ran = restore(&row, &folder, &[place, &["--report", name]].concat());
        ran.failed("--report ", words);
        assert_eq!(folder.get("image"), row.image);
        assert_eq!(folder.names(), ["d", "frames", "image", "moves", "section"]);
    }
}

/// A folder that the report can't be written to, or that isn't there: the image stays as it was.
#[test]
fn a_folder_that_cannot_be_written() {
    let (row, folder) = (Restore::row_i(), Folder::new());
    row.put(&folder);
    let ran = restore(&row, &folder, &["--in-place", "--report", "none/why"]);
    ran.failed("none/why: cannot be written: ", "No such file");
    assert_eq!(folder.names(), FILES);
    let Some((folder, mut command)) = as_a_stranger(&row) else {
        return;
    };
    fs::create_dir(folder.at("closed")).unwrap();
    set_mode(&folder.at("closed"), 0o555);
    let ran = Ran::of(command.args(["--report", "closed/why"]));
    ran.failed("closed/why: cannot be written: ", "Permission denied");
    assert_eq!(folder.get("image"), row.image);
    let names = ["closed", "frames", "image", "moves", "program", "section"];
    assert_eq!(folder.names(), names);
    assert_eq!(fs::read_dir(folder.at("closed")).unwrap().count(), 0);
}

/// Where the image can't get its name any more, the report is taken away again.
#[test]
fn an_image_that_has_gone() {
    let (row, folder) = (Restore::row_i(), Folder::new());
    row.put(&folder);
    // A folder stands where the receipt is to be, so that the step after the report fails.
    fs::create_dir(folder.at(RECEIPT)).unwrap();
    let ran = restore(&row, &folder, &["--in-place", "--report", "why", "--again"]);
    ran.failed("image: cannot be replaced: its receipt ", "Is a directory");
    assert_eq!(folder.get("image"), row.image);
    assert_eq!(folder.names(), DONE);
}

/// Whatever moment ends the program, no new image is there without its report, and no report in part.
#[test]
fn killed_at_any_moment() {
    const KILLS: u64 = 80;
    let (row, folder) = (thread(), Folder::new());
    let (old, new) = (image(OLD), image(NEW));
    row.put(&folder);
    let begun = Instant::now();
    let whole = restore(&row, &folder, &["--in-place", "--report", "why"]);
    assert_eq!(whole.status, Some(0), "{}", whole.err);
    let long = begun.elapsed().as_micros() as usize;
    for name in [RECEIPT, "why"] {
        fs::remove_file(folder.at(name)).unwrap();
    }
    let report = report(&row);
    let mut rng = generator::Rng::part(0xDEAD, 8);
    let (mut replaced, mut made) = (0, 0);
    for kill in 0..KILLS {
        folder.put("image", &old);
        let into = kill % 2 == 1;
        let (name, more): (&str, &[&str]) = match into {
            true => ("new/why", &["--into", "new", "--report", "new/why"]),
            false => ("why", &["--in-place", "--report", "why"]),
        };
        let mut command = folder.command();
        let command = row.inputs(&mut command).args(more);
        let mut child = command.stdout(Stdio::null()).spawn().unwrap();
        // Most kills are aimed at the writing, and at what comes after a name is there.
        let within = match kill % 3 {
            0 => long * 3 / 2,
            1 => {
                let beside = [".why.treskibben-new", ".new.treskibben-new", "why", "new"];
                until_there(&mut child, &folder, &beside);
                long / 8
            }
            _ => {
                until_there(&mut child, &folder, &["why", "new"]);
                long / 16
            }
        };
        sleep(Duration::from_micros(rng.below(within + 1) as u64));
        child.kill().unwrap();
        child.wait().unwrap();
        let there = folder.at(name).exists();
        assert!(
            !there || folder.get(name) == report.as_bytes(),
            "kill {kill}: half a report"
        );
        let is_new = match into {
            true => folder.at("new").exists(),
            false => folder.get("image") == new,
        };
        assert!(
            !is_new || there,
            "kill {kill}: a new image without its report"
        );
        assert!(
            is_new || folder.get("image") == old,
            "kill {kill}: a mixed image"
        );
        if is_new && into {
            assert!(
                folder.get("new/image") == new,
                "kill {kill}: a mixed folder"
            );
        }
        replaced += u64::from(is_new && !into);
        made += u64::from(is_new && into);
        let _ = fs::remove_dir_all(folder.at("new"));
        for name in [RECEIPT, "why"] {
            let _ = fs::remove_file(folder.at(name));
        }
    }
    let all = KILLS / 2;
    let some = |number: u64| 0 < number && number < all;
    assert!(
        some(replaced) && some(made),
        "{replaced} replaced, {made} made"
    );
}
