//! A restore that only tells what it would do.

use super::registers::in_rbx;
use super::{Restore, FILES};
use crate::run::{Folder, Ran};
use std::fs;

fn dry_run(row: &Restore, folder: &Folder, more: &[&str]) -> Ran {
    let mut command = folder.command();
    Ran::of(row.inputs(&mut command).arg("--dry-run").args(more))
}

/// What `explain` tells of the same files.
fn explained(folder: &Folder, more: &[&str]) -> String {
    let call = "explain --section section --image image --first 7000 --moves moves --frames frames";
    let ran = folder.run(call.split(' ').chain(more.iter().copied()));
    assert_eq!((ran.status, ran.err.as_str()), (Some(0), ""));
    ran.text().to_string()
}

/// It tells what `explain` tells, and writes nothing, wherever the new image would go.
#[test]
fn nothing_is_written() {
    for row in [Restore::row_i(), in_rbx()] {
        let folder = Folder::new();
        row.put(&folder);
        let changes = row.frames.contains("rbx");
        for place in [
            &[][..],
            &["--into", "new"],
            &["--output", "new"],
            &["--in-place"],
        ] {
            for json in [&[][..], &["--json"]] {
                let ran = dry_run(&row, &folder, &[place, json].concat());
                if changes
                    && ["--output", "--in-place"]
                        .iter()
                        .any(|way| place.contains(way))
                {
                    // The restore would be refused there, and so is this.
                    assert_eq!(ran.status, Some(1));
                    let told = format!("{}{}", ran.err, ran.text());
                    assert!(told.contains("a register would change"), "{told}");
                } else {
                    ran.done(&explained(&folder, json));
                }
                assert_eq!(folder.names(), FILES);
                assert_eq!(folder.get("image"), row.image);
                assert_eq!(folder.get("frames"), row.frames.as_bytes());
            }
        }
    }
}

/// What the restore is refused by, it is refused by too; also by what stands where the new image would go.
#[test]
fn refusals_and_faults() {
    let (mut row, folder) = (Restore::row_i(), Folder::new());
    row.put(&folder);
    folder.put("new", "somebody's");
    let there = "it exists already, and --output writes no file over";
    dry_run(&row, &folder, &["--output", "new"]).failed("new: cannot be written: ", there);
    dry_run(&row, &folder, &["--into", "new"]).failed("new: cannot be made: ", "");
    row.image[8] = 8;
    row.put(&folder);
    let ran = dry_run(&row, &folder, &[]);
    assert_eq!((ran.status, ran.text()), (Some(1), ""));
    let [first, second] = ran.err.lines().collect::<Vec<&str>>()[..] else {
        panic!("{}", ran.err);
    };
    assert!(first.starts_with("frames:1: refused 21 at 0: "), "{first}");
    assert_eq!(second, "image: is as it was");
    assert_eq!(folder.get("new"), b"somebody's");
    row.frames = String::new();
    row.put(&folder);
    let ran = dry_run(&row, &folder, &[]);
    assert!(
        ran.err
            .starts_with("frames: refused: no frames in the list; "),
        "{}",
        ran.err
    );
}

/// An image that was restored already is not told of, unless `--again` is said.
#[test]
fn an_image_that_was_restored() {
    let (row, folder) = (Restore::row_i(), Folder::new());
    row.put(&folder);
    Ran::of(row.call(&mut folder.command())).done("image: 1 frame moved, 2 pointers\n");
    folder.put("moves", "90000 a0000\n");
    let ran = dry_run(&row, &folder, &[]);
    assert!(
        ran.err
            .starts_with("image: refused: it was restored already; "),
        "{}",
        ran.err
    );
    let ran = dry_run(&row, &folder, &["--again"]);
    ran.done(&explained(&folder, &[]));
}

#[test]
fn wrong_calls() {
    let (row, folder) = (Restore::row_i(), Folder::new());
    row.put(&folder);
    dry_run(&row, &folder, &["--report", "why"]).failed("", "cannot be used with");
    dry_run(&row, &folder, &["--into", "a", "--output", "b"]).failed("", "cannot be used with");
    let ran = Ran::of(row.inputs(&mut folder.command()));
    ran.failed("", "--into <DIR>|--output <NEW>|--in-place|--dry-run");
    assert_eq!(folder.names(), FILES);
}

/// The image may come from a pipe, and standard output has to be there.
#[test]
fn pipes() {
    let (row, folder) = (Restore::row_i(), Folder::new());
    row.put(&folder);
    let call = "cat image | \"$0\" restore --section section --image - --first 7000 --moves moves \
        --frames frames --dry-run";
    let mut command = std::process::Command::new("sh");
    command
        .args(["-c", call, crate::run::PROGRAM])
        .current_dir(folder.path());
    let ran = Ran::of(&mut command);
    assert_eq!((ran.status, ran.err.as_str()), (Some(0), ""));
    assert_eq!(
        ran.text(),
        explained(&folder, &[]).replace("  image\n", "  -\n")
    );
    let mut command = folder.shell("exec >/dev/full");
    let ran = Ran::of(row.inputs(&mut command).arg("--dry-run"));
    ran.failed("standard output: cannot be written: ", "");
    assert!(fs::read_dir(folder.path()).unwrap().count() == FILES.len());
}
