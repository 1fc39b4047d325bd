//! `--output`: the new image is a new file, and the old one is only read.

use super::at_once::moved_once;
use super::{Restore, FILES};
use crate::run::{is_root, Folder, Ran, NOBODY, PROGRAM};
use std::fs::{self, Permissions};
use std::os::unix::fs::{chown, symlink, MetadataExt, PermissionsExt};
use std::process::{Command, Stdio};

fn to(row: &Restore, folder: &Folder, output: &str) -> Ran {
    let mut command = folder.command();
    Ran::of(row.inputs(&mut command).args(["--output", output]))
}

#[test]
fn a_new_file_and_its_receipt() {
    let (row, folder) = (Restore::row_i(), Folder::new());
    row.put(&folder);
    let before = fs::metadata(folder.at("image")).unwrap();
    to(&row, &folder, "new").done("new: 1 frame moved, 2 pointers\n");
    assert_eq!(folder.get("new"), moved_once());
    assert_eq!(folder.get("image"), row.image);
    let after = fs::metadata(folder.at("image")).unwrap();
    let seen = |there: &fs::Metadata| (there.ino(), there.mtime_nsec(), there.ctime_nsec());
    assert_eq!(seen(&before), seen(&after), "the old image is touched");
    let mut names = FILES.to_vec();
    names.splice(3..3, ["new", "new.receipt.json"]);
    assert_eq!(folder.names(), names);
}

#[test]
fn no_way_is_a_wrong_call_that_names_all() {
    let (row, folder) = (Restore::row_i(), Folder::new());
    row.put(&folder);
    let ran = Ran::of(row.inputs(&mut folder.command()));
    for way in ["--into", "--output", "--in-place"] {
        ran.failed("", way);
    }
    let two = ["--into", "new", "--output", "new"];
    let ran = Ran::of(row.inputs(&mut folder.command()).args(two));
    ran.failed("", "cannot be used with");
    assert_eq!(folder.get("image"), row.image);
    assert_eq!(folder.names(), FILES);
}

#[test]
fn no_file_is_written_over() {
    let (row, folder) = (Restore::row_i(), Folder::new());
    row.put(&folder);
    folder.put("new", "mine");
    folder.put("new.receipt.json", "mine too");
    symlink("nowhere", folder.at("link")).unwrap();
    for output in ["new", "image", ".", "link"] {
        let ran = to(&row, &folder, output);
        ran.failed(
            &format!("{output}: cannot be written: it exists already"),
            "",
        );
    }
    to(&row, &folder, "missing/new").failed("missing/new: cannot be written: ", "No such file");
    to(&row, &folder, "-").failed("--output needs a name", "");
    assert_eq!(folder.get("new"), b"mine");
    assert_eq!(folder.get("new.receipt.json"), b"mine too");
    assert_eq!(folder.get("image"), row.image);
}

/// A refusal writes nothing and says so.
#[test]
fn refusals_write_nothing() {
    let folder = Folder::new();
    let row = Restore {
        frames: "1021 0 7000\n".to_string(),
        ..Restore::row_i()
    };
    row.put(&folder);
    let ran = to(&row, &folder, "new");
    assert_eq!(ran.status, Some(1));
    assert!(
        ran.err.starts_with("frames:1: refused 10 at 0: "),
        "{}",
        ran.err
    );
    assert!(ran.err.ends_with("\nnew: is not written\n"), "{}", ran.err);
    assert_eq!(folder.names(), FILES);
}

/// The new image may be read by whom the old one may be read, and by nobody else.
#[test]
fn permissions_are_those_of_the_old_image() {
    let row = Restore::row_i();
    for mode in [0o600, 0o640, 0o444] {
        let folder = Folder::new();
        row.put(&folder);
        fs::set_permissions(folder.at("image"), Permissions::from_mode(mode)).unwrap();
        if is_root() {
            chown(folder.at("image"), Some(NOBODY), Some(NOBODY)).unwrap();
        }
        to(&row, &folder, "new").done("new: 1 frame moved, 2 pointers\n");
        let new = fs::metadata(folder.at("new")).unwrap();
        assert_eq!(new.mode() & 0o7777, mode);
        assert_eq!(new.uid(), fs::metadata(folder.path()).unwrap().uid());
    }
}

/// The image, or another file, may come from standard input; one of them.
#[test]
fn standard_input() {
    let (row, folder) = (Restore::row_i(), Folder::new());
    row.put(&folder);
    let call = "restore --section section --image image --first 7000 --moves moves --frames frames";
    for (number, name) in ["section", "image", "moves", "frames"]
        .into_iter()
        .enumerate()
    {
        let output = format!("new{number}");
        let call = call.replacen(&format!("--{name} {name}"), &format!("--{name} -"), 1);
        let line = format!("cat {name} | '{PROGRAM}' {call} --output {output}");
        let mut command = Command::new("sh");
        command.args(["-c", &line]).current_dir(folder.path());
        let ran = Ran::of(command.stdin(Stdio::null()));
        ran.done(&format!("{output}: 1 frame moved, 2 pointers\n"));
        assert_eq!(folder.get(&output), moved_once());
    }
    let new = fs::metadata(folder.at("new1")).unwrap();
    assert_eq!(new.mode() & 0o7777, 0o600);
    let twice = call.replacen("--moves moves --frames frames", "--moves - --frames -", 1);
    let ran = folder.run(twice.split(' ').chain(["--output", "new"]));
    ran.failed("'-' stands there twice", "");
    let image = call.replacen("--image image", "--image -", 1);
    let ran = folder.run(image.split(' ').chain(["--in-place"]));
    ran.failed("--in-place needs an image with a name", "");
}
