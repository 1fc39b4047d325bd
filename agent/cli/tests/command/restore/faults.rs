//! Faults of files and disks: the old image stands, and nothing is left beside it.

use super::{Restore, DONE, FILES, RECEIPT};
use crate::fixtures::words;
use crate::run::{is_root, skipped, Folder, Ran, NOBODY, PROGRAM};
use std::fs::{self, File, Permissions};
use std::io::{Error, ErrorKind};
use std::os::unix::fs::{chown, symlink, MetadataExt, PermissionsExt};
use std::os::unix::process::CommandExt;
use std::path::Path;
use std::process::{Command, Stdio};

/// The name that the new image has until it takes the old one's.
const BESIDE: &str = ".image.treskibben-new";

fn moved() -> Vec<u8> {
    words(&[0xEEEE_EEEE_EEEE_EEEE, 0x90000, 0x94E20])
}

/// Row I with an image of 1 MiB.
fn large() -> Restore {
    let mut row = Restore::row_i();
    row.image.resize(1_048_576, 0xAB);
    row
}

pub fn set_mode(path: &Path, mode: u32) {
    fs::set_permissions(path, Permissions::from_mode(mode)).unwrap();
}

/// Row I, its files in a folder, and the program, to be run by a user whom permissions stop.
pub fn as_a_stranger(row: &Restore) -> Option<(Folder, Command)> {
    let folder = Folder::within(&std::env::temp_dir());
    row.put(&folder);
    fs::copy(PROGRAM, folder.at("program")).unwrap();
    let mut probe = Command::new(folder.at("program"));
    let mut command = Command::new(folder.at("program"));
    if is_root() {
        probe.uid(NOBODY).gid(NOBODY);
        command.uid(NOBODY).gid(NOBODY);
        for name in FILES.iter().chain(&["."]) {
            chown(folder.at(name), Some(NOBODY), Some(NOBODY)).unwrap();
        }
    }
    // A process that another test is just starting may still have the copy open.
    let busy = |tried: &Result<_, Error>| {
        let error = tried.as_ref().err();
        error.is_some_and(|error| error.kind() == ErrorKind::ExecutableFileBusy)
    };
    let mut tried = probe.arg("--version").output();
    while busy(&tried) {
        tried = probe.output();
    }
    if !tried.is_ok_and(|ran| ran.status.success()) {
        skipped("no other user can run the program");
        return None;
    }
    command.current_dir(folder.path()).stdin(Stdio::null());
    row.call(&mut command);
    Some((folder, command))
}

#[test]
fn a_folder_that_cannot_be_written() {
    let row = Restore::row_i();
    let Some((folder, mut command)) = as_a_stranger(&row) else {
        return;
    };
    set_mode(folder.path(), 0o555);
    let ran = Ran::of(&mut command);
    set_mode(folder.path(), 0o755);
    ran.failed("image: cannot be replaced: ", "Permission denied");
    assert_eq!(folder.get("image"), row.image);
    assert!(!folder.names().contains(&BESIDE.to_string()));
    Ran::of(&mut command).done("image: 1 frame moved, 2 pointers\n");
    assert_eq!(folder.get("image"), moved());
}

#[test]
fn an_image_that_cannot_be_written() {
    let row = Restore::row_i();
    let Some((folder, mut command)) = as_a_stranger(&row) else {
        return;
    };
    set_mode(&folder.at("image"), 0o444);
    Ran::of(&mut command).failed("image: cannot be opened: ", "Permission denied");
    assert_eq!(folder.get("image"), row.image);
    assert!(!folder.names().contains(&BESIDE.to_string()));
}

/// Somebody may write the image and its folder, but not hand a file on to the image's owner.
#[test]
fn an_owner_that_cannot_be_kept() {
    let row = Restore::row_i();
    if !is_root() {
        return skipped("an image of another user");
    }
    let Some((folder, mut command)) = as_a_stranger(&row) else {
        return;
    };
    chown(folder.at("image"), Some(0), Some(0)).unwrap();
    set_mode(&folder.at("image"), 0o666);
    let what = "its owner 0 and group 0 cannot be kept: ";
    let ran = Ran::of(&mut command);
    ran.failed(
        &format!("image: cannot be replaced: {what}"),
        "not permitted",
    );
    assert_eq!(folder.get("image"), row.image);
    assert!(!folder.names().contains(&BESIDE.to_string()));
}

#[test]
fn permissions_and_owner_are_kept() {
    let row = Restore::row_i();
    for mode in [0o600, 0o640, 0o666, 0o4711] {
        let folder = Folder::new();
        row.put(&folder);
        let owner = if is_root() { Some(NOBODY) } else { None };
        chown(folder.at("image"), owner, owner).unwrap();
        set_mode(&folder.at("image"), mode);
        let before = fs::metadata(folder.at("image")).unwrap();
        Ran::of(row.call(&mut folder.command())).done("image: 1 frame moved, 2 pointers\n");
        let after = fs::metadata(folder.at("image")).unwrap();
        assert_ne!(before.ino(), after.ino(), "the file is a new one");
        assert_eq!(
            (before.mode(), before.uid(), before.gid()),
            (after.mode(), after.uid(), after.gid())
        );
    }
}

#[test]
fn a_link_is_followed_and_stays_a_link() {
    let (row, folder) = (Restore::row_i(), Folder::new());
    row.put(&folder);
    fs::create_dir(folder.at("elsewhere")).unwrap();
    fs::rename(folder.at("image"), folder.at("elsewhere/stack")).unwrap();
    symlink("elsewhere/stack", folder.at("image")).unwrap();
    Ran::of(row.call(&mut folder.command())).done("image: 1 frame moved, 2 pointers\n");
    assert!(fs::symlink_metadata(folder.at("image"))
        .unwrap()
        .is_symlink());
    assert_eq!(folder.get("elsewhere/stack"), moved());
    assert!(folder.at("elsewhere/stack.receipt.json").exists());
    assert_eq!(fs::read_dir(folder.at("elsewhere")).unwrap().count(), 2);
}

#[test]
fn what_is_no_regular_file_is_not_replaced() {
    let (row, folder) = (Restore::row_i(), Folder::new());
    row.put(&folder);
    fs::remove_file(folder.at("image")).unwrap();
    symlink("/dev/null", folder.at("image")).unwrap();
    let ran = Ran::of(row.call(&mut folder.command()));
    ran.failed("image: cannot be replaced: it is not a regular file", "");
}

#[test]
fn one_restore_at_a_time() {
    let (row, folder) = (Restore::row_i(), Folder::new());
    row.put(&folder);
    let other = File::open(folder.at("image")).unwrap();
    other.lock().unwrap();
    let ran = Ran::of(row.call(&mut folder.command()));
    ran.failed(
        "image: cannot be replaced: another process is at work on it",
        "",
    );
    assert_eq!(folder.get("image"), row.image);
    // Closing it would not do: a process that another test is just starting has it open too.
    other.unlock().unwrap();
    Ran::of(row.call(&mut folder.command())).done("image: 1 frame moved, 2 pointers\n");
}

/// A killed run leaves its file, or a link stands in its place: it is taken away, never followed.
#[test]
fn what_is_left_of_a_killed_run() {
    let (row, folder) = (Restore::row_i(), Folder::new());
    row.put(&folder);
    folder.put(BESIDE, "half an image");
    Ran::of(row.call(&mut folder.command())).done("image: 1 frame moved, 2 pointers\n");
    assert_eq!(folder.names(), DONE);
    row.put(&folder);
    folder.put("mine", "mine");
    symlink("mine", folder.at(BESIDE)).unwrap();
    Ran::of(row.call(&mut folder.command())).done("image: 1 frame moved, 2 pointers\n");
    assert_eq!(folder.get("mine"), b"mine");
    // The name may also be that of the image itself, as a second link: that is never written over.
    row.put(&folder);
    fs::hard_link(folder.at("mine"), folder.at(BESIDE)).unwrap();
    Ran::of(row.call(&mut folder.command())).done("image: 1 frame moved, 2 pointers\n");
    assert_eq!(folder.get("mine"), b"mine");
}

/// The limit on the size of files stops the writing in the middle.
#[test]
fn a_file_that_must_not_grow() {
    let (row, folder) = (large(), Folder::new());
    row.put(&folder);
    let mut command = folder.shell("ulimit -f 100");
    let ran = Ran::of(row.call(&mut command));
    ran.failed("image: cannot be replaced: ", "File too large");
    assert!(folder.get("image") == row.image);
    assert_eq!(folder.names(), FILES);
}

/// The image is restored, whether its last line can be written or not.
#[test]
fn a_restore_that_nobody_hears_of() {
    for output in [">/dev/full", ">&-", "| true"] {
        let (row, folder) = (Restore::row_i(), Folder::new());
        row.put(&folder);
        let script = format!("{{ \"$0\" \"$@\"; echo $? >status; }} {output}");
        let mut command = Command::new("sh");
        command
            .args(["-c", &script, PROGRAM])
            .current_dir(folder.path());
        row.call(&mut command).stdin(Stdio::null());
        assert_eq!(Ran::of(&mut command).err, "", "{output}");
        assert!(folder.at(RECEIPT).exists(), "{output}");
        assert_eq!(folder.get("status"), b"0\n", "{output}");
        assert_eq!(folder.get("image"), moved(), "{output}");
    }
}
