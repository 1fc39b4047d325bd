//! Several restores at once on one image: one of them moves it, and it is moved once.

use super::{Restore, DONE, FILES};
use crate::fixtures::words;
use crate::run::{Folder, Ran};
use std::process::{Child, Stdio};

/// Row I with a table by which an image that was moved can be moved again.
pub fn chain() -> Restore {
    Restore {
        moves: "50000 90000\n90000 a0000\n".to_string(),
        ..Restore::row_i()
    }
}

pub fn moved_once() -> Vec<u8> {
    words(&[0xEEEE_EEEE_EEEE_EEEE, 0x90000, 0x94E20])
}

/// Starts so many calls and waits for them all.
fn at_once(folder: &Folder, row: &Restore, place: &[&str]) -> Vec<Ran> {
    let start = |_| -> Child {
        let mut command = folder.command();
        let command = row.inputs(&mut command).args(place);
        let command = command.stdout(Stdio::piped()).stderr(Stdio::piped());
        command.spawn().unwrap()
    };
    let children: Vec<Child> = (0..4).map(start).collect();
    let end = |child: Child| Ran::from(child.wait_with_output().unwrap());
    children.into_iter().map(end).collect()
}

#[test]
fn in_place() {
    let row = chain();
    for round in 0..30 {
        let folder = Folder::new();
        row.put(&folder);
        let ran = at_once(&folder, &row, &["--in-place"]);
        let done = ran.iter().filter(|ran| ran.status == Some(0)).count();
        assert_eq!(done, 1, "{round}: {ran:?}");
        for ran in ran.iter().filter(|ran| ran.status != Some(0)) {
            let busy = ran.err.contains("another process is at work on it");
            let late = ran
                .err
                .starts_with("image: refused: it was restored already");
            assert!(
                busy && ran.status == Some(2) || late && ran.status == Some(1),
                "{ran:?}"
            );
        }
        assert_eq!(folder.get("image"), moved_once(), "{round}");
        assert_eq!(folder.names(), DONE, "{round}");
    }
}

#[test]
fn to_one_new_file() {
    let row = chain();
    for round in 0..30 {
        let folder = Folder::new();
        row.put(&folder);
        let ran = at_once(&folder, &row, &["--output", "new"]);
        let done = ran.iter().filter(|ran| ran.status == Some(0)).count();
        assert_eq!(done, 1, "{round}: {ran:?}");
        for ran in ran.iter().filter(|ran| ran.status != Some(0)) {
            ran.failed("new: cannot be written: ", "");
        }
        assert_eq!(folder.get("new"), moved_once(), "{round}");
        assert_eq!(folder.get("image"), row.image, "{round}");
        let mut names = FILES.to_vec();
        names.splice(3..3, ["new", "new.receipt.json"]);
        assert_eq!(folder.names(), names, "{round}");
    }
}
