//! The receipt beside a new image, and what it keeps from being moved twice.

use super::at_once::{chain, moved_once};
use super::{Restore, DONE, RECEIPT};
use crate::fixtures::words;
use crate::run::{Folder, Ran};
use serde_json::Value;
use sha2::{Digest, Sha256};
use std::fs;

pub fn digest(bytes: &[u8]) -> String {
    let digest = Sha256::digest(bytes);
    digest.iter().map(|byte| format!("{byte:02x}")).collect()
}

fn receipt(folder: &Folder, name: &str) -> Value {
    serde_json::from_slice(&folder.get(name)).unwrap()
}

#[test]
fn what_a_receipt_says() {
    let (row, folder) = (Restore::row_i(), Folder::new());
    row.put(&folder);
    let mut command = folder.command();
    let ran = Ran::of(row.inputs(&mut command).args(["--output", "new"]));
    ran.done("new: 1 frame moved, 2 pointers\n");
    let receipt = receipt(&folder, "new.receipt.json");
    let files = [
        ("section", "section", &row.section[..]),
        ("moves", "moves", row.moves.as_bytes()),
        ("frames", "frames", row.frames.as_bytes()),
        ("before", "image", &row.image),
        ("after", "new", &moved_once()),
    ];
    for (field, file, bytes) in files {
        assert_eq!(receipt[field]["file"], file);
        assert_eq!(receipt[field]["bytes"], bytes.len());
        assert_eq!(receipt[field]["sha256"], digest(bytes), "{field}");
    }
    assert_eq!(receipt["moved_frames"], 1);
    assert_eq!(receipt["moved_pointers"], 2);
    assert_eq!(receipt["first"], "0x7000");
    assert_eq!(receipt["treskibben"], env!("CARGO_PKG_VERSION"));
}

/// The digest is the one that others work out.
#[test]
fn digests_are_sha_256() {
    let empty = "e3b0c44298fc1c149afbf4c8996fb92427ae41e4649b934ca495991b7852b855";
    assert_eq!(digest(b""), empty);
    let (mut row, folder) = (Restore::row_i(), Folder::new());
    row.frames = String::new();
    row.put(&folder);
    let ran = Ran::of(row.call(&mut folder.command()).arg("--allow-empty"));
    ran.done("image: 0 frames moved, 0 pointers\n");
    assert_eq!(receipt(&folder, RECEIPT)["frames"]["sha256"], empty);
}

/// The second of two calls that are the same would move what the first has moved.
#[test]
fn no_image_is_moved_twice_by_accident() {
    let (row, folder) = (chain(), Folder::new());
    row.put(&folder);
    Ran::of(row.call(&mut folder.command())).done("image: 1 frame moved, 2 pointers\n");
    let ran = Ran::of(row.call(&mut folder.command()));
    assert_eq!((ran.status, ran.text()), (Some(1), ""));
    let start = "image: refused: it was restored already; ";
    assert!(
        ran.err.starts_with(start) && ran.err.contains("--again"),
        "{}",
        ran.err
    );
    assert_eq!(folder.get("image"), moved_once());
    let mut command = folder.command();
    let ran = Ran::of(row.inputs(&mut command).args(["--output", "new"]));
    assert_eq!(ran.status, Some(1));
    assert_eq!(folder.names(), DONE);
    let ran = Ran::of(row.call(&mut folder.command()).arg("--again"));
    ran.done("image: 1 frame moved, 2 pointers\n");
    let twice = words(&[0xEEEE_EEEE_EEEE_EEEE, 0xA0000, 0xA4E20]);
    assert_eq!(folder.get("image"), twice);
}

#[test]
fn nor_is_one_that_was_written_as_a_new_file() {
    let (row, folder) = (chain(), Folder::new());
    row.put(&folder);
    let call = |image: &str, output: &str| {
        let call = format!(
            "restore --section section --image {image} --first 7000 \
             --moves moves --frames frames --output {output}"
        );
        folder.run(call.split(' '))
    };
    call("image", "new").done("new: 1 frame moved, 2 pointers\n");
    let ran = call("new", "newer");
    assert!(
        ran.err
            .starts_with("new: refused: it was restored already; "),
        "{}",
        ran.err
    );
    assert_eq!(ran.status, Some(1));
    // The old image is as it was, and may be restored as often as one likes.
    call("image", "other").done("other: 1 frame moved, 2 pointers\n");
    assert_eq!(folder.get("other"), folder.get("new"));
}

/// What a kill between the two names leaves: the receipt, and the old image or none. It is no image
/// that was restored, and the next run restores it.
#[test]
fn a_receipt_without_its_image() {
    let (row, folder) = (chain(), Folder::new());
    row.put(&folder);
    Ran::of(row.call(&mut folder.command())).done("image: 1 frame moved, 2 pointers\n");
    folder.put("image", &row.image);
    assert_eq!(folder.names(), DONE);
    Ran::of(row.call(&mut folder.command())).done("image: 1 frame moved, 2 pointers\n");
    assert_eq!(folder.get("image"), moved_once());

    folder.put("image", &row.image);
    folder.put("new.receipt.json", folder.get(RECEIPT));
    let mut command = folder.command();
    let ran = Ran::of(row.inputs(&mut command).args(["--output", "new"]));
    ran.done("new: 1 frame moved, 2 pointers\n");
    assert_eq!(receipt(&folder, "new.receipt.json")["after"]["file"], "new");
}

/// Receipts that name pairs were written when each pair was one pointer. They still tell what was restored.
#[test]
fn a_receipt_from_before_several_pointers() {
    let (row, folder) = (chain(), Folder::new());
    row.put(&folder);
    Ran::of(row.call(&mut folder.command())).done("image: 1 frame moved, 2 pointers\n");
    let text = String::from_utf8(folder.get(RECEIPT)).unwrap();
    assert!(text.contains("moved_pointers"));
    folder.put(RECEIPT, text.replace("moved_pointers", "moved_pairs"));
    let ran = Ran::of(row.call(&mut folder.command()));
    assert_eq!(ran.status, Some(1), "{}", ran.err);
    assert!(ran.err.contains("it was restored already"), "{}", ran.err);
}

#[test]
fn a_receipt_that_is_none() {
    let (row, folder) = (Restore::row_i(), Folder::new());
    row.put(&folder);
    for text in ["", "{}", "[1, 2", "\"image\""] {
        folder.put("new.receipt.json", text);
        let mut command = folder.command();
        let ran = Ran::of(row.inputs(&mut command).args(["--output", "new"]));
        ran.failed("new.receipt.json: is no receipt: ", "--again");
        fs::remove_file(folder.at("new.receipt.json")).unwrap();
        folder.put(RECEIPT, text);
        let ran = Ran::of(row.call(&mut folder.command()));
        ran.failed(&format!("{RECEIPT}: is no receipt: "), "--again");
        assert_eq!(folder.get("image"), row.image);
        assert_eq!(folder.get(RECEIPT), text.as_bytes());
    }
    let ran = Ran::of(row.call(&mut folder.command()).arg("--again"));
    ran.done("image: 1 frame moved, 2 pointers\n");
    assert_eq!(
        receipt(&folder, RECEIPT)["after"]["sha256"],
        digest(&moved_once())
    );
}

/// A receipt that cannot be put in its place leaves the image as it was.
#[test]
fn a_receipt_that_cannot_be_written() {
    let (row, folder) = (Restore::row_i(), Folder::new());
    row.put(&folder);
    fs::create_dir(folder.at(RECEIPT)).unwrap();
    let ran = Ran::of(row.call(&mut folder.command()).arg("--again"));
    ran.failed(
        "image: cannot be replaced: its receipt ",
        "cannot be written: ",
    );
    assert_eq!(folder.get("image"), row.image);
    assert_eq!(folder.names(), DONE);
}

/// Names as long as a file's may be: what is put beside them has shorter ones.
#[test]
fn long_names() {
    let row = Restore::row_i();
    for length in [239, 240, 241, 242, 243, 254, 255] {
        let folder = Folder::new();
        row.put(&folder);
        let name = "i".repeat(length);
        fs::rename(folder.at("image"), folder.at(&name)).unwrap();
        let call = format!(
            "restore --section section --image {name} --first 7000 --moves moves --frames frames"
        );
        let place = |more: &str| folder.run(format!("{call} {more}").split(' '));
        place("--in-place").done(&format!("{name}: 1 frame moved, 2 pointers\n"));
        assert_eq!(folder.get(&name), moved_once());
        assert_eq!(folder.names().len(), 5, "{length}");
        assert_eq!(
            place("--in-place").status,
            Some(1),
            "{length}: its receipt is found"
        );
        folder.put(&name, &row.image);
        let new = "n".repeat(length);
        place(&format!("--output {new}")).done(&format!("{new}: 1 frame moved, 2 pointers\n"));
        assert_eq!(folder.get(&new), moved_once());
    }
}
