//! A restore that names an edition of a store.

use super::receipts::digest;
use super::{Restore, FILES, RECEIPT};
use crate::edition::{store, Settings};
use crate::fixtures::{location, of_pairs, rsp};
use crate::run::{sample, Folder, Ran};
use serde_json::{json, Value};

/// The settings of an edition, in the order of the file: pointer count, machine, version 1, version 3.
const ALL: Settings = [256, 0, 1, 1];
const THREE: Settings = [256, 0, 0, 1];
const ONE: Settings = [256, 0, 1, 0];
const ARM: Settings = [256, 1, 1, 1];

const UNKNOWN: &str = "s: edition unknown or retired";
const NOT_ALLOWED: &str = "s: version or machine not allowed";

/// Runs a restore in place by an edition of the store `s`.
fn by(row: &Restore, folder: &Folder, edition: &str, more: &[&str]) -> Ran {
    row.put(folder);
    let mut command = folder.command();
    row.call(&mut command);
    Ran::of(
        command
            .args(["--store", "s", "--edition", edition])
            .args(more),
    )
}

/// A restore that is refused: number, place, file and cause, and what was found. Nothing has changed.
#[track_caller]
fn refused(row: &Restore, folder: &Folder, ran: &Ran, number: u64, words: &str) -> String {
    let (first, second) = ran.err.split_once('\n').unwrap();
    assert_eq!(second, "image: is as it was\n");
    let first = Ran {
        err: format!("{first}\n"),
        out: ran.out.clone(),
        ..*ran
    };
    assert_eq!(folder.get("image"), row.image);
    let names: Vec<String> = folder
        .names()
        .into_iter()
        .filter(|name| name != "s")
        .collect();
    assert_eq!(names, FILES);
    first.refused(number, 0, words).to_string()
}

fn with_store(greatest: u64, editions: &[(u64, Settings)]) -> (Folder, Vec<u8>) {
    let (folder, bytes) = (Folder::new(), store(greatest, editions));
    folder.put("s", &bytes);
    (folder, bytes)
}

#[test]
fn the_edition_is_told() {
    let row = Restore::row_i();
    let (folder, bytes) = with_store(9, &[(3, [2, 0, 0, 1]), (9, ARM)]);
    by(&row, &folder, "3", &[]).done("image: 1 frame moved, 2 pointers, by edition 3\n");
    let receipt: Value = serde_json::from_slice(&folder.get(RECEIPT)).unwrap();
    let edition = json!({
        "number": 3, "pointers": 2, "machine": "x86-64", "versions": [3],
        "store": {"file": "s", "bytes": 2_588, "sha256": digest(&bytes)},
    });
    assert_eq!(receipt["edition"], edition);
    assert_eq!(folder.get("s"), bytes);
    let ran = by(&row, &folder, "3", &["--json"]);
    let restored: Value = serde_json::from_slice(&ran.out).unwrap();
    assert_eq!(restored["edition"], edition);
    assert_eq!(ran.status, Some(0));
}

/// Where none is named, the receipt says what was allowed, and that there is no store.
#[test]
fn no_edition() {
    let (row, folder) = (Restore::row_i(), Folder::new());
    row.put(&folder);
    for machine in ["x86-64", "aarch64"] {
        let mut command = folder.command();
        row.call(&mut command)
            .args(["--machine", machine, "--allow-empty"]);
        folder.put("frames", "");
        let ran = Ran::of(&mut command);
        ran.done("image: 0 frames moved, 0 pointers\n");
        let receipt: Value = serde_json::from_slice(&folder.get(RECEIPT)).unwrap();
        let edition = json!({
            "number": null, "pointers": 256, "machine": machine, "versions": [1, 3], "store": null,
        });
        assert_eq!(receipt["edition"], edition);
    }
    for more in [["--edition", "1"], ["--store", "s"]] {
        let ran = Ran::of(row.call(&mut folder.command()).args(more));
        ran.failed("", "required arguments were not provided");
    }
}

/// 31 comes first, with which editions are live.
#[test]
fn editions_that_are_unknown() {
    let mut row = Restore::row_i();
    let lives = [(1, ALL), (3, ALL), (4, ALL), (5, ALL), (9, ALL)];
    let (folder, _) = with_store(12, &lives);
    for (edition, found) in [
        ("0", "edition 0 was never made: the greatest number is 12"),
        ("2", "edition 2 was retired"),
        ("12", "edition 12 was retired"),
        ("13", "edition 13 was never made: the greatest number is 12"),
        (
            "18446744073709551615",
            "edition 18446744073709551615 was never made: the greatest number is 12",
        ),
    ] {
        let ran = by(&row, &folder, edition, &[]);
        let live = "live are 1, 3 to 5 and 9";
        let told = refused(&row, &folder, &ran, 31, UNKNOWN);
        assert_eq!(told, format!("{found}; {live}"));
    }
    // Before all else, and before whose registers the lines name is known.
    row.section[0] = 2;
    row.moves = "0 0\n".to_string();
    row.frames = "1020 x0=1 x29=2 sp=7000\n".to_string();
    let ran = by(&row, &folder, "2", &[]);
    refused(&row, &folder, &ran, 31, UNKNOWN);
    for (greatest, live, words) in [
        (0, &[][..], "no edition is live"),
        (7, &[(7, ARM)], "edition 7 is live"),
        (8, &[(7, ARM), (8, ARM)], "live are 7 and 8"),
    ] {
        let (folder, _) = with_store(greatest, live);
        let ran = by(&row, &folder, "1", &[]);
        let told = refused(&row, &folder, &ran, 31, UNKNOWN);
        assert!(told.ends_with(&format!("; {words}")), "{told}");
    }
}

/// 33 of the version and of the machine, with what the edition allows.
#[test]
fn versions_and_machines_that_are_not_allowed() {
    let (three, older) = (Restore::row_i(), version_1());
    let (folder, _) = with_store(4, &[(1, THREE), (2, ONE), (3, ARM), (4, [7, 1, 0, 1])]);
    for (row, edition, more, found) in [
        (
            &older,
            "1",
            &[][..],
            "edition 1 allows at most 256 pointers, x86-64, version 3; the section is of version 1",
        ),
        (
            &three,
            "2",
            &[],
            "edition 2 allows at most 256 pointers, x86-64, version 1; the section is of version 3",
        ),
        (
            &three,
            "3",
            &["--machine", "x86-64"],
            "edition 3 allows at most 256 pointers, aarch64, versions 1 and 3; the frames are of x86-64",
        ),
        (
            &older,
            "4",
            &["--machine", "x86-64"],
            "edition 4 allows at most 7 pointers, aarch64, version 3; the section is of version 1, \
             and the frames are of x86-64",
        ),
    ] {
        let ran = by(row, &folder, edition, more);
        assert_eq!(refused(row, &folder, &ran, 33, NOT_ALLOWED), found);
    }
}

fn version_1() -> Restore {
    Restore {
        section: std::fs::read(sample("h-version-1.section")).unwrap(),
        frames: "0+20 0 7000\n".to_string(),
        ..Restore::row_i()
    }
}

/// 33 comes after 1 to 9 and before 13 and 14.
#[test]
fn order() {
    let (folder, _) = with_store(1, &[(1, ONE)]);
    let mut row = Restore {
        image: vec![0; 1_048_577],
        moves: "0 0\n".to_string(),
        ..Restore::row_i()
    };
    row.section.push(0);
    let ran = by(&row, &folder, "1", &[]);
    assert!(
        ran.err.starts_with("section: refused 9 at 152: "),
        "{}",
        ran.err
    );
    row.section.pop();
    let ran = by(&row, &folder, "1", &[]);
    refused(&row, &folder, &ran, 33, NOT_ALLOWED);
    let (folder, _) = with_store(1, &[(1, ALL)]);
    let ran = by(&row, &folder, "1", &[]);
    let words = "image: image over 1,048,576 bytes, or first address + length over 2^64 - 1";
    refused(&row, &folder, &ran, 13, words);
}

/// The machine is the edition's, unless another is said.
#[test]
fn the_machine_of_the_edition() {
    let slot = |register| location(3, 8, register, 8);
    let row = Restore {
        section: of_pairs(24, &[[slot(31), slot(31)]]),
        frames: "1020 x29=0 sp=7000\n".to_string(),
        ..Restore::row_i()
    };
    let (folder, _) = with_store(1, &[(1, ARM)]);
    by(&row, &folder, "1", &[]).done("image: 1 frame moved, 1 pointer, by edition 1\n");
    let receipt: Value = serde_json::from_slice(&folder.get(RECEIPT)).unwrap();
    assert_eq!(receipt["machine"], "aarch64");
    let ran = by(&row, &folder, "1", &["--machine", "x86-64", "--again"]);
    ran.failed("frames:1: 'x29' is not a register of x86-64", "");
}

/// 17 reads the edition's count, and says how many pointers there are.
#[test]
fn the_count_of_the_edition() {
    let pairs = vec![[rsp(8), rsp(8)]; 5];
    let row = Restore {
        section: of_pairs(24, &pairs),
        ..Restore::row_i()
    };
    let (folder, _) = with_store(2, &[(1, [4, 0, 1, 1]), (2, [5, 0, 1, 1])]);
    let ran = by(&row, &folder, "1", &[]);
    let cause = "frames:1: ";
    let first = ran.err.lines().next().unwrap();
    assert!(
        first.starts_with(&format!("{cause}refused 17 at 0: ")),
        "{first}"
    );
    let end = "5 pointers; edition 1 allows at most 4 pointers, x86-64, versions 1 and 3";
    assert!(first.ends_with(end), "{first}");
    by(&row, &folder, "2", &[]).done("image: 1 frame moved, 5 pointers, by edition 2\n");
}

/// A store that is damaged, or is none, is refused as it is by `edition list`.
#[test]
fn stores_that_are_damaged() {
    let (row, folder) = (Restore::row_i(), Folder::new());
    let mut flipped = store(1, &[(1, ALL)]);
    flipped[16] ^= 2;
    let whole = store(1, &[(1, ALL)]);
    for bytes in [
        &b""[..],
        b"EDITIONS",
        b"no store",
        &flipped,
        &whole[..2_587],
        &[&whole[..], b"\0"].concat(),
    ] {
        folder.put("s", bytes);
        let listed = folder.run(["edition", "list", "--store", "s"]);
        assert_eq!(listed.status, Some(1));
        let ran = by(&row, &folder, "1", &[]);
        assert_eq!((ran.status, ran.text()), (Some(1), ""));
        assert_eq!(ran.err, listed.err);
        assert_eq!(folder.get("image"), row.image);
        let ran = by(&row, &folder, "1", &["--json"]);
        let told: Value = serde_json::from_slice(&ran.out).unwrap();
        assert_eq!(
            (&told["answer"], &told["file"]),
            (&json!("refused"), &json!("s"))
        );
    }
    std::fs::remove_file(folder.at("s")).unwrap();
    by(&row, &folder, "1", &[]).failed("s: cannot be read: ", "No such file");
}

/// `explain` names an edition in the same way, and its report tells it.
#[test]
fn an_explanation() {
    let (folder, bytes) = with_store(3, &[(2, THREE), (3, [1, 0, 1, 1])]);
    let row = Restore::row_i();
    row.put(&folder);
    let explain = |edition: &str| {
        let call =
            "explain --section section --image image --first 7000 --moves moves --frames frames";
        let more = ["--store", "s", "--edition", edition];
        folder.run(call.split(' ').chain(more))
    };
    let ran = explain("2");
    assert_eq!((ran.status, ran.err.as_str()), (Some(0), ""));
    let text = ran.text();
    let store = format!("store       2588 bytes  sha256 {}  s\n", digest(&bytes));
    assert!(text.contains(&store), "{text}");
    let edition = "\nedition     2: at most 256 pointers, x86-64, version 3\n";
    assert!(text.contains(edition), "{text}");
    let found = explain("1");
    assert_eq!(
        found.refused(31, 0, UNKNOWN),
        "edition 1 was retired; live are 2 and 3"
    );
    let ran = explain("3");
    assert!(
        ran.err.starts_with("frames:1: refused 17 at 0: "),
        "{}",
        ran.err
    );
}
