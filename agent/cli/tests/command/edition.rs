//! `edition`: a store that is a file, its answers and its refusals.

mod at_once;
mod damaged;
mod killed;

use crate::run::{Folder, Ran};
use serde_json::{json, Value};
use std::fs::{self, File, Permissions};
use std::os::unix::fs::{symlink, PermissionsExt};

/// What the refusals say.
const FULL: &str = "s: 64 editions are live";
const UNKNOWN: &str = "s: edition unknown or retired";
const USED_UP: &str = "s: new edition's number over 2^32 - 1";
const WRONG: &str = "s: pointer count not 1 to 256, machine unknown, or no version allowed";

/// The name that a new store has until it takes the old one's.
const BESIDE: &str = ".s.treskibben-new";

/// The settings of a place, in the order of the file: pointer count, machine, version 1, version 3.
pub type Settings = [u64; 4];

/// The bytes of a store with these editions in its first places.
pub fn store(greatest: u64, editions: &[(u64, Settings)]) -> Vec<u8> {
    let mut bytes = b"EDITIONS\x01\0\0\0\x1c\x0a\0\0".to_vec();
    bytes.extend(greatest.to_le_bytes());
    for (number, settings) in editions {
        for number in [&[*number], &settings[..]].concat() {
            bytes.extend(number.to_le_bytes());
        }
    }
    bytes.resize(2_584, 0);
    bytes.extend(crc_32(&bytes).to_le_bytes());
    bytes
}

/// CRC-32 as zlib has it, bit by bit.
fn crc_32(bytes: &[u8]) -> u32 {
    let mut crc = u32::MAX;
    for byte in bytes {
        crc ^= u32::from(*byte);
        for _ in 0..8 {
            crc = if crc % 2 == 1 {
                (crc / 2) ^ 0xEDB8_8320
            } else {
                crc / 2
            };
        }
    }
    !crc
}

/// A folder with a store `s`.
fn with_store(bytes: &[u8]) -> Folder {
    let folder = Folder::new();
    folder.put("s", bytes);
    folder
}

const MAKE: [&str; 6] = ["edition", "make", "--store", "s", "--machine", "x86-64"];

fn make(folder: &Folder, more: &[&str]) -> Ran {
    folder.run(MAKE.iter().chain(more))
}

fn retire(folder: &Folder, more: &[&str]) -> Ran {
    folder.run(["edition", "retire", "--store", "s"].iter().chain(more))
}

fn list(folder: &Folder, more: &[&str]) -> Ran {
    folder.run(["edition", "list", "--store", "s"].iter().chain(more))
}

/// The numbers of the live editions, and the greatest ever used.
fn numbers(folder: &Folder) -> (Vec<u64>, u64) {
    let ran = list(folder, &["--json"]);
    assert_eq!((ran.status, ran.err.as_str()), (Some(0), ""));
    let lines = ran.text().lines();
    let objects: Vec<Value> = lines
        .map(|line| serde_json::from_str(line).unwrap())
        .collect();
    let edition = |object: &Value| object["edition"].as_u64().unwrap();
    let live: Vec<u64> = objects[1..].iter().map(edition).collect();
    assert_eq!(objects[0]["live"], live.len());
    (live, objects[0]["greatest"].as_u64().unwrap())
}

#[test]
fn made_retired_and_listed() {
    let folder = Folder::new();
    let words = "at most 256 pointers, x86-64, versions 1 and 3";
    make(&folder, &["--new"]).done(&format!("s: edition 1 made: {words}\n"));
    assert_eq!(folder.get("s"), store(1, &[(1, [256, 0, 1, 1])]));
    make(&folder, &["--pointers", "1", "--versions", "3"])
        .done("s: edition 2 made: at most 1 pointer, x86-64, version 3\n");
    let arm = ["edition", "make", "--store", "s", "--machine", "aarch64"];
    folder
        .run(arm.iter().chain(&["--versions", "1"]))
        .done("s: edition 3 made: at most 256 pointers, aarch64, version 1\n");
    retire(&folder, &["1"]).done("s: edition 1 retired\n");
    let found = retire(&folder, &["1"]);
    assert_eq!(found.refused(31, 0, UNKNOWN), "edition 1 was retired");
    // Its place is used again, its number is not.
    make(&folder, &["--pointers", "7"])
        .done("s: edition 4 made: at most 7 pointers, x86-64, versions 1 and 3\n");
    let places = [(4, [7, 0, 1, 1]), (2, [1, 0, 0, 1]), (3, [256, 1, 1, 0])];
    assert_eq!(folder.get("s"), store(4, &places));
    list(&folder, &[]).done(
        "store: 3 live editions of 64, greatest number 4\n\
         edition 2: at most 1 pointer, x86-64, version 3\n\
         edition 3: at most 256 pointers, aarch64, version 1\n\
         edition 4: at most 7 pointers, x86-64, versions 1 and 3\n",
    );
    assert_eq!(folder.names(), ["s"]);
}

/// The objects that a run has told, and nothing else.
fn told(ran: Ran) -> Vec<Value> {
    assert_eq!(ran.err, "");
    let lines = ran.text().lines();
    lines
        .map(|line| serde_json::from_str(line).unwrap())
        .collect()
}

#[test]
fn objects_for_programs() {
    let folder = Folder::new();
    let made = told(make(&folder, &["--new", "--json", "--pointers=9"]));
    let settings = json!({"edition": 1, "pointers": 9, "machine": "x86-64", "versions": [1, 3]});
    let mut expected = settings.clone();
    expected["answer"] = json!("made");
    expected["file"] = json!("s");
    assert_eq!(made, [expected]);
    let mut edition = settings;
    edition["answer"] = json!("edition");
    let head = json!({"answer": "store", "file": "s", "live": 1, "greatest": 1});
    assert_eq!(told(list(&folder, &["--json"])), [head, edition]);
    let retired = told(retire(&folder, &["1", "--json"]));
    assert_eq!(
        retired,
        [json!({"answer": "retired", "file": "s", "edition": 1})]
    );
    let refused = retire(&folder, &["5", "--json"]);
    assert_eq!(refused.status, Some(1));
    let expected = json!({
        "answer": "refused", "file": "s", "number": 31, "place": 0,
        "cause": "edition unknown or retired",
        "found": "edition 5 was never made: the greatest number is 1",
    });
    assert_eq!(told(refused), [expected]);
    folder.put("s", "no store");
    let refused = list(&folder, &["--json"]);
    assert_eq!(refused.status, Some(1));
    let expected = json!({
        "answer": "refused", "file": "s", "cause": "not a store of editions, or a damaged one",
        "found": "it doesn't begin with 'EDITIONS'",
    });
    assert_eq!(told(refused), [expected]);
}

#[test]
fn refusals_leave_the_store_as_it_was() {
    let right = [256, 0, 1, 1];
    let full: Vec<(u64, Settings)> = (1..=64).map(|number| (number, right)).collect();
    let last = u64::from(u32::MAX);
    let mut last_full = full.clone();
    last_full[63].0 = last;
    for (bytes, arguments, number, words) in [
        (store(64, &full), &[][..], 30, FULL),
        (store(64, &full), &["--pointers", "0"], 51, WRONG),
        (store(last, &[]), &[], 32, USED_UP),
        (store(last, &last_full), &[], 32, USED_UP),
        (store(last, &last_full), &["--pointers", "257"], 51, WRONG),
        (
            store(0, &[]),
            &["--pointers", "18446744073709551615"],
            51,
            WRONG,
        ),
    ] {
        let folder = with_store(&bytes);
        make(&folder, arguments).refused(number, 0, words);
        assert_eq!(folder.get("s"), bytes);
        assert_eq!(folder.names(), ["s"]);
    }
    let folder = with_store(&store(last, &last_full));
    for edition in ["0", "64", "65", "4294967296", "18446744073709551615"] {
        retire(&folder, &[edition]).refused(31, 0, UNKNOWN);
    }
    retire(&folder, &["4294967295"]).done("s: edition 4294967295 retired\n");
    make(&folder, &[]).refused(32, 0, USED_UP);
    // A store near its last number gives it, and then none.
    let folder = with_store(&store(last - 1, &[]));
    make(&folder, &["--versions=1"])
        .done("s: edition 4294967295 made: at most 256 pointers, x86-64, version 1\n");
    make(&folder, &[]).refused(32, 0, USED_UP);
}

#[test]
fn sixty_four_are_made_and_each_is_retired() {
    let folder = Folder::new();
    for number in 1..=64 {
        let new: &[&str] = if number == 1 { &["--new"] } else { &[] };
        assert_eq!(make(&folder, new).status, Some(0), "{number}");
    }
    let found = make(&folder, &[]);
    assert!(found.refused(30, 0, FULL).contains("frees a place"));
    assert_eq!(numbers(&folder), ((1..=64).collect(), 64));
    for number in 1..=64u64 {
        retire(&folder, &[&number.to_string()]).done(&format!("s: edition {number} retired\n"));
        retire(&folder, &[&number.to_string()]).refused(31, 0, UNKNOWN);
    }
    assert_eq!(numbers(&folder), (vec![], 64));
    make(&folder, &[]).done("s: edition 65 made: at most 256 pointers, x86-64, versions 1 and 3\n");
}

#[test]
fn wrong_calls() {
    let folder = Folder::new();
    make(&folder, &[]).failed("s: cannot be opened: ", "No such file");
    retire(&folder, &["1"]).failed("s: cannot be opened: ", "No such file");
    list(&folder, &[]).failed("s: cannot be read: ", "No such file");
    assert!(folder.names().is_empty());
    let kept = store(1, &[]);
    folder.put("s", &kept);
    make(&folder, &["--new"]).failed("s: cannot be written: it exists already", "--new");
    make(&folder, &["--new", "--pointers=0"]).refused(51, 0, WRONG);
    make(&folder, &["--pointers=-1"]).failed("", "not a decimal number");
    make(&folder, &["--pointers", "0x10"]).failed("", "not a decimal number");
    make(&folder, &["--versions", "2"]).failed("", "'2' isn't a valid value");
    make(&folder, &["--versions", ""]).failed("", "--versions");
    make(&folder, &["--versions", "3,1"]).failed("", "'3,1' isn't a valid value");
    retire(&folder, &[]).failed("", "<EDITION>");
    retire(&folder, &["one"]).failed("", "not a decimal number");
    folder
        .run(["edition", "make", "--store", "s"])
        .failed("", "--machine");
    let named = ["edition", "make", "--store", "-", "--machine", "x86-64"];
    folder
        .run(named)
        .failed("--store needs a file with a name", "");
    folder
        .run(["edition", "make", "--store", ".", "--machine", "x86-64"])
        .failed(".: cannot be replaced: it is not a regular file", "");
    folder
        .run(["edition"])
        .failed("", "Usage: treskibben edition");
    assert_eq!(folder.get("s"), kept);
    assert_eq!(folder.names(), ["s"]);
}

#[test]
fn help_of_each_part() {
    let folder = Folder::new();
    for part in ["make", "retire", "list"] {
        let ran = folder.run(["edition", part, "--help"]);
        assert_eq!((ran.status, ran.err.as_str()), (Some(0), ""));
        let usage = format!("\nUsage: treskibben edition {part} ");
        assert!(ran.text().contains(&usage), "{part}");
        assert!(ran.text().lines().all(|line| line.len() <= 100), "{part}");
    }
}

/// The file behind a link is replaced, and keeps its permissions.
#[test]
fn links_and_permissions_stay() {
    let folder = Folder::new();
    make(&folder, &["--new"]);
    fs::rename(folder.at("s"), folder.at("real")).unwrap();
    symlink("real", folder.at("s")).unwrap();
    let mode = Permissions::from_mode(0o640);
    fs::set_permissions(folder.at("real"), mode).unwrap();
    assert_eq!(make(&folder, &[]).status, Some(0));
    assert_eq!(numbers(&folder), (vec![1, 2], 2));
    assert!(fs::symlink_metadata(folder.at("s")).unwrap().is_symlink());
    let real = fs::metadata(folder.at("real")).unwrap();
    assert_eq!(real.permissions().mode() & 0o7777, 0o640);
    assert_eq!(folder.names(), ["real", "s"]);
}

/// A store is listed from a pipe too.
#[test]
fn a_store_on_standard_input() {
    let folder = with_store(&store(9, &[(9, [2, 1, 1, 0])]));
    let mut command = folder.command();
    let command = command.args(["edition", "list", "--store", "-"]);
    let ran = Ran::of(command.stdin(File::open(folder.at("s")).unwrap()));
    ran.done(
        "store: 1 live edition of 64, greatest number 9\n\
         edition 9: at most 2 pointers, aarch64, version 1\n",
    );
}

/// What is made is made, also where nobody can be told on standard output; then it is told elsewhere.
#[test]
fn standard_output_may_be_full_or_closed() {
    let folder = with_store(&store(0, &[]));
    for (nth, to) in ["exec >/dev/full", "exec >&-"].into_iter().enumerate() {
        let ran = Ran::of(folder.shell(to).args(MAKE));
        assert_eq!(ran.status, Some(0), "{to}: {ran:?}");
        let line = format!("s: edition {} made: ", nth + 1);
        assert!(ran.err.starts_with(&line), "{to}: {}", ran.err);
        assert!(ran.err.ends_with("; standard output cannot be written\n"));
    }
    let list = ["edition", "list", "--store", "s"];
    let ran = Ran::of(folder.shell("exec >/dev/full").args(list));
    ran.failed("standard output: cannot be written: ", "No space left");
    assert_eq!(numbers(&folder), (vec![1, 2], 2));
}
