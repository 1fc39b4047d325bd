//! What is told for programs.

use super::{every_reason, told};
use crate::restore::receipts::digest;
use crate::restore::Restore;
use serde_json::{json, Value};

fn objects(row: &Restore, more: &[&str]) -> Vec<Value> {
    let text = told(row, &[more, &["--json"]].concat());
    let lines = text.lines();
    lines
        .map(|line| serde_json::from_str(line).unwrap())
        .collect()
}

fn entry(file: &str, bytes: &[u8]) -> Value {
    json!({"file": file, "bytes": bytes.len(), "sha256": digest(bytes)})
}

#[test]
fn a_thread() {
    let row = every_reason();
    let objects = objects(&row, &[]);
    let head = json!({
        "answer": "explained", "treskibben": env!("CARGO_PKG_VERSION"),
        "section": entry("section", &row.section), "image": entry("image", &row.image),
        "first": "0x7000", "moves": entry("moves", row.moves.as_bytes()),
        "frames": entry("frames", row.frames.as_bytes()), "machine": "x86-64",
        "edition": {
            "number": null, "pointers": 256, "machine": "x86-64", "versions": [1, 3], "store": null
        },
    });
    assert_eq!(objects[0], head);
    let frame = json!({
        "answer": "explained-frame", "frame": 0, "line": 2, "address": "0x1020", "record": 0,
        "function": 0, "extent": ["0x7000", "0x7050"], "pairs": 8, "pointers": 9, "slots": 10,
        "null_pairs": [2, 5],
    });
    assert_eq!(objects[1], frame);
    let moved = json!({
        "answer": "slot", "frame": 0, "line": 2, "place": "RSP+0x10", "register": "RSP", "dwarf": 7,
        "offset": 16, "address": "0x7010", "old": "0x54e20", "new": "0x94e20", "reason": "moved",
        "pair": 1, "old_base": "0x50000", "new_base": "0x90000",
        "why": "moved: pair 1, from the base RSP+0x8",
    });
    assert_eq!(objects[3], moved);
    let in_a_register = json!({
        "answer": "slot", "frame": 0, "line": 2, "place": "RBX", "register": "RBX", "dwarf": 3,
        "old": "0x4fff0", "new": "0x8fff0", "reason": "moved", "pair": 3, "old_base": "0x50000",
        "new_base": "0x90000", "why": "moved: pair 3, from the base RBP-0x10",
    });
    assert_eq!(objects[5], in_a_register);
    let only_base = json!({
        "answer": "slot", "frame": 0, "line": 2, "place": "RBP-0x10", "register": "RBP", "dwarf": 6,
        "offset": -16, "address": "0x7048", "old": "0x50000", "new": "0x50000",
        "reason": "only_base", "why": "stays, only a base: of pairs 3 and 7",
    });
    assert_eq!(objects[4], only_base);
    assert_eq!(objects[7]["reason"], "null_base");
    assert_eq!(
        (&objects[12]["frame"], &objects[12]["null_pairs"]),
        (&json!(1), &json!([]))
    );
    let total = objects.last().unwrap();
    for (field, count) in [
        ("frames", 2),
        ("pairs", 10),
        ("null_pairs", 2),
        ("pointers", 11),
        ("slots", 12),
        ("moved", 4),
        ("null_base", 4),
        ("only_base", 4),
        ("registers", 1),
    ] {
        assert_eq!(total[field], count, "{field}");
    }
    assert_eq!(
        (&total["answer"], &total["after"]["bytes"]),
        (&json!("total"), &json!(160))
    );
    assert!(total["frames_after"]["sha256"].is_string());
    assert_eq!(objects.len(), 1 + 2 + 12 + 1);
}

#[test]
fn a_frame_and_a_slot() {
    let row = every_reason();
    let frame = objects(&row, &["--frame", "1"]);
    let answers: Vec<&str> = frame
        .iter()
        .map(|own| own["answer"].as_str().unwrap())
        .collect();
    assert_eq!(
        answers,
        ["explained", "explained-frame", "slot", "slot", "total"]
    );
    assert!(frame[4].get("after").is_none());
    let slot = objects(&row, &["--frame", "0", "--slot", "rdx"]);
    let expected = json!({
        "answer": "slot", "frame": 0, "line": 2, "place": "RDX", "register": "RDX", "dwarf": 1,
        "old": null, "new": null, "reason": "unlisted",
        "why": "stays, unlisted: it is no pointer's slot",
    });
    assert_eq!(slot, [expected]);
}

/// A frame of version 1 is named by its function and an offset.
#[test]
fn version_1() {
    let older = Restore {
        section: std::fs::read(crate::run::sample("h-version-1.section")).unwrap(),
        frames: "0+20 0 7000\n".to_string(),
        ..Restore::row_i()
    };
    let frame = json!({
        "answer": "explained-frame", "frame": 0, "line": 1, "record": 0, "function": 0,
        "offset": "0x20", "extent": ["0x7000", "0x7018"], "pairs": 2, "pointers": 2, "slots": 2,
        "null_pairs": [],
    });
    assert_eq!(objects(&older, &[])[1], frame);
}
