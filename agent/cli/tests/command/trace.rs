//! `trace`: what a trace says, for people and for programs, and what is said of a broken one.

use crate::run::{Folder, Ran};
use generator::traces::{Known, Trace};
use generator::Rng;
use serde_json::{json, Value};
use std::fs::File;
use std::process::Stdio;

/// The item of a frame whose registers are 0 but for these.
pub fn frame(machine: u8, address: u64, function: u64, registers: &[(usize, u64)]) -> Vec<u8> {
    let mut numbers = vec![address, function];
    numbers.resize(2 + 32, 0);
    for (register, content) in registers {
        numbers[2 + register] = *content;
    }
    let mut item = vec![1, machine];
    item.extend(numbers.iter().flat_map(|number| number.to_le_bytes()));
    item
}

/// The item of an answer.
pub fn answer(number: u8, value: u64) -> Vec<u8> {
    [&[2, number][..], &value.to_le_bytes()].concat()
}

/// A trace of these items, and its end.
pub fn of(items: &[Vec<u8>]) -> Vec<u8> {
    let mut trace = items.concat();
    trace.push(3);
    trace
}

/// The trace of row I.
pub fn row_i() -> Vec<u8> {
    of(&[frame(0, 0x1020, 0, &[(7, 0x7000)]), answer(0, 2)])
}

/// A trace of either machine, with answers of every kind.
fn rich() -> Vec<u8> {
    let all: Vec<(usize, u64)> = (0..32)
        .map(|number| (number, 0x100 + number as u64))
        .collect();
    of(&[
        frame(0, 0x1020, 0, &[(6, 0x7020), (7, 0x7000), (3, 0x50000)]),
        answer(0, 1),
        frame(1, u64::MAX, u64::MAX, &[(31, u64::MAX), (29, 1), (0, 2)]),
        answer(33, 0),
        frame(0, 0, 5, &[]),
        answer(21, 3),
        frame(0, 1, 0, &all),
        answer(200, u64::MAX),
    ])
}

const RICH: &str = "\
trace: 1137 bytes, 4 frames
frame 0: x86-64, address 0x1020, function 0
  registers: RBX 0x50000, RBP 0x7020, RSP 0x7000
  answer: accepted, 1 pointer
frame 1: aarch64, address 0xffffffffffffffff, function 18446744073709551615
  registers: X0 0x2, X29 0x1, SP 0xffffffffffffffff
  answer: refused 33 at 0: version or machine not allowed
frame 2: x86-64, address 0x0, function 5
  registers: all 0
  answer: refused 21 at 3: base neither 0 nor an old start; pair 3
frame 3: x86-64, address 0x1, function 0
  registers: RAX 0x100, RDX 0x101, RCX 0x102, RBX 0x103, RSI 0x104, RDI 0x105, RBP 0x106, RSP 0x107, \
R8 0x108, R9 0x109, R10 0x10a, R11 0x10b, R12 0x10c, R13 0x10d, R14 0x10e, R15 0x10f, RIP 0x110, \
XMM0 0x111, XMM1 0x112, XMM2 0x113, XMM3 0x114, XMM4 0x115, XMM5 0x116, XMM6 0x117, XMM7 0x118, \
XMM8 0x119, XMM9 0x11a, XMM10 0x11b, XMM11 0x11c, XMM12 0x11d, XMM13 0x11e, XMM14 0x11f
  answer: refused 200 at 18446744073709551615: a cause that this version has no words for
";

#[test]
fn for_people() {
    let folder = Folder::new();
    folder.put("t", rich());
    folder.run(["trace", "--text", "t"]).done(RICH);
    // So it is unless something else is said.
    folder.run(["trace", "t"]).done(RICH);
    let mut command = folder.command();
    let file = File::open(folder.at("t")).unwrap();
    let ran = Ran::of(command.args(["trace", "-"]).stdin(Stdio::from(file)));
    ran.done(RICH);
    folder.put("none", of(&[]));
    folder
        .run(["trace", "none"])
        .done("trace: 1 byte, 0 frames\n");
}

#[test]
fn for_programs() {
    let folder = Folder::new();
    folder.put("t", rich());
    let ran = folder.run(["trace", "--json", "t"]);
    assert_eq!((ran.status, ran.err.as_str()), (Some(0), ""));
    let lines = ran.text().lines();
    let objects: Vec<Value> = lines
        .map(|line| serde_json::from_str(line).unwrap())
        .collect();
    assert_eq!(objects.len(), 5);
    let head = json!({"answer": "trace", "file": "t", "bytes": 1137, "frames": 4});
    assert_eq!(objects[0], head);
    let first = json!({
        "answer": "recorded", "frame": 0, "machine": "x86-64", "address": "0x1020", "function": "0x0",
        "registers": {"RBX": "0x50000", "RBP": "0x7020", "RSP": "0x7000"},
        "recorded": {"number": 0, "value": "0x1", "words": "accepted, 1 pointer"},
    });
    assert_eq!(objects[1], first);
    let second = json!({
        "answer": "recorded", "frame": 1, "machine": "aarch64", "address": "0xffffffffffffffff",
        "function": "0xffffffffffffffff",
        "registers": {"X0": "0x2", "X29": "0x1", "SP": "0xffffffffffffffff"},
        "recorded": {
            "number": 33, "value": "0x0", "words": "refused 33 at 0: version or machine not allowed",
        },
    });
    assert_eq!(objects[2], second);
    assert_eq!(objects[3]["registers"], json!({}));
    let words = "refused 21 at 3: base neither 0 nor an old start; pair 3";
    assert_eq!(objects[3]["recorded"]["words"], words);
    assert_eq!(objects[4]["recorded"]["value"], "0xffffffffffffffff");
    assert_eq!(objects[4]["registers"].as_object().unwrap().len(), 32);
}

const BROKEN: &str = "t: trace breaks its grammar";

/// Each way in which a trace can be broken, with its place and in words.
#[test]
fn broken_ones() {
    let folder = Folder::new();
    let (one, two) = (frame(0, 1, 0, &[]), answer(0, 0));
    let other = frame(2, 1, 0, &[]);
    for (items, place, found) in [
        (&[][..], 0, "it ends there, where a frame or the end is due"),
        (
            &[&one[..273]],
            0,
            "frame 0 is cut: it has 274 bytes, and 273 are there",
        ),
        (
            &[&one[..]],
            274,
            "it ends there, where the answer of frame 0 is due",
        ),
        (
            &[&one[..], &two[..9]],
            274,
            "the answer of frame 0 is cut: it has 10 bytes, and 9 are there",
        ),
        (
            &[&one[..], &two],
            284,
            "it ends there, where a frame or the end is due",
        ),
        (
            &[&two[..], &[3]],
            0,
            "an answer stands there, where a frame or the end is due",
        ),
        (
            &[&one[..], &one, &[3]],
            274,
            "a frame stands there, where the answer of frame 0 is due",
        ),
        (
            &[&one[..], &[3]],
            274,
            "the end stands there, where the answer of frame 0 is due",
        ),
        (
            &[&one[..], &two, &two, &[3]],
            284,
            "an answer stands there, where a frame or the end is due",
        ),
        (
            &[&one[..], &two, &other, &two, &[3]],
            284,
            "the machine of frame 1 is 2, and neither 0 nor 1",
        ),
        (
            &[&one[..], &two, &[0xAB]],
            284,
            "the byte 0xab, which begins no item, stands there, where a frame or the end is due",
        ),
        (&[&one[..], &two, &[3, 3]], 285, "1 byte after the end"),
        (&[&[3][..], &one, &two], 1, "284 bytes after the end"),
    ] {
        folder.put("t", items.concat());
        let ran = folder.run(["trace", "t"]);
        assert_eq!((ran.refused(35, place, BROKEN), ran.text()), (found, ""));
        let ran = folder.run(["trace", "--json", "t"]);
        let refused = json!({
            "answer": "refused", "file": "t", "number": 35, "place": place,
            "cause": "trace breaks its grammar", "found": found,
        });
        let told: Value = serde_json::from_str(ran.text()).unwrap();
        assert_eq!((told, ran.status), (refused, Some(1)));
    }
}

/// A frame and its answer, cut at every byte.
#[test]
fn cut_at_every_byte() {
    let (folder, whole) = (Folder::new(), row_i());
    for length in 0..whole.len() {
        folder.put("t", &whole[..length]);
        let place = match length {
            0..274 => 0,
            274..284 => 274,
            _ => 284,
        };
        let ran = folder.run(["trace", "t"]);
        let found = ran.refused(35, place, BROKEN);
        assert!(found.contains(" is cut: ") || found.starts_with("it ends there"));
    }
}

/// Random traces: as many frames as there are, or the place of the break.
#[test]
fn random_ones() {
    let (folder, mut rng) = (Folder::new(), Rng::part(0x7ACE, 0));
    let mut seen = [0; 2];
    for _ in 0..150 {
        let trace = Trace::any(&mut rng);
        folder.put("t", &trace.bytes);
        let ran = folder.run(["trace", "t"]);
        if let Known::Broken(place) = trace.known {
            ran.refused(35, place, BROKEN);
            seen[0] += 1;
            continue;
        }
        let frames = ran.text().matches("\nframe ").count();
        assert_eq!(frames, trace.items.len() / 2);
        assert_eq!((ran.status, ran.err.as_str()), (Some(0), ""));
        seen[1] += 1;
    }
    assert!(seen.iter().all(|count| *count >= 40), "{seen:?}");
}

#[test]
fn calls_and_files_that_are_wrong() {
    let folder = Folder::new();
    folder.put("t", row_i());
    let ran = folder.run(["trace", "--text", "--json", "t"]);
    ran.failed("", "cannot be used with");
    folder.run(["trace"]).failed("", "<TRACE>");
    folder
        .run(["trace", "missing"])
        .failed("missing: cannot be read: ", "No such file");
    folder.put_sparse("long", &[3], 268_435_457);
    folder
        .run(["trace", "long"])
        .failed("long: is too long: ", "at most 268435456 bytes");
    folder.put_sparse("most", &[3], 268_435_456);
    let ran = folder.run(["trace", "most"]);
    let found = ran.refused(35, 1, "most: trace breaks its grammar");
    assert_eq!(found, "268435455 bytes after the end");
}
