//! `report`: totals over many sections.

mod added;
mod at_once;
mod folders;
mod passed;

use crate::fixtures::{location, one_function, row_h, with, C};
use crate::run::{Folder, Ran};
use generator::layout::{Function, Record, Section, Version};
use serde_json::{json, Value};
use std::process::Stdio;

/// The nine lines of these thirteen totals.
pub fn lines(totals: [u64; 13]) -> String {
    let [sections, refused, functions, records, statepoints, pairs, rest @ ..] = totals;
    let [a, b, c, d, e, stack, unknown] = rest;
    format!(
        "sections {sections}\nrefused {refused}\nfunctions {functions}\nrecords {records}\n\
         statepoints {statepoints}\npairs {pairs}\nkinds {a} {b} {c} {d} {e}\nstack {stack}\n\
         unknown {unknown}\n"
    )
}

/// The same for programs.
pub fn object(totals: [u64; 13]) -> Value {
    let hex = totals.map(|total| format!("{total:#x}"));
    let [sections, refused, functions, records, statepoints, pairs, rest @ ..] = hex;
    let [a, b, c, d, e, stack, unknown] = rest;
    let kinds = json!({"Register": a, "Direct": b, "Indirect": c, "Constant": d, "ConstIndex": e});
    json!({
        "sections": sections, "refused": refused, "functions": functions, "records": records,
        "statepoints": statepoints, "pairs": pairs, "kinds": kinds, "stack": stack,
        "unknown": unknown,
    })
}

/// What row C, row H and a refused section add.
pub const OF_C: [u64; 13] = [1, 0, 0, 0, 0, 0, 0, 0, 0, 0, 0, 0, 0];
pub const OF_H: [u64; 13] = [1, 0, 1, 1, 1, 2, 0, 0, 4, 3, 0, 24, 0];
pub const OF_REFUSED: [u64; 13] = [1, 1, 0, 0, 0, 0, 0, 0, 0, 0, 0, 0, 0];

/// Totals added up.
pub fn sum(parts: &[[u64; 13]]) -> [u64; 13] {
    let add = |sums: [u64; 13], own: &[u64; 13]| std::array::from_fn(|nth| sums[nth] + own[nth]);
    parts.iter().fold([0; 13], add)
}

/// A section of functions alone, with these stack sizes.
pub fn of_sizes(sizes: &[u64]) -> Vec<u8> {
    let function = |&stack_size: &u64| Function {
        address: 0x1000,
        stack_size,
        record_count: 0,
    };
    let section = Section {
        functions: sizes.iter().map(function).collect(),
        ..Section::default()
    };
    section.encode()
}

/// The last object on standard output.
#[track_caller]
pub fn last_object(ran: &Ran) -> Value {
    serde_json::from_str(ran.text().lines().last().unwrap()).unwrap()
}

/// As document 02 has it, and of no files but one.
#[test]
fn row_c_alone() {
    let folder = Folder::new();
    folder.put("c", C);
    let expected = "sections 1\nrefused 0\nfunctions 0\nrecords 0\nstatepoints 0\npairs 0\n\
                    kinds 0 0 0 0 0\nstack 0\nunknown 0\n";
    folder.run(["report", "c"]).done(expected);
    folder.put("c-1", with(C.to_vec(), 0, 1));
    folder.run(["report", "c-1"]).done(expected);
    folder.put("empty", "");
    folder.run(["report", "empty"]).done(&lines(OF_REFUSED));
}

/// Each total by a section that has it, in both versions; a file twice counts twice.
#[test]
fn all_thirteen_totals() {
    let folder = Folder::new();
    let kinds = [1, 2, 2, 3, 3, 3, 4, 4, 4, 4, 5, 5, 5, 5, 5];
    let record = Record {
        id: 1,
        offset: 4,
        locations: kinds.map(|kind| location(kind, 8, 7, 0)).to_vec(),
        live_outs: vec![],
    };
    let mut section = one_function(u64::MAX, vec![record]);
    section.constants = vec![9];
    let of_kinds = [1, 0, 1, 1, 0, 0, 1, 2, 3, 4, 5, 0, 1];
    folder.put("kinds", section.encode());
    section.version = Version::One;
    section.functions[0].record_count = 0;
    folder.put("kinds-1", section.encode());
    folder.put("h", row_h());
    folder.put("sizes", of_sizes(&[5, u64::MAX, 7]));
    let of_sizes = [1, 0, 3, 0, 0, 0, 0, 0, 0, 0, 0, 12, 1];
    let files = ["kinds", "kinds-1", "h", "sizes", "h"];
    let totals = sum(&[of_kinds, of_kinds, OF_H, of_sizes, OF_H]);
    folder
        .run(["report"].into_iter().chain(files))
        .done(&lines(totals));
    folder.run(["report", "kinds"]).done(&lines(of_kinds));
    folder.run(["report", "kinds-1"]).done(&lines(of_kinds));
}

/// Refused sections count, are no fault, and are told where that is asked for.
#[test]
fn refused_sections() {
    let folder = Folder::new();
    folder.put("h", row_h());
    folder.put("long", [row_h(), vec![0; 3]].concat());
    folder.put("flat", with(row_h(), 0, 2));
    let files = ["report", "long", "h", "flat"];
    let totals = sum(&[OF_REFUSED, OF_H, OF_REFUSED]);
    folder.run(files).done(&lines(totals));
    let ran = folder.run(files.into_iter().chain(["--refused"]));
    assert_eq!((ran.status, ran.text()), (Some(0), &*lines(totals)));
    let told: Vec<&str> = ran.err.lines().collect();
    assert_eq!(told.len(), 2, "{}", ran.err);
    assert!(told[0].starts_with("long: refused 1 at 152: section under 16 or over "));
    assert!(told[1].starts_with("flat: refused 2 at 0: version neither 1 nor 3; its first byte"));
    let ran = folder.run(files.into_iter().chain(["--refused", "--json"]));
    assert_eq!((ran.status, ran.err.as_str()), (Some(0), ""));
    let numbers: Vec<Value> = ran
        .text()
        .lines()
        .map(|line| serde_json::from_str::<Value>(line).unwrap()["number"].clone())
        .collect();
    assert_eq!(numbers, [json!(1), json!(2), Value::Null]);
    assert_eq!(last_object(&ran)["totals"], object(totals));
}

/// What cannot be read counts as refused, is told, and is the exit status.
#[test]
fn files_that_cannot_be_read() {
    let folder = Folder::new();
    folder.put("h", row_h());
    let ran = folder.run(["report", "missing", "h", "h/below"]);
    let totals = sum(&[OF_REFUSED, OF_H, OF_REFUSED]);
    assert_eq!((ran.status, ran.text()), (Some(2), &*lines(totals)));
    let told: Vec<&str> = ran.err.lines().collect();
    assert_eq!(told.len(), 2, "{}", ran.err);
    assert!(told[0].starts_with("treskibben: missing: cannot be read: No such file"));
    assert!(told[1].starts_with("treskibben: h/below: cannot be read: Not a directory"));
    let ran = folder.run(["report", "--json", "missing", "h"]);
    assert_eq!((ran.status, ran.err.as_str()), (Some(2), ""));
    let first: Value = serde_json::from_str(ran.text().lines().next().unwrap()).unwrap();
    assert_eq!(
        (&first["answer"], &first["file"]),
        (&json!("failed"), &json!("missing"))
    );
    assert_eq!(
        last_object(&ran)["totals"],
        object(sum(&[OF_REFUSED, OF_H]))
    );
}

/// Sections up to 16,777,216 bytes are read, longer ones are refused, and no more of them is read.
#[test]
fn sections_of_any_accepted_length() {
    let folder = Folder::new();
    let of_length = |length: usize| {
        let constants = vec![7; (length - 16) / 8];
        Section {
            constants,
            ..Section::default()
        }
        .encode()
    };
    let mut files = vec!["report".to_string()];
    let lengths = [
        24, 65_536, 65_544, 131_072, 131_080, 16_777_216, 16, 16_777_208,
    ];
    for (nth, length) in lengths.into_iter().enumerate() {
        let name = format!("{nth}");
        folder.put(&name, of_length(length));
        files.push(name);
    }
    let count = lengths.len() as u64;
    let mut totals = OF_C.map(|own| own * count);
    for threads in ["1", "3"] {
        let call = files.iter().map(String::as_str);
        folder
            .run(call.chain(["--threads", threads]))
            .done(&lines(totals));
    }
    folder.put("longer", of_length(16_777_224));
    folder.put_sparse("longest", &C, 1 << 40);
    files.extend(["longer".to_string(), "longest".to_string()]);
    totals = sum(&[totals, OF_REFUSED, OF_REFUSED]);
    folder.run(&files).done(&lines(totals));
}

/// Standard input is a section, once, and a file of that name another.
#[test]
fn standard_input() {
    let folder = Folder::new();
    folder.put("h", row_h());
    folder.put("-", C);
    let mut command = folder.shell("exec <h");
    let ran = Ran::of(command.args(["report", "-", "./-"]));
    ran.done(&lines(sum(&[OF_H, OF_C])));
    let ran = Ran::of(
        folder
            .command()
            .args(["report", "-", "-"])
            .stdin(Stdio::null()),
    );
    ran.failed("'-' stands there twice", "standard input");
    let ran = folder.run(["report", "--add", "-", "--", "-"]);
    ran.failed("'-' stands there twice", "standard input");
}

#[test]
fn calls_that_are_none() {
    let folder = Folder::new();
    folder.put("c", C);
    folder.run(["report"]).failed("", "<PATH>...");
    folder.run(["report", "--add"]).failed("", "--add");
    folder.run(["report", "--name"]).failed("", "--name");
    for threads in ["0", "1025", "-1", "two", "", "18446744073709551616"] {
        let threads = format!("--threads={threads}");
        folder
            .run(["report", &threads, "c"])
            .failed("", "--threads");
    }
    for threads in ["1", "1024"] {
        let ran = folder.run(["report", "--threads", threads, "c"]);
        ran.done(&lines(OF_C));
    }
}
