//! `list` and `find`: what a section says.

use crate::fixtures::{
    constant, location, of_pairs, one_function, row_h, rsp, statepoint, with, C,
};
use crate::run::{sample, Folder};
use generator::layout::{Function, LiveOut, Record, Section, Version};
use std::fs;

/// What 10 says.
pub const NO_RECORD: &str = "no record of that number or address, or no such function or offset";

/// The listing of row H. The library's own tests hold the file to the bytes of document 01.
pub fn h_listing() -> Vec<u8> {
    fs::read(sample("h-statepoint.listing")).unwrap()
}

/// A record with every kind of location, and live-outs.
fn plain() -> Record {
    let live_out = |register, size| LiveOut { register, size };
    Record {
        id: u64::MAX,
        offset: 0,
        locations: vec![
            location(1, 4, 3, 0),
            location(2, 8, 6, -16),
            location(3, 16, 31, 0),
            constant(-1),
            location(5, 8, 0, 1),
        ],
        live_outs: vec![live_out(7, 8), live_out(17, 16), live_out(999, 1)],
    }
}

/// A statepoint with two deopt locations, a null pair and another.
fn call() -> Record {
    let mut locations = vec![constant(9), constant(1), constant(2)];
    locations.extend([location(1, 8, 0, 0), constant(5)]);
    locations.extend([constant(0), location(5, 8, 0, 0)]);
    locations.extend([rsp(0), location(3, 8, 6, -8)]);
    Record {
        id: 2,
        offset: 0x10,
        locations,
        live_outs: vec![],
    }
}

/// A section with every kind of thing.
pub fn rich() -> Section {
    let function = |address, stack_size, record_count| Function {
        address,
        stack_size,
        record_count,
    };
    Section {
        functions: vec![
            function(0xFFFF_0000, u64::MAX, 1),
            function(0x2000, 0, 0),
            function(0x3000, 40, 1),
        ],
        constants: vec![0, 0x1_0000_0000],
        records: vec![plain(), call()],
        ..Section::default()
    }
}

const RICH: &str = "\
section: 336 bytes, 3 functions, 2 constants, 2 records
function 0 at 0xffff0000: stack size not known, 1 record
  record 0 at 0xffff0000: ID 18446744073709551615, offset 0x0
    location 0: Register RBX, size 4
    location 1: Direct RBP - 16, size 8
    location 2: Indirect [XMM14], size 16
    location 3: Constant -1, size 8
    location 4: ConstIndex 1, which is 4294967296 (0x100000000), size 8
    live-out 0: RSP, size 8
    live-out 1: XMM0, size 16
    live-out 2: register 999, size 1
function 1 at 0x2000: stack size 0, 0 records
function 2 at 0x3000: stack size 40, 1 record
  record 1 at 0x3010: ID 2, offset 0x10, statepoint of 2 pairs
    location 0: Constant 9, size 8
    location 1: Constant 1, size 8
    location 2: Constant 2, size 8, deopt count
    location 3: Register RAX, size 8, deopt
    location 4: Constant 5, size 8, deopt
    location 5: Constant 0, size 8, base of pair 0 (null)
    location 6: ConstIndex 0, which is 0 (0x0), size 8, derived of pair 0 (null)
    location 7: Indirect [RSP], size 8, base of pair 1
    location 8: Indirect [RBP - 8], size 8, derived of pair 1
constant 0: 0 (0x0)
constant 1: 4294967296 (0x100000000)
";

#[test]
fn the_raw_listing_of_rows_c_and_h() {
    let folder = Folder::new();
    folder.put("c", C);
    let ran = folder.run(["list", "c"]);
    assert_eq!(
        (ran.status, ran.out, ran.err.as_str()),
        (Some(0), vec![6], "")
    );
    let ran = folder.run([&"list".into(), &sample("h-statepoint.section")]);
    assert_eq!((ran.status, ran.out), (Some(0), h_listing()));
}

#[test]
fn the_listing_in_a_file() {
    let folder = Folder::new();
    folder.put("h", row_h());
    folder.run(["list", "--output", "new", "h"]).done("");
    assert_eq!(folder.get("new"), h_listing());
    folder.put("old", "something else");
    folder.run(["list", "h", "--output=old"]).done("");
    assert_eq!(folder.get("old"), h_listing());
    folder
        .run(["list", "h", "--text", "--output", "text"])
        .done("");
    assert!(folder
        .get("text")
        .starts_with(b"section: 152 bytes, 1 function"));
    assert_eq!(folder.names(), ["h", "new", "old", "text"]);
    folder.run(["list", "h", "--output", "/dev/null"]).done("");
}

#[test]
fn a_refused_section_leaves_the_output_alone() {
    let folder = Folder::new();
    folder.put("e", [&C[..], &[0]].concat());
    folder.put("old", "something else");
    for output in ["old", "new"] {
        let ran = folder.run(["list", "e", "--output", output]);
        let found = ran.refused(9, 16, "e: bytes after the last record");
        assert!(found.contains("'treskibben check'"), "{found}");
        assert_eq!(ran.out, b"");
    }
    assert_eq!(folder.get("old"), b"something else");
    assert_eq!(folder.names(), ["e", "old"]);
}

#[test]
fn outputs_that_cannot_be() {
    let folder = Folder::new();
    folder.put("c", C);
    let ran = folder.run(["list", "c", "--output", "missing/file"]);
    ran.failed("missing/file: cannot be written: ", "No such file");
    let ran = folder.run(["list", "c", "--output", "."]);
    ran.failed(".: cannot be written: ", "directory");
    let ran = folder.run(["list", "c", "--output", "/dev/full"]);
    ran.failed("/dev/full: cannot be written: ", "No space");
    assert_eq!(folder.names(), ["c"]);
}

#[test]
fn the_text_shows_everything() {
    let folder = Folder::new();
    folder.put("rich", rich().encode());
    folder.run(["list", "--text", "rich"]).done(RICH);
    folder
        .run(["list", "--text", "rich", "--machine", "x86-64"])
        .done(RICH);
    let aarch64 = RICH
        .replace("RBX", "X3")
        .replace("RBP", "X6")
        .replace("XMM14", "SP")
        .replace("RSP", "X7")
        .replace("XMM0", "X17")
        .replace("RAX", "X0");
    for (machine, expected) in [
        ("amd64", RICH),
        ("x86_64", RICH),
        ("aarch64", &aarch64),
        ("arm64", &aarch64),
    ] {
        folder
            .run(["list", "--text", "--machine", machine, "rich"])
            .done(expected);
    }
    folder.put("c", C);
    let nothing = "section: 16 bytes, 0 functions, 0 constants, 0 records\n";
    folder.run(["list", "--text", "c"]).done(nothing);
}

/// How many pointers a pair holds stands behind it, where they are several: of version 3, by two equal sizes
/// of 16 to 2,048 in Indirect locations. The register is not looked at.
#[test]
fn the_text_shows_how_many_pointers_a_pair_holds() {
    let folder = Folder::new();
    let sized = |size, register, offset| location(3, size, register, offset);
    for (pair, holds) in [
        ([sized(8, 7, 0), sized(8, 7, 0)], ""),
        ([sized(16, 7, 0), sized(16, 6, -8)], " (2 pointers)"),
        ([sized(16, 29, 0), sized(16, 31, 8)], " (2 pointers)"),
        ([sized(2_040, 7, 0), sized(2_040, 7, 0)], " (255 pointers)"),
        ([sized(2_048, 7, 0), sized(2_048, 7, 0)], " (256 pointers)"),
        ([sized(2_056, 7, 0), sized(2_056, 7, 0)], ""),
        ([sized(0, 7, 0), sized(0, 7, 0)], ""),
        ([sized(17, 7, 0), sized(17, 7, 0)], ""),
        ([sized(16, 7, 0), sized(24, 7, 0)], ""),
        ([sized(16, 7, 0), location(1, 16, 3, 0)], ""),
        ([location(4, 16, 0, 0), location(4, 16, 0, 0)], " (null)"),
        ([location(4, 16, 0, 0), location(4, 24, 0, 0)], " (null)"),
        ([location(4, 16, 0, 1), location(4, 16, 0, 1)], ""),
    ] {
        folder.put("section", of_pairs(24, &[[rsp(8), rsp(8)], pair.clone()]));
        let ran = folder.run(["list", "--text", "section"]);
        let lines: Vec<String> = ran.text().lines().map(str::to_string).collect();
        let size = |nth: usize| pair[nth].size;
        let ends = |line: &str, end: &str| assert!(line.ends_with(end), "{line}, not {end}");
        ends(&lines[6], "size 8, base of pair 0");
        ends(
            &lines[8],
            &format!("size {}, base of pair 1{holds}", size(0)),
        );
        ends(
            &lines[9],
            &format!("size {}, derived of pair 1{holds}", size(1)),
        );
    }
    // Of version 1 a pair is one pointer, or none of right form.
    let mut older = one_function(
        24,
        vec![statepoint(0x20, &[[sized(16, 7, 0), sized(16, 7, 0)]])],
    );
    older.version = Version::One;
    older.functions[0].record_count = 0;
    folder.put("older", older.encode());
    let ran = folder.run(["list", "--text", "older"]);
    assert!(
        ran.text().contains("size 16, base of pair 0\n"),
        "{}",
        ran.text()
    );
}

#[test]
fn wrong_calls_of_list() {
    let folder = Folder::new();
    folder.put("c", C);
    for (arguments, why) in [
        (vec!["list"], "<FILE>"),
        (vec!["list", "c", "d"], "'d'"),
        (vec!["list", "c", "--machine", "aarch64"], "<--text|--json>"),
        (vec!["list", "c", "--text", "--json"], "'--json'"),
        (vec!["list", "c", "--text", "--machine", "vax"], "'vax'"),
        (vec!["list", "c", "--output"], "'--output <FILE>'"),
        (vec!["list", "--text=yes", "c"], "'yes'"),
        (vec!["list", "--txt", "c"], "'--text'"),
    ] {
        folder.run(arguments).failed("", why);
    }
    folder
        .run(["list", "missing"])
        .failed("missing: cannot be read: ", "No such file");
}

#[test]
fn a_record_is_found_by_its_address() {
    let folder = Folder::new();
    folder.put("rich", rich().encode());
    let after = RICH.split_once("function 2").unwrap().1;
    let record = after.split_once("constant 0").unwrap().0;
    let expected = format!(
        "0x3010: record 1 of function 2, the only record at this address\nfunction 2{record}"
    );
    for address in ["3010", "0x3010", "0X0000000000003010"] {
        folder.run(["find", "rich", address]).done(&expected);
    }
    let ran = folder.run(["find", "--machine=aarch64", "rich", "3010"]);
    assert!(ran.text().contains("Indirect [X7], size 8, base of pair 1"));
}

#[test]
fn records_that_share_an_address_are_counted() {
    let folder = Folder::new();
    let mut twice = rich();
    twice.functions[2].record_count = 2;
    let mut copy = twice.records[1].clone();
    copy.id = 3;
    twice.records.push(copy);
    folder.put("twice", twice.encode());
    let ran = folder.run(["find", "twice", "3010"]);
    let start = "0x3010: record 1 of function 2, the first of 2 records at this address\n";
    assert!(ran.text().starts_with(start), "{}", ran.text());
    assert!(ran.text().contains("ID 2,") && !ran.text().contains("ID 3,"));
}

#[test]
fn addresses_that_no_record_has() {
    let folder = Folder::new();
    folder.put("h", row_h());
    for address in ["0", "1000", "1021", "ffffffffffffffff"] {
        let ran = folder.run(["find", "h", address]);
        let found = ran.refused(10, 0, &format!("h: {NO_RECORD}"));
        assert_eq!(found, format!("no record at address 0x{address}"));
        assert_eq!(ran.out, b"");
    }
    folder.put("bad", with(row_h(), 0, 4));
    folder
        .run(["find", "bad", "1020"])
        .refused(2, 0, "bad: version neither 1 nor 3");
}

#[test]
fn wrong_calls_of_find() {
    let folder = Folder::new();
    folder.put("h", row_h());
    for (arguments, why) in [
        (vec!["find"], "<FILE>"),
        (vec!["find", "h"], "<ADDRESS>"),
        (vec!["find", "h", "1", "2"], "'2'"),
        (
            vec!["find", "h", "rip"],
            "'rip' for '[ADDRESS]': not a hexadecimal number of at most 64 bits",
        ),
        (
            vec!["find", "h", "10000000000000000"],
            "'10000000000000000' for '[ADDRESS]': not a hexadecimal number of at most 64 bits",
        ),
    ] {
        folder.run(arguments).failed("", why);
    }
}
