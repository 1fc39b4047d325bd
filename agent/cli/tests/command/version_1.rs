//! Sections of version 1: listed, built, searched, cut and restored.

use crate::fixtures::{row_h, with, words, C};
use crate::list::NO_RECORD;
use crate::restore::Restore;
use crate::run::{sample, Folder};
use std::fs;

/// What 27 and 28 say.
const OTHER_VERSION: &str =
    "question by address of version 1, or by function and offset of version 3";
const NOT_HELD: &str = "version 1 listing with a record count not 0 or a size over 255";

/// Row H in version 1. The function is at 16, the record at 32, its locations from 48 on.
fn row_h_1() -> Vec<u8> {
    fs::read(sample("h-version-1.section")).unwrap()
}

fn listing() -> Vec<u8> {
    fs::read(sample("h-version-1.listing")).unwrap()
}

/// Row H in version 1 with its record twice.
fn twice() -> Vec<u8> {
    let section = with(row_h_1(), 12, 2);
    [&section[..], &section[32..]].concat()
}

/// Row I on version 1.
fn row_i() -> Restore {
    Restore {
        section: row_h_1(),
        frames: "0+20 0 7000\n".to_string(),
        ..Restore::row_i()
    }
}

const TEXT: &str = "\
section: version 1, 112 bytes, 1 function, 0 constants, 1 record
function 0 at 0x1000: stack size 24
record 0: ID 7, offset 0x20, statepoint of 2 pairs
  location 0: Constant 0, size 8
  location 1: Constant 0, size 8
  location 2: Constant 0, size 8, deopt count
  location 3: Indirect [RSP + 8], size 8, base of pair 0
  location 4: Indirect [RSP + 8], size 8, derived of pair 0
  location 5: Indirect [RSP + 8], size 8, base of pair 1
  location 6: Indirect [RSP + 16], size 8, derived of pair 1
";

#[test]
fn listings_and_back() {
    let folder = Folder::new();
    for (section, listing) in [
        (with(C.to_vec(), 0, 1), vec![7, 1, 6]),
        (row_h_1(), listing()),
    ] {
        folder.put("section", &section);
        let ran = folder.run(["list", "section"]);
        assert_eq!((ran.status, &ran.out), (Some(0), &listing));
        folder.put("listing", &listing);
        let ran = folder.run(["build", "listing"]);
        assert_eq!((ran.status, &ran.out), (Some(0), &section));
    }
}

#[test]
fn the_text_has_the_records_after_the_functions() {
    let folder = Folder::new();
    folder.put("h", row_h_1());
    folder.run(["list", "--text", "h"]).done(TEXT);
    // A second function before the record, a constant and a live-out of another record.
    let mut rich = listing()[..27].to_vec();
    rich.extend([1, 0, 0x20, 0, 0, 0, 0, 0, 0]);
    rich.extend([&[255; 8][..], &[0; 8]].concat());
    rich.extend([2, 9, 0, 0, 0, 0, 0, 0, 0]);
    rich.extend([3, 1, 0, 0, 0, 0, 0, 0, 0, 0x10, 0, 0, 0, 5, 6, 0, 8]);
    rich.extend(&listing()[27..]);
    folder.put("listing", &rich);
    folder
        .run(["build", "listing", "--output", "rich"])
        .done("");
    let record = TEXT.split_once("record 0").unwrap().1;
    let expected = format!(
        "section: version 1, 160 bytes, 2 functions, 1 constant, 2 records
function 0 at 0x1000: stack size 24
function 1 at 0x2000: stack size not known
record 0: ID 1, offset 0x10
  live-out 0: RBP, size 8
record 1{record}constant 0: 9 (0x9)
"
    );
    folder.run(["list", "--text", "rich"]).done(&expected);
}

#[test]
fn what_version_1_cannot_hold() {
    let folder = Folder::new();
    for (bytes, place) in [
        (with(listing(), 2 + 17, 1), 2),
        (with(listing(), 2 + 25 + 13 + 3, 1), 40),
    ] {
        folder.put("listing", bytes);
        let ran = folder.run(["build", "listing"]);
        ran.refused(28, place, &format!("listing: {NOT_HELD}"));
    }
}

#[test]
fn a_record_is_found_by_function_and_offset() {
    let folder = Folder::new();
    folder.put("h", row_h_1());
    let rest = TEXT.split_once('\n').unwrap().1;
    let expected = format!("0+0x20: record 0, the only record at this offset\n{rest}");
    for asked in ["0+20", "0+0x20", "000+0X0020"] {
        folder.run(["find", "h", asked]).done(&expected);
    }
    folder.put("twice", twice());
    let ran = folder.run(["find", "twice", "0+20"]);
    let start = "0+0x20: record 0, the first of 2 records at this offset\n";
    assert!(ran.text().starts_with(start), "{}", ran.text());
    for asked in ["1+20", "0+21", "0+1020", "4294967296+20", "0+100000020"] {
        let ran = folder.run(["find", "h", asked]);
        ran.refused(10, 0, &format!("h: {NO_RECORD}"));
    }
}

#[test]
fn each_version_has_its_question() {
    let folder = Folder::new();
    folder.put("older", row_h_1());
    folder.put("newer", row_h());
    for (file, asked) in [("older", "1020"), ("older", "20"), ("newer", "0+20")] {
        let ran = folder.run(["find", file, asked]);
        ran.refused(27, 0, &format!("{file}: {OTHER_VERSION}"));
    }
    for asked in ["+20", "0+", "a+20", "0x0+20", "0+20+20", "0+rip"] {
        let why = "not a decimal number, '+' and a hexadecimal one";
        folder
            .run(["find", "older", asked])
            .failed("", &format!("'{asked}' for '[ADDRESS]': {why}"));
    }
}

#[test]
fn maps_of_both_versions_are_cut() {
    let folder = Folder::new();
    folder.put("all", [row_h_1(), row_h(), row_h_1()].concat());
    let lines = "part 0 from byte 0: 112 bytes, accepted
part 1 from byte 112: 152 bytes, accepted
part 2 from byte 264: 112 bytes, accepted
";
    folder.run(["cut", "all", "--into", "parts"]).done(lines);
    for (part, bytes) in [(0, row_h_1()), (1, row_h()), (2, row_h_1())] {
        assert_eq!(folder.get(&format!("parts/part-{part}.section")), bytes);
    }
}

#[test]
fn row_i_and_sizes() {
    let moved = words(&[0xEEEE_EEEE_EEEE_EEEE, 0x90000, 0x94E20]);
    assert_eq!(row_i().done("1 frame moved, 2 pointers"), moved);
    let mut row = row_i();
    for (base, derived) in [(0, 8), (8, 0), (0, 0)] {
        row.section = with(with(row_h_1(), 89, base), 97, derived);
        assert_eq!(row.done("1 frame moved, 2 pointers"), moved);
    }
    row.section = with(row_h_1(), 97, 16);
    let words = row.refused(18, 0);
    let end = "; frame 0 (function 0, offset 0x20, RBP 0x0, RSP 0x7000): pair 1: \
        base Indirect [RSP + 8], size 8; derived Indirect [RSP + 16], size 16";
    assert!(words.ends_with(end), "{words}");
}

#[test]
fn the_samples() {
    let mut row = row_i();
    row.frames = fs::read_to_string(sample("i-version-1.frames")).unwrap();
    row.moves = fs::read_to_string(sample("i.moves")).unwrap();
    row.image = fs::read(sample("i.image")).unwrap();
    assert_eq!(
        row.done("1 frame moved, 2 pointers"),
        words(&[0, 0x90000, 0x94E20])
    );
}

#[test]
fn refusals_of_where_the_frame_stands() {
    let mut row = row_i();
    for frame in ["1+20", "0+21", "0+1020", "4294967296+20", "0+100000020"] {
        row.frames = format!("0+20 0 7000\n{frame} 0 7000\n");
        let words = row.refused(10, 1);
        assert!(words.starts_with(&format!("frames:2: {NO_RECORD}; frame 1 (")));
        let function = frame.starts_with("0+");
        let why = if function {
            "): no record at offset 0x"
        } else {
            "): no function "
        };
        assert!(words.contains(why), "{words}");
    }
    row.frames = "0+20 0 7000\n0+20 0 7000\n".to_string();
    row.refused(26, 1);
    row.frames = "0+20 0 7001\n".to_string();
    let words = row.refused(16, 0);
    let end = "): extent 0x7001 to 0x7019, image 0x7000 to 0x7018";
    assert!(words.ends_with(end), "{words}");
    row.section = twice();
    let words = row.refused(15, 0);
    assert!(words.starts_with("frames:1: more than one record at the address or offset; "));
    row.frames = "1+20 0 7000\n".to_string();
    row.refused(10, 0);
}

/// No address is taken for an offset.
#[test]
fn lines_of_the_other_version_are_bad() {
    let mut row = row_i();
    for (line, why) in [
        ("1020 0 7000", "'1020' is not a function's decimal number, "),
        ("0 20 0 7000", "'0' is not a function's decimal number, "),
        ("0+20 0", "2 words"),
        ("0+20 0 7000 0", "4 words"),
        ("0+20 0 7000+1", "'7000+1' is not a hexadecimal number"),
    ] {
        row.frames = format!("# frames\n{line}\n");
        row.failed(
            &format!("frames:2: {why}"),
            "; a line has the form FUNCTION+OFFSET RBP RSP [REGISTER=VALUE..]\n",
        );
    }
}
