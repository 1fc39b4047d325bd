//! `index`, `find --index`, and many addresses at once.

use crate::fixtures::{row_h, with, words, C};
use crate::list::NO_RECORD;
use crate::run::{sample, Folder, Ran};
use generator::arranged::{largest, section, Order};
use generator::indexes::right;
use generator::layout::Section;
use generator::Rng;
use std::fs;
use std::io::Write;
use std::process::Stdio;

/// What 27 and 29 say.
const OTHER_VERSION: &str =
    "question by address of version 1, or by function and offset of version 3";
const NO_INDEX: &str = "index isn't exactly the entries that the section yields";

/// Three functions without and with records, which are not in order: at 0x310, 0x300, 0x100 and 0x300.
fn mixed() -> Section {
    let mut section = crate::fixtures::one_function(8, vec![]);
    let record = |offset| generator::edges::record(offset, 1, 0);
    section.functions = vec![
        generator::edges::function(0x300, 2),
        generator::edges::function(0x50, 0),
        generator::edges::function(0x100, 2),
    ];
    section.records = vec![record(0x10), record(0), record(0), record(0x200)];
    section
}

const MIXED: [u64; 8] = [0x100, 2, 0x300, 1, 0x300, 3, 0x310, 0];

/// Runs the program with this text as its standard input.
fn with_input(folder: &Folder, arguments: &[&str], input: &str) -> Ran {
    let mut command = folder.command();
    let started = command
        .args(arguments)
        .stdin(Stdio::piped())
        .stdout(Stdio::piped())
        .stderr(Stdio::piped())
        .spawn();
    let mut child = started.unwrap();
    let mut to = child.stdin.take().unwrap();
    to.write_all(input.as_bytes()).unwrap();
    drop(to);
    Ran::from(child.wait_with_output().unwrap())
}

#[test]
fn the_file_has_address_and_number_of_each_record() {
    let folder = Folder::new();
    folder.put("mixed", mixed().encode());
    let ran = folder.run(["index", "mixed"]);
    assert_eq!((ran.status, ran.err.as_str()), (Some(0), ""));
    assert_eq!(ran.out, words(&MIXED));
    folder.run(["index", "mixed", "--output", "kept"]).done("");
    assert_eq!(folder.get("kept"), words(&MIXED));
    folder.put("c", C);
    folder.run(["index", "c", "--output", "kept"]).done("");
    assert_eq!(folder.get("kept"), b"");
}

#[test]
fn the_index_of_any_section() {
    let folder = Folder::new();
    let mut rng = Rng::new(8);
    for order in Order::ALL {
        let made = section(&mut rng, order);
        folder.put("section", made.encode());
        folder
            .run(["index", "section", "--output", "kept"])
            .done("");
        assert_eq!(folder.get("kept"), words(&right(&made)));
    }
}

#[test]
fn refusals_of_index_leave_the_old_file() {
    let folder = Folder::new();
    folder.put("kept", "something else");
    folder.put("bad", with(row_h(), 0, 4));
    let write = |file: &str| folder.run(["index", file, "--output", "kept"]);
    write("bad").refused(2, 0, "bad: version neither 1 nor 3");
    folder.put("older", fs::read(sample("h-version-1.section")).unwrap());
    let ran = write("older");
    let found = ran.refused(27, 0, &format!("older: {OTHER_VERSION}"));
    assert_eq!(
        found,
        "a section of version 1 has no addresses, and so no index"
    );
    write("missing").failed("missing: cannot be read: ", "No such file");
    folder.run(["index"]).failed("", "<FILE>");
    assert_eq!(folder.get("kept"), b"something else");
    assert_eq!(folder.names(), ["bad", "kept", "older"]);
}

#[test]
fn a_record_is_found_by_an_index_as_without() {
    let folder = Folder::new();
    folder.put("mixed", mixed().encode());
    folder.run(["index", "mixed", "--output", "kept"]).done("");
    for address in ["100", "300", "310"] {
        for json in [&[][..], &["--json"]] {
            let plain = folder.run([&["find", "mixed", address], json].concat());
            let index = ["find", "mixed", address, "--index", "kept"];
            folder.run([&index, json].concat()).done(plain.text());
        }
    }
    for (address, near) in [
        ("0", "record 2 of function 2 at 0x100, 256 bytes above"),
        ("101", "record 2 of function 2 at 0x100, 1 byte below"),
        ("200", "record 2 of function 2 at 0x100, 256 bytes below"),
        ("201", "record 1 of function 0 at 0x300, 255 bytes above"),
        ("311", "record 0 of function 0 at 0x310, 1 byte below"),
    ] {
        let ran = folder.run(["find", "mixed", address, "--index", "kept"]);
        let found = ran.refused(10, 0, &format!("mixed: {NO_RECORD}"));
        let nearest = format!("no record at address 0x{address}: the nearest is {near}");
        assert_eq!(found, nearest);
        assert_eq!(ran.out, b"");
    }
}

#[test]
fn an_index_that_is_not_the_sections_is_refused() {
    let folder = Folder::new();
    folder.put("mixed", mixed().encode());
    folder.put("list", "100\n");
    let mut other = MIXED;
    other.swap(3, 5);
    for (index, found) in [
        (&other[..], "entry 3 is 0x3, and not 0x1"),
        (&MIXED[..7], "it has 7 numbers, and that of the section 8"),
        (&[], "it has 0 numbers, and that of the section 8"),
        (
            &[&MIXED[..], &[0]].concat(),
            "it has 9 numbers, and that of the section 8",
        ),
    ] {
        folder.put("kept", words(index));
        let found = format!("{found}: 'treskibben index' makes it anew");
        for asked in [&["100"][..], &["5"], &["--addresses", "list"]] {
            let ran = folder.run([&["find", "mixed", "--index", "kept"], asked].concat());
            assert_eq!(ran.refused(29, 0, &format!("kept: {NO_INDEX}")), found);
            assert_eq!(ran.out, b"");
        }
    }
    // The section's own refusal and 27 come first, and are of the section.
    folder.put("bad", with(row_h(), 0, 4));
    let ran = folder.run(["find", "bad", "5", "--index", "kept"]);
    ran.refused(2, 0, "bad: version neither 1 nor 3");
    folder.put("older", fs::read(sample("h-version-1.section")).unwrap());
    for asked in [&["20"][..], &["--addresses", "list"]] {
        let ran = folder.run([&["find", "older", "--index", "kept"], asked].concat());
        ran.refused(27, 0, &format!("older: {OTHER_VERSION}"));
        let ran = folder.run([&["find", "older"], asked].concat());
        ran.refused(27, 0, &format!("older: {OTHER_VERSION}"));
    }
}

#[test]
fn files_that_are_no_index() {
    let folder = Folder::new();
    folder.put("h", row_h());
    let ask = |index: &str| folder.run(["find", "h", "1020", "--index", index]);
    ask("missing").failed("missing: cannot be read: ", "No such file");
    for length in [1, 7, 9, 15, 17] {
        folder.put("kept", vec![0; length]);
        let why = format!("it has {length} byte");
        ask("kept").failed("kept: is not an index: ", &why);
    }
    // One that is too long for any section is not read whole.
    folder.put_sparse("huge", &words(&[0x1020, 0]), 1 << 42);
    let mut command = folder.shell("ulimit -v 524288");
    let ran = Ran::of(command.args(["find", "h", "1020", "--index", "huge"]));
    let found = ran.refused(29, 0, &format!("huge: {NO_INDEX}"));
    assert!(found.starts_with("it has 1398099 numbers, "), "{found}");
}

#[test]
fn many_addresses_from_a_list_or_standard_input() {
    let folder = Folder::new();
    folder.put("mixed", mixed().encode());
    folder.run(["index", "mixed", "--output", "kept"]).done("");
    let list = "300 # the first\n\n0x310\n300\n";
    folder.put("list", list);
    let found = "\
0x300: record 1 of function 0, the first of 2 records at this address
0x310: record 0 of function 0, the only record at this address
0x300: record 1 of function 0, the first of 2 records at this address
";
    for index in [&[][..], &["--index", "kept"]] {
        let from = |list| [&["find", "mixed", "--addresses", list], index].concat();
        folder.run(from("list")).done(found);
        with_input(&folder, &from("-"), list).done(found);
        with_input(&folder, &from("-"), "").done("");
    }
}

#[test]
fn addresses_that_no_record_has_are_told_with_their_lines() {
    let folder = Folder::new();
    folder.put("mixed", mixed().encode());
    let ran = with_input(
        &folder,
        &["find", "mixed", "--addresses", "-"],
        "ffffffffffffffff\n310\n\n101\n",
    );
    assert_eq!(
        ran.text(),
        "0x310: record 0 of function 0, the only record at this address\n"
    );
    let line = |line: usize, address: &str, near: &str| {
        format!("-:{line}: refused 10 at 0: {NO_RECORD}; no record at address {address}: the nearest is {near}\n")
    };
    let far = "record 0 of function 0 at 0x310, 18446744073709550831 bytes below";
    let near = "record 2 of function 2 at 0x100, 1 byte below";
    let expected = line(1, "0xffffffffffffffff", far) + &line(4, "0x101", near);
    assert_eq!((ran.status, ran.err), (Some(1), expected));
    folder.put("c", C);
    let ran = with_input(&folder, &["find", "c", "--addresses", "-"], "5\n");
    assert!(ran
        .err
        .ends_with("no record at address 0x5: the section has no records\n"));
}

#[test]
fn many_addresses_for_programs() {
    let folder = Folder::new();
    folder.put("mixed", mixed().encode());
    folder.put("list", "300\n301\n");
    let ran = folder.run(["find", "mixed", "--addresses", "list", "--json"]);
    assert_eq!((ran.status, ran.err.as_str()), (Some(1), ""));
    let cause =
        "no record at address 0x301: the nearest is record 1 of function 0 at 0x300, 1 byte below";
    let expected = [
        r#"{"answer":"located","file":"mixed","line":1,"asked":"0x300","record":1,"function":0,"sharing":2}"#,
        &format!(
            r#"{{"answer":"refused","file":"list","line":2,"number":10,"place":0,"cause":"{NO_RECORD}","found":"{cause}"}}"#
        ),
    ];
    assert_eq!(ran.text().lines().collect::<Vec<_>>(), expected);
}

#[test]
fn wrong_calls_with_lists_and_indexes() {
    let folder = Folder::new();
    folder.put("h", row_h());
    folder.put("list", "1020\n1 2\n");
    folder.put("named", "0+20\n");
    let ask = |arguments: &[&str]| folder.run([&["find", "h"], arguments].concat());
    ask(&["--addresses", "list"]).failed("list:2: 2 words; a line has the form ADDRESS", "");
    ask(&["--addresses", "named"]).failed("named:1: '0+20' is not a hexadecimal number", "");
    ask(&["--addresses", "missing"]).failed("missing: cannot be read: ", "No such file");
    ask(&["1020", "--addresses", "list"]).failed("", "cannot be used with");
    ask(&["--machine=aarch64", "--addresses", "list"]).failed("", "cannot be used with");
    let twice = ["--addresses", "-", "--index", "-"];
    ask(&twice).failed("'-' stands there twice", "");
    ask(&["0+20", "--index", "h"]).failed("an index is for addresses", "FUNCTION+OFFSET");
}

/// The largest section: filled, kept, and asked a hundred thousand addresses.
#[test]
fn a_hundred_thousand_addresses_on_the_largest_section() {
    let folder = Folder::new();
    let made = largest(&mut Rng::new(9), Order::Shuffled, 1_000);
    folder.put("section", made.encode());
    folder
        .run(["index", "section", "--output", "kept"])
        .done("");
    let index = right(&made);
    assert!(folder.get("kept") == words(&index));
    let (pairs, _) = index.as_chunks::<2>();
    let asked: Vec<[u64; 2]> = pairs.iter().copied().step_by(7).take(100_000).collect();
    let list: String = asked.iter().map(|own| format!("{:x}\n", own[0])).collect();
    folder.put("list", list);
    let ran = folder.run(["find", "section", "--addresses", "list", "--index", "kept"]);
    assert_eq!((ran.status, ran.err.as_str()), (Some(0), ""));
    for (line, [address, number]) in ran.text().lines().zip(&asked) {
        let start = format!("{address:#x}: record {number} of function ");
        assert!(line.starts_with(&start), "{line}");
    }
    assert_eq!(ran.text().lines().count(), asked.len());
}
