//! `join`: one move table of two or more.

use crate::run::{Folder, Ran};
use std::io::Write;
use std::process::Stdio;

const HEAD: &str = "# Where the objects of the heap were, and where they are now: OLD NEW\n";

/// What 14 says.
const NO_TABLE: &str =
    "lists unequal, over 65,536 entries, old starts not strictly rising, or a 0 in either";

/// A folder with two tables: an object that is moved twice, two that are moved to one place, one that stays for
/// the first move, one that is gone after it, and one that comes in between.
fn two() -> Folder {
    let folder = Folder::new();
    let first = "# the first\n10 90\n\n20 0x80 # both\n30 80\n40 40\n50 a0\nfffffffffffffff0 1\n";
    folder.put("first", first);
    folder.put("second", "1 ffffffffffffffff\n10 77\n40 10\n80 90\n90 20\n");
    folder
}

const JOINED: &str = "0x10 0x20\n0x20 0x90\n0x30 0x90\n0x40 0x10\n\
    0xfffffffffffffff0 0xffffffffffffffff\n";

#[test]
fn each_old_start_that_goes_on() {
    let folder = two();
    let joined = format!("{HEAD}{JOINED}");
    folder.run(["join", "first", "second"]).done(&joined);
    let ran = folder.run(["join", "first", "second", "--output", "-"]);
    ran.done(&joined);
    // The order counts.
    let other = format!("{HEAD}0x40 0x90\n0x90 0x80\n");
    folder.run(["join", "second", "first"]).done(&other);
    // An empty table leaves nothing.
    folder.put("none", "# none\n");
    folder.run(["join", "first", "none"]).done(HEAD);
    folder.run(["join", "none", "second"]).done(HEAD);
}

/// Several tables are joined from the left, which is the same as from the right.
#[test]
fn several_tables() {
    let folder = two();
    folder.put("third", "10 1\n20 2\n90 3\n");
    let all = format!("{HEAD}0x10 0x2\n0x20 0x3\n0x30 0x3\n0x40 0x1\n");
    folder.run(["join", "first", "second", "third"]).done(&all);
    folder
        .run(["join", "first", "second", "--output", "left"])
        .done("");
    folder.run(["join", "left", "third"]).done(&all);
    folder
        .run(["join", "second", "third", "--output", "right"])
        .done("");
    folder.run(["join", "first", "right"]).done(&all);
}

/// What is written is a table again; a file that is there is replaced whole.
#[test]
fn to_a_file() {
    let folder = two();
    folder.put(
        "joined",
        "what was there before, which is longer than a table is\n".repeat(9),
    );
    folder
        .run(["join", "first", "second", "--output", "joined"])
        .done("");
    assert_eq!(folder.get("joined"), format!("{HEAD}{JOINED}").into_bytes());
    assert_eq!(folder.names(), ["first", "joined", "second"]);
    // Its own input may be the file, which is read before.
    folder
        .run(["join", "first", "second", "--output", "first"])
        .done("");
    assert_eq!(folder.get("first"), folder.get("joined"));
    let ran = folder.run(["join", "first", "second", "--output", "none/joined"]);
    ran.failed("none/joined: cannot be written: ", "No such file");
}

/// Each table has to be one, and the first line at fault is named; nothing is written.
#[test]
fn tables_that_are_none() {
    let folder = two();
    for (bad, line, found) in [
        ("10 90\n0 80\n", 2, "the old start is 0"),
        ("# x\n\n10 0\n", 3, "the new start is 0"),
        (
            "10 90\n20 1\n20 80\n10 1\n",
            3,
            "old start 0x20 is not above 0x20 of line 2",
        ),
        (
            "20 90\n10 80\n",
            2,
            "old start 0x10 is not above 0x20 of line 1",
        ),
    ] {
        folder.put("bad", bad);
        for files in [["bad", "second"], ["first", "bad"], ["bad", "bad"]] {
            let ran = folder.run(["join", files[0], files[1], "--output", "joined"]);
            let told = ran.refused(14, 0, &format!("bad:{line}: {NO_TABLE}"));
            assert_eq!((told, ran.text()), (found, ""));
        }
    }
    // Of two that are none the first is named.
    folder.put("worse", "0 0\n");
    let ran = folder.run(["join", "first", "worse", "bad"]);
    assert_eq!(
        ran.refused(14, 0, &format!("worse:1: {NO_TABLE}")),
        "the old start is 0"
    );
    let long: String = (1..=65_537).map(|old| format!("{old:x} 1\n")).collect();
    folder.put("bad", long);
    let ran = folder.run(["join", "first", "bad"]);
    let told = ran.refused(14, 0, &format!("bad:65537: {NO_TABLE}"));
    assert_eq!(told, "entry 65537 of 65537");
    assert_eq!(folder.names(), ["bad", "first", "second", "worse"]);
}

#[test]
fn as_many_entries_as_there_may_be() {
    let folder = Folder::new();
    let onward: String = (1..=65_536)
        .map(|old| format!("{old:x} {:x}\n", old + 1))
        .collect();
    folder.put("onward", onward);
    let ran = folder.run(["join", "onward", "onward"]);
    // The last object has gone to where the second table has none.
    let joined = (1..=65_535).map(|old| format!("{old:#x} {:#x}\n", old + 2));
    ran.done(&format!("{HEAD}{}", joined.collect::<String>()));
}

#[test]
fn wrong_calls_and_lines() {
    let folder = two();
    folder.run(["join"]).failed("", "MOVES");
    folder.run(["join", "first"]).failed("", "MOVES");
    folder
        .run(["join", "-", "-"])
        .failed("'-' stands there twice", "");
    folder
        .run(["join", "first", "none"])
        .failed("none: cannot be read: ", "No such file");
    folder.put("bad", "10 90\n20\n");
    for files in [["bad", "second"], ["first", "bad"]] {
        let ran = folder.run(["join", files[0], files[1]]);
        ran.failed("bad:2: 1 word; a line has the form OLD NEW", "");
    }
}

#[test]
fn from_standard_input() {
    let folder = two();
    let mut command = folder.command();
    let piped = command.args(["join", "-", "second"]).stdin(Stdio::piped());
    let started = piped.stdout(Stdio::piped()).stderr(Stdio::piped()).spawn();
    let mut child = started.unwrap();
    let mut to = child.stdin.take().unwrap();
    to.write_all(&folder.get("first")).unwrap();
    drop(to);
    let ran = Ran::from(child.wait_with_output().unwrap());
    ran.done(&format!("{HEAD}{JOINED}"));
}
