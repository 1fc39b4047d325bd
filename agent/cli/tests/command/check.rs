//! `check`.

use crate::fixtures::{row_h, with, C};
use crate::run::{sample, Folder, Ran};
use std::process::Stdio;
use std::time::{Duration, Instant};

/// What 1 says.
const NOT_THAT_LONG: &str =
    "section under 16 or over 16,777,216 bytes, or listing over 33,554,432 bytes";

#[test]
fn each_sample_gets_its_answer() {
    let folder = Folder::new();
    for (name, answer) in [
        ("c-empty", None),
        ("c-version-1", None),
        ("d-version-2", Some((2, 0, "version neither 1 nor 3"))),
        ("e-byte-after", Some((1, 16, NOT_THAT_LONG))),
        (
            "f-record-missing",
            Some((
                5,
                12,
                "record counts, added exactly, differ from NumRecords",
            )),
        ),
        (
            "g-function-missing",
            Some((4, 16, "a function, constant or record isn't wholly inside")),
        ),
        ("h-statepoint", None),
        ("h-version-1", None),
    ] {
        let path = sample(&format!("{name}.section"));
        let shown = path.display();
        let ran = folder.run([&"check".into(), &path]);
        match answer {
            None => ran.done(&format!("{shown}: accepted\n")),
            Some((number, place, cause)) => {
                let _ = ran.refused(number, place, &format!("{shown}: {cause}"));
                assert_eq!(ran.text(), "");
            }
        }
    }
}

#[test]
fn all_files_are_looked_at_and_the_worst_decides() {
    let folder = Folder::new();
    folder.put("good", C);
    folder.put("bad", with(C.to_vec(), 3, 9));
    folder.put("also good", row_h());
    let ran = folder.run(["check", "good", "bad", "also good"]);
    assert_eq!(ran.text(), "good: accepted\nalso good: accepted\n");
    let found = ran.refused(3, 3, "bad: a byte required to be zero isn't");
    assert_eq!(found, "it is 0x09");

    let ran = folder.run(["check", "missing", "bad", "good"]);
    assert_eq!(ran.status, Some(2));
    assert_eq!(ran.text(), "good: accepted\n");
    let (first, rest) = ran.err.split_once('\n').unwrap();
    assert!(first.starts_with("treskibben: missing: cannot be read: No such file"));
    assert_eq!(
        rest,
        "bad: refused 3 at 3: a byte required to be zero isn't; it is 0x09\n"
    );
}

#[test]
fn files_that_are_none() {
    let folder = Folder::new();
    folder
        .run(["check", "missing"])
        .failed("missing: ", "No such file");
    folder
        .run(["check", "."])
        .failed(".: cannot be read: ", "directory");
    folder.run(["check", ""]).failed("", "<FILE>...");
    let ran = folder.run(["check", "/dev/null"]);
    let found = ran.refused(1, 0, &format!("/dev/null: {NOT_THAT_LONG}"));
    assert_eq!(found, "it has 0 bytes");
}

#[test]
fn the_largest_section_and_one_byte_more() {
    let folder = Folder::new();
    let constants = (16_777_216 - 16) / 8u32;
    let mut head = C.to_vec();
    head[8..12].copy_from_slice(&constants.to_le_bytes());
    folder.put_sparse("largest", &head, 16_777_216);
    folder.put_sparse("longer", &head, 16_777_217);
    folder.run(["check", "largest"]).done("largest: accepted\n");
    let ran = folder.run(["check", "longer"]);
    let found = ran.refused(1, 0, &format!("longer: {NOT_THAT_LONG}"));
    assert_eq!(found, "it has 16777217 bytes");
}

/// A file that claims terabytes, endless ones, and little memory: the answer comes at once.
#[test]
fn no_more_is_read_than_the_limit() {
    let folder = Folder::new();
    folder.put_sparse("huge", &C, 1 << 42);
    for (file, long) in [
        ("huge", "it has 4398046511104 bytes"),
        ("/dev/zero", "it has more than 16777216 bytes"),
    ] {
        let begun = Instant::now();
        let mut command = folder.shell("ulimit -v 262144");
        let ran = Ran::of(command.args(["check", file]));
        let found = ran.refused(1, 0, &format!("{file}: {NOT_THAT_LONG}"));
        assert_eq!(found, long);
        assert!(begun.elapsed() < Duration::from_secs(20));
    }
}

#[test]
fn a_pipe_is_a_file_too() {
    let folder = Folder::new();
    folder.put("h", row_h());
    let mut command = std::process::Command::new("sh");
    let script = "cat h | \"$0\" check /dev/stdin";
    command.args(["-c", script, crate::run::PROGRAM]);
    command.current_dir(folder.path()).stdin(Stdio::null());
    Ran::of(&mut command).done("/dev/stdin: accepted\n");
}
