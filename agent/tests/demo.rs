//! `./demo`, and `tools/library`, by which it builds a library that is missing or stale.

mod readme;

use std::fs;
use std::os::unix::fs::PermissionsExt;
use std::path::{Path, PathBuf};
use std::process::{Command, Output};
use std::time::{Duration, SystemTime};

const ROOT: &str = concat!(env!("CARGO_MANIFEST_DIR"), "/..");

fn demo(arguments: &[&str]) -> Output {
    let mut demo = Command::new("./demo");
    demo.args(arguments).current_dir(ROOT);
    demo.output().expect("./demo can be started")
}

fn text(bytes: &[u8]) -> String {
    String::from_utf8_lossy(bytes).into_owned()
}

#[test]
fn help_needs_nothing() {
    for option in ["--help", "-h"] {
        let mut demo = Command::new("./demo");
        demo.arg(option)
            .current_dir(ROOT)
            .env_clear()
            .env("PATH", "/usr/bin:/bin");
        let ran = demo.output().unwrap();
        assert!(ran.status.success(), "{}", text(&ran.stderr));
        assert!(text(&ran.stdout).starts_with("usage: ./demo\n"));
    }
}

#[test]
fn a_refused_file_is_1_and_one_that_cannot_be_read_2() {
    let [accepted, refused] = ["samples/c-empty.section", "samples/d-version-2.section"];
    let runs: [(&[&str], i32, &str); 8] = [
        (&[accepted], 0, "accepted\n"),
        (&[refused], 1, "refused 2 at 0: version neither 1 nor 3\n"),
        (&[refused, accepted], 1, "accepted\n"),
        (&["--listing", refused], 1, "version neither 1 nor 3\n"),
        (
            &["--at", "0x1020", accepted],
            1,
            "or no such function or offset\n",
        ),
        (
            &["--move", "0x1020", "samples/h-statepoint.section"],
            0,
            "20000 bytes from the object's start\n",
        ),
        (&[refused, "samples/nothing"], 2, ""),
        (&["--nothing", accepted], 2, ""),
    ];
    for (arguments, status, end) in runs {
        let ran = demo(arguments);
        let said = text(&ran.stdout);
        assert_eq!(
            ran.status.code(),
            Some(status),
            "{arguments:?}: {said}{}",
            text(&ran.stderr)
        );
        assert!(said.ends_with(end), "{arguments:?}: {said}");
    }
}

/// The whole of it: the live restore first, a heading for each act, and no rows of bytes.
#[test]
fn the_live_restore_comes_first() {
    let ran = demo(&[]);
    let said = text(&ran.stdout);
    assert!(ran.status.success(), "{said}{}", text(&ran.stderr));
    assert!(
        said.starts_with("1. A running program is stopped"),
        "{said}"
    );
    let is_heading = |line: &&str| line.starts_with(|start: char| start.is_ascii_digit());
    let headings: Vec<&str> = said
        .lines()
        .filter(is_heading)
        .map(|line| &line[..2])
        .collect();
    assert_eq!(headings, ["1.", "2.", "3.", "4.", "5.", "6."]);
    for words in [
        "With the move: it runs on and has the result of a run without a stop",
        "Without the move: it touched the old heap and died",
        "e-byte-after.section         refused 9 at 16: bytes after the last record",
        "at 0x1020: record 0 of function 0",
        "RSP + 16  0x54e20 -> 0x94e20",
        "refused 21 at 0: base neither 0 nor an old start",
        "has 152 bytes, the same to the last byte",
        "h-version-1.section, a frame at 0+0x20: 2 pointers moved",
    ] {
        assert!(said.contains(words), "{words}: {said}");
    }
    // The README's lines are these, but for the addresses.
    let shown = &readme::steps("Treskibben")[0];
    assert_eq!((shown.line.as_str(), shown.output.len()), ("./demo", 8));
    assert!(readme::in_order(&shown.output, &said), "{said}");
    let is_byte =
        |word: &&str| word.len() == 2 && word.bytes().all(|byte| byte.is_ascii_hexdigit());
    let bytes = |line: &str| line.split_whitespace().filter(is_byte).count();
    assert!(said.lines().all(|line| bytes(line) < 4), "{said}");
}

/// A small repository with `tools/library` and what it calls, and an `rt` that only writes down that it was called. It stands outside this one, and
/// goes with the test: `rt` refuses a repository that has a source in no listed crate.
struct Repository(PathBuf);

impl Drop for Repository {
    fn drop(&mut self) {
        let _ = fs::remove_dir_all(&self.0);
    }
}

impl Repository {
    fn new(name: &str, rt: &str) -> Repository {
        let own = format!("treskibben-{name}.{}", std::process::id());
        let root = std::env::temp_dir().join(own);
        let _ = fs::remove_dir_all(&root);
        for folder in [
            "tools",
            "bin",
            "crates/wire/src",
            "crates/treskibben/must-fail",
            "crates/other",
        ] {
            fs::create_dir_all(root.join(folder)).unwrap();
        }
        for tool in ["tools/library", "tools/staticlib"] {
            fs::copy(Path::new(ROOT).join(tool), root.join(tool)).unwrap();
        }
        let it = Repository(root);
        it.write("crates.txt", "wire:\nother:\ntreskibben staticlib: wire\n");
        it.write("crates/wire/src/lib.rt", "");
        it.write("bin/rt", rt);
        let all = fs::Permissions::from_mode(0o755);
        fs::set_permissions(it.0.join("bin/rt"), all).unwrap();
        it
    }

    fn write(&self, file: &str, text: &str) {
        fs::write(self.0.join(file), text).unwrap();
    }

    /// Makes the whole repository an hour old, so that what is written from now on is newer.
    fn age(&self) {
        let find = Command::new("find")
            .args([".", "-exec", "touch", "-d", "1 hour ago", "{}", "+"])
            .current_dir(&self.0)
            .status();
        assert!(find.unwrap().success());
    }

    /// Runs `tools/library`: whether it went well, what it said, and whether it called `rt`.
    fn library(&self) -> (bool, String, bool) {
        let called = self.0.join("called");
        let _ = fs::remove_file(&called);
        let path = format!("{}:/usr/bin:/bin", self.0.join("bin").display());
        let mut library = Command::new("bash");
        library.arg(self.0.join("tools/library")).env("PATH", path);
        let ran = library.output().unwrap();
        (ran.status.success(), text(&ran.stderr), called.exists())
    }
}

const RT: &str = r#"#!/bin/sh
[ "${PWD##*/} $*" = "treskibben lib" ] || exit 2
touch ../../called
mkdir -p out ../wire/out
echo 'rt: chose --jobs 2 for wire'
echo 'a note of the prover'
echo 'logic=proved functions=1'
echo 'rt: chose --jobs 2 for treskibben'
echo 'logic=proved functions=1'
touch ../wire/out/rlib out/libtreskibben.a
"#;

/// The line without the seconds of a proof, which a clock tells.
fn without_seconds(line: &str) -> String {
    match line.split_once(" proved (") {
        Some((before, seconds)) if seconds.ends_with(" s)") => format!("{before} proved ( s)"),
        _ => line.to_string(),
    }
}

#[test]
fn a_stale_library_is_built_again_and_a_fresh_one_is_not() {
    let it = Repository::new("stale", RT);
    let (well, said, called) = it.library();
    assert!(well && called, "{said}");
    assert!(said.contains("libtreskibben.a is missing: "), "{said}");
    let lines: Vec<String> = said.lines().skip(1).map(without_seconds).collect();
    assert_eq!(
        lines,
        [
            "[1/2] wire proved ( s)",
            "[2/2] treskibben proved and built"
        ]
    );
    let log = fs::read_to_string(it.0.join("target/library.log")).unwrap();
    assert!(log.contains("a note of the prover\n"));
    assert_eq!(it.library(), (true, String::new(), false));

    it.age();
    it.write("crates/wire/src/lib.rt", "// changed");
    let (well, said, called) = it.library();
    assert!(
        well && called && said.contains("older than crates/wire/src/lib.rt"),
        "{said}"
    );
    it.age();
    it.write("crates.txt", "wire:\ntreskibben staticlib: wire\n");
    assert!(it.library().2);
    it.age();
    fs::remove_file(it.0.join("crates/wire/src/lib.rt")).unwrap();
    assert!(it.library().2);

    // Neither a must-fail edit, nor what rt makes, nor a crate that the library doesn't stand on is in it.
    it.age();
    it.write("crates/treskibben/must-fail/new.edit", "");
    it.write("crates/wire/out/rlib", "");
    it.write("crates/other/new", "");
    assert_eq!(it.library(), (true, String::new(), false));

    // A crate below one that the library stands on is in it, named in its line or not.
    it.write(
        "crates.txt",
        "wire: other\nother:\ntreskibben staticlib: wire\n",
    );
    assert!(it.library().2);
    it.age();
    it.write("crates/other/new", "changed");
    assert!(it.library().2);
}

#[test]
fn a_library_that_cannot_be_built_is_told() {
    let it = Repository::new(
        "unproved",
        "#!/bin/sh\necho 'rt: the library wire did not build, so nothing above it was checked' >&2\nexit 1\n",
    );
    let library = it.0.join("target/staticlib/libtreskibben.a");
    fs::create_dir_all(library.parent().unwrap()).unwrap();
    let hour_ago = SystemTime::now() - Duration::from_secs(3_600);
    fs::File::create(&library)
        .unwrap()
        .set_modified(hour_ago)
        .unwrap();
    let (well, said, _) = it.library();
    assert!(!well, "{said}");
    assert!(
        said.contains("rt: the library wire did not build, so nothing above it was checked\n"),
        "{said}"
    );
    assert!(said.contains("the library cannot be built"), "{said}");
}
