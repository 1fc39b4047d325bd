//! Help, wrong calls, and readers that want no more.

use crate::fixtures::{of_pairs, row_h, rsp};
use crate::run::{Folder, Ran, PROGRAM};
use std::path::Path;
use std::process::{Command, Stdio};

const COMMANDS: [&str; 15] = [
    "check",
    "list",
    "build",
    "find",
    "index",
    "cut",
    "flat",
    "edition",
    "report",
    "join",
    "explain",
    "restore",
    "replay",
    "trace",
    "completions",
];

#[test]
fn help_of_the_program_and_of_each_command() {
    let folder = Folder::new();
    for option in ["--help", "-h"] {
        let ran = folder.run([option]);
        assert_eq!((ran.status, ran.err.as_str()), (Some(0), ""));
        for command in COMMANDS {
            assert!(ran.text().contains(&format!("\n  {command} ")), "{command}");
        }
        for command in COMMANDS {
            let ran = folder.run([command, option]);
            assert_eq!((ran.status, ran.err.as_str()), (Some(0), ""));
            let usage = format!("\nUsage: treskibben {command} ");
            assert!(ran.text().contains(&usage), "{command}");
            assert!(!ran.text().ends_with("\n\n"), "{command}");
        }
    }
    let ran = folder.run(["restore", "--section", "x", "--help"]);
    assert!(ran.text().contains("\nUsage: treskibben restore"));
}

#[test]
fn lines_of_the_help_fit_a_terminal() {
    let folder = Folder::new();
    let mut texts = vec![folder.run(["--help"])];
    texts.extend(COMMANDS.map(|command| folder.run([command, "--help"])));
    for ran in texts {
        for line in ran.text().lines() {
            assert!(line.len() <= 100, "{line}");
        }
    }
}

#[test]
fn version() {
    let folder = Folder::new();
    folder
        .run(["--version"])
        .done(concat!("treskibben ", env!("CARGO_PKG_VERSION"), "\n"));
}

/// The command is a workspace of its own, and has the library's version all the same.
#[test]
fn the_version_is_the_library_s() {
    let manifest = Path::new(env!("CARGO_MANIFEST_DIR")).join("../Cargo.toml");
    let text = std::fs::read_to_string(manifest).unwrap();
    let own = concat!("version = \"", env!("CARGO_PKG_VERSION"), "\"");
    assert!(text.lines().any(|line| line == own), "not {own}");
}

#[test]
fn calls_that_are_none() {
    let folder = Folder::new();
    folder
        .run([""; 0])
        .failed("no command\n", "Usage: treskibben <COMMAND>");
    // What was meant is told.
    folder.run(["chek", "x"]).failed("", "'check'");
    folder.run(["check", "--jsn", "x"]).failed("", "'--json'");
    folder.run([""]).failed("", "''");
    folder.run(["--check"]).failed("", "'--check'");
    folder.run(["check"]).failed("", "<FILE>...");
    folder.run(["check", "--all", "x"]).failed("", "'--all'");
    folder
        .run(["check", "--\x1b[2J"])
        .failed("", "'--\\u{1b}[2J'");
}

#[test]
fn names_that_look_like_options() {
    let folder = Folder::new();
    folder.put("--text", row_h());
    folder.put("-", row_h());
    folder
        .run(["check", "--", "--text", "./-"])
        .done("--text: accepted\n./-: accepted\n");
    folder
        .run(["check", "./--text"])
        .done("./--text: accepted\n");
    let ran = folder.run(["check", "--", "--help"]);
    ran.failed("--help: cannot be read: ", "No such file");
}

#[test]
fn names_that_are_no_text() {
    use std::ffi::OsStr;
    use std::os::unix::ffi::OsStrExt;
    let folder = Folder::new();
    let name = OsStr::from_bytes(b"h\xff.section");
    std::fs::write(folder.path().join(name), row_h()).unwrap();
    folder
        .run([OsStr::new("check"), name])
        .done("h\\xff.section: accepted\n");
}

/// What a shell's line gives, in which `$0` is the program.
fn shell(folder: &Folder, line: &str) -> Ran {
    let mut command = Command::new("sh");
    command
        .args(["-c", line, PROGRAM])
        .current_dir(folder.path());
    Ran::of(command.stdin(Stdio::null()))
}

#[test]
fn a_reader_that_wants_no_more_is_no_fault() {
    let folder = Folder::new();
    let many = vec![[rsp(8), rsp(8)]; 20_000];
    folder.put("large", of_pairs(24, &many));
    folder.put("list", "1020\n".repeat(10_000));
    folder.put("maps", row_h().repeat(5_000));
    crate::restore::killed::thread().put(&folder);
    for line in [
        "$0 list large",
        "$0 list --text large",
        "$0 find large 1020",
        "$0 find large --addresses list",
        "$0 index large",
        "$0 build listing",
        "$0 cut maps",
        "$0 check large large large",
        "$0 report large",
        "$0 explain --section section --image image --first 7000 --moves moves --frames frames",
        "$0 --help",
        "$0 restore --help",
        "$0 --version",
    ] {
        folder
            .run(["list", "large", "--output", "listing"])
            .done("");
        let ran = shell(
            &folder,
            &format!("{{ {line}; echo $? >status; }} | head -c 1"),
        );
        assert_eq!((ran.out.len(), ran.err.as_str()), (1, ""), "{line}");
        let status = String::from_utf8(folder.get("status")).unwrap();
        assert_eq!(status, "0\n", "{line}");
        let ran = shell(&folder, &format!("{line} >&-"));
        assert!(!ran.err.contains("panicked"), "{line}: {}", ran.err);
    }
    shell(&folder, "$0 cut --into parts maps | head -n 1");
    assert_eq!(
        std::fs::read_dir(folder.at("parts")).unwrap().count(),
        5_000
    );
}

#[test]
fn a_full_disk_under_standard_output_is_a_fault() {
    let folder = Folder::new();
    folder.put("h", row_h());
    for line in [
        "list h",
        "list --text h",
        "find h 1020",
        "find h --addresses list",
        "index h",
        "check h",
        "cut h",
        "report h",
        "report --json h",
        "--help",
    ] {
        folder.put("list", "1020\n");
        let ran = shell(&folder, &format!("$0 {line} >/dev/full"));
        assert_eq!(ran.status, Some(2), "{line}");
        let start = "treskibben: standard output: cannot be written: No space left";
        assert!(ran.err.starts_with(start), "{line}: {}", ran.err);
    }
}

#[test]
fn standard_error_may_be_closed_or_full() {
    let folder = Folder::new();
    folder.put("bad", [row_h(), vec![0]].concat());
    for line in ["$0 check bad 2>&-", "$0 check bad 2>/dev/full"] {
        assert_eq!(shell(&folder, line).status, Some(1), "{line}");
    }
    for line in ["$0 check missing 2>&-", "$0 check missing 2>/dev/full"] {
        assert_eq!(shell(&folder, line).status, Some(2), "{line}");
    }
}
