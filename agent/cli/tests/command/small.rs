//! Standard input and output, terminals, names, and sections that look wrong.

use crate::fixtures::{one_function, row_h, statepoint, with, C};
use crate::restore::Restore;
use crate::run::{skipped, Folder, Ran, PROGRAM};
use generator::layout::{Function, Section};
use std::process::{Command, Stdio};

/// What a shell's line gives, in which `$0` is the program.
fn shell(folder: &Folder, line: &str) -> Ran {
    let mut command = Command::new("sh");
    command
        .args(["-c", line, PROGRAM])
        .current_dir(folder.path());
    Ran::of(command.stdin(Stdio::null()))
}

/// The status is the same whether anybody reads the answers or not.
#[test]
fn a_reader_that_closed_does_not_change_the_status() {
    let folder = Folder::new();
    folder.put("good", row_h());
    folder.put("bad", with(row_h(), 0, 2));
    folder.put("maps", [row_h().repeat(3), vec![2; 16]].concat());
    for (call, status) in [
        ("check good good", "0\n"),
        ("check good bad", "1\n"),
        ("check good bad missing", "2\n"),
        ("check good missing bad", "2\n"),
        ("check --json good bad", "1\n"),
        ("check --json good bad missing", "2\n"),
        ("cut maps", "1\n"),
        ("cut --json maps", "1\n"),
        ("cut good", "0\n"),
    ] {
        let line = format!("{{ sleep 0.1; \"$0\" {call}; echo $? >status; }} | true");
        shell(&folder, &line);
        let told = String::from_utf8(folder.get("status")).unwrap();
        assert_eq!(told, status, "{call}");
    }
}

/// Standard output that was never there is no reader that wants no more: nobody got the answer.
#[test]
fn standard_output_that_is_closed() {
    let folder = Folder::new();
    folder.put("h", row_h());
    for call in [
        "list h",
        "list --text h",
        "list --json h",
        "find h 1020",
        "check h",
        "check --json h",
        "cut h",
        "--help",
        "--version",
        "completions bash",
    ] {
        let ran = shell(&folder, &format!("\"$0\" {call} >&-"));
        let why = "treskibben: standard output: cannot be written: it is closed\n";
        assert_eq!((ran.status, ran.err.as_str()), (Some(2), why), "{call}");
    }
    for call in ["list h --output new", "cut h --into parts"] {
        let ran = shell(&folder, &format!("\"$0\" {call} >&-"));
        assert_eq!((ran.status, ran.err.as_str()), (Some(0), ""), "{call}");
    }
    // Who wants no answer may say so.
    let ran = shell(&folder, "\"$0\" check h >/dev/null 1<>/dev/null");
    assert_eq!((ran.status, ran.err.as_str()), (Some(0), ""));
}

#[test]
fn standard_input() {
    let folder = Folder::new();
    folder.put("h", row_h());
    folder.put("maps", row_h().repeat(2));
    folder.run(["list", "h", "--output", "listing"]).done("");
    for (line, out) in [
        ("cat h | $0 check -", "-: accepted\n"),
        ("$0 check - h <h", "-: accepted\nh: accepted\n"),
        ("cat h | $0 list - | cmp - listing", ""),
        ("cat h | $0 list - --output - | cmp - listing", ""),
        ("cat listing | $0 build - | cmp - h", ""),
        (
            "cat h | $0 find - 1020 | head -n 1",
            "0x1020: record 0 of function 0, the only record at this address\n",
        ),
        (
            "cat h | $0 cut -",
            "part 0 from byte 0: 152 bytes, accepted\n",
        ),
        (
            "$0 cut - --into parts <maps | tail -n 1; cmp h parts/part-1.section",
            "part 1 from byte 152: 152 bytes, accepted\n",
        ),
    ] {
        let ran = shell(&folder, line);
        assert_eq!((ran.text(), ran.err.as_str()), (out, ""), "{line}");
    }
    folder
        .run(["check", "-", "-"])
        .failed("'-' stands there twice", "");
    let ran = folder.run(["check", "-"]);
    assert!(ran.err.starts_with("-: refused 1 at 0: "), "{}", ran.err);
    assert!(ran.err.ends_with("; it has 0 bytes\n"), "{}", ran.err);
}

/// Bytes that are no text are kept from a terminal.
#[test]
fn terminals() {
    let folder = Folder::new();
    folder.put("h", row_h());
    folder.run(["list", "h", "--output", "listing"]).done("");
    let on_a_terminal = |call: &str| {
        let mut command = Command::new("script");
        command.args(["-qec", &format!("'{PROGRAM}' {call}"), "/dev/null"]);
        command.current_dir(folder.path()).stdin(Stdio::null());
        command.output().ok()
    };
    for call in ["list h", "build listing"] {
        let Some(output) = on_a_terminal(call) else {
            return skipped("raw bytes on a terminal: no script(1) to make one");
        };
        let text = String::from_utf8(output.stdout).unwrap();
        assert!(
            text.starts_with("treskibben: standard output is a terminal, and "),
            "{text}"
        );
        assert_eq!(output.status.code(), Some(2));
        let output = on_a_terminal(&format!("{call} --output -")).unwrap();
        assert_eq!(output.status.code(), Some(0));
    }
    let output = on_a_terminal("list --text h").unwrap();
    assert!(output.stdout.starts_with(b"section: 152 bytes"));
}

#[test]
fn control_characters_in_names() {
    let folder = Folder::new();
    folder.put("a\nb\x1b[2J", row_h());
    folder.put("bad\r", with(row_h(), 0, 2));
    let ran = folder.run(["check", "a\nb\x1b[2J", "bad\r", "missing\x07"]);
    assert_eq!(ran.text(), "a\\nb\\u{1b}[2J: accepted\n");
    let lines: Vec<&str> = ran.err.lines().collect();
    assert!(
        lines[0].starts_with("bad\\r: refused 2 at 0: "),
        "{}",
        lines[0]
    );
    assert!(lines[1].starts_with("treskibben: missing\\u{7}: cannot be read: "));
    assert_eq!(lines.len(), 2);
}

/// What was found, beyond the number: in sections, and in files that are none.
#[test]
fn what_was_found() {
    let folder = Folder::new();
    folder.put("few", [3; 5]);
    folder.put("elf", [&b"\x7fELF"[..], &[0; 60]].concat());
    folder.put("cut", b"\x7fELF\x02");
    folder.put("kind", with(row_h(), 56, 9));
    for (file, number, place, found) in [
        ("few", 1, 0, "it has 5 bytes"),
        ("elf", 2, 0, "it is an ELF file: \
             'objcopy --dump-section .llvm_stackmaps=FILE elf /dev/null' writes its section to FILE"),
        ("cut", 1, 0, "it is an ELF file: \
             'objcopy --dump-section .llvm_stackmaps=FILE cut /dev/null' writes its section to FILE"),
        ("kind", 6, 56, "it is 0x09"),
    ] {
        for command in ["check", "list"] {
            let ran = folder.run([command, file]);
            let start = format!("{file}: refused {number} at {place}: ");
            assert!(ran.err.starts_with(&start), "{}", ran.err);
            assert!(ran.err.ends_with(&format!("; {found}\n")), "{}", ran.err);
            assert_eq!(ran.err.lines().count(), 1);
        }
    }
}

/// Row H's section with all its functions at these addresses.
fn functions_at(addresses: &[u64]) -> Section {
    let mut section = one_function(24, vec![statepoint(0x20, &[])]);
    section.functions[0].address = addresses[0];
    let more = addresses[1..].iter().map(|&address| Function {
        address,
        stack_size: 0,
        record_count: 0,
    });
    section.functions.extend(more);
    section
}

#[test]
fn functions_that_are_all_at_zero() {
    let folder = Folder::new();
    for (addresses, warned) in [(&[0][..], true), (&[0, 0], true), (&[0, 0x1000], false)] {
        folder.put("section", functions_at(addresses).encode());
        let ran = folder.run(["list", "--text", "section"]);
        let start = "section: warning: all functions are at address 0, ";
        assert_eq!(ran.err.starts_with(start), warned, "{}", ran.err);
        assert_eq!((ran.status, ran.err.is_empty()), (Some(0), !warned));
        assert!(folder.run(["list", "section"]).err.is_empty());
        let ran = folder.run(["list", "--json", "section"]);
        assert_eq!(ran.text().starts_with("{\"answer\":\"warning\","), warned);
        let row = Restore {
            section: functions_at(addresses).encode(),
            frames: "20 0 7000\n".to_string(),
            ..Restore::row_i()
        };
        let (ran, _) = row.run();
        assert_eq!(ran.err.starts_with(start), warned, "{}", ran.err);
        let (ran, _) = Restore {
            frames: "1020 0 7000\n".to_string(),
            ..row
        }
        .run();
        assert_eq!(
            ran.err.contains("warning: all functions"),
            warned,
            "{}",
            ran.err
        );
    }
    // None at all, and version 1.
    folder.put("none", C);
    assert!(folder.run(["list", "--text", "none"]).err.is_empty());
    let mut older = std::fs::read(crate::run::sample("h-version-1.section")).unwrap();
    older[16..24].fill(0);
    folder.put("older", older);
    assert!(folder.run(["list", "--text", "older"]).err.is_empty());
}

#[test]
fn completions() {
    let folder = Folder::new();
    for shell in ["bash", "zsh", "fish"] {
        let ran = folder.run(["completions", shell]);
        assert_eq!((ran.status, ran.err.as_str()), (Some(0), ""));
        for word in ["restore", "in-place", "allow-empty", "aarch64"] {
            assert!(ran.text().contains(word), "{shell}: {word}");
        }
    }
}
