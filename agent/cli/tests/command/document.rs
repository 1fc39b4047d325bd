//! The session in docs/COMMAND.md, run line by line.

use crate::run::{sample, Folder, Ran, PROGRAM};
use std::fs;
use std::os::unix::fs::symlink;
use std::path::Path;
use std::process::{Command, Stdio};

/// The commands of the session, each with what it writes. A blank line belongs to that where more of it follows.
fn session(document: &str) -> Vec<(String, String)> {
    let text = document.split_once("\n## A session\n").unwrap().1;
    let mut commands: Vec<(String, String)> = Vec::new();
    let mut blank = 0;
    for line in text.lines() {
        let code = line.strip_prefix("    ");
        let command = code.and_then(|code| code.strip_prefix("$ "));
        match (code, command, commands.last_mut()) {
            (_, Some(command), _) => commands.push((command.to_string(), String::new())),
            (Some(code), None, Some((_, output))) => {
                *output += &format!("{}{code}\n", "\n".repeat(blank));
            }
            (Some(code), None, None) => panic!("output before the first command: {code}"),
            (None, ..) => {}
        }
        blank = match (line, code) {
            ("", _) => blank + 1,
            _ => 0,
        };
    }
    commands
}

/// The document.
fn document() -> String {
    let path = Path::new(env!("CARGO_MANIFEST_DIR")).join("../../docs/COMMAND.md");
    fs::read_to_string(path).unwrap()
}

/// A folder with the program and the samples.
fn folder() -> Folder {
    let folder = Folder::new();
    fs::create_dir(folder.at("bin")).unwrap();
    symlink(PROGRAM, folder.at("bin/treskibben")).unwrap();
    symlink(fs::canonicalize(sample("")).unwrap(), folder.at("samples")).unwrap();
    folder
}

/// The report that the document shows is that of the samples.
#[test]
fn the_report_is_what_is_told() {
    let document = document();
    let text = document.split_once("\n## Why a slot moves\n").unwrap().1;
    let lines = text
        .lines()
        .skip_while(|line| !line.starts_with("    why each slot"));
    let lines = lines.take_while(|line| line.is_empty() || line.starts_with("    "));
    let shown: Vec<&str> = lines
        .map(|line| line.strip_prefix("    ").unwrap_or(line))
        .collect();
    let call =
        "explain --section samples/r-registers.section --image samples/i.image --first 7000 \
        --moves samples/i.moves --frames samples/r.frames";
    let ran = folder().run(call.split_whitespace());
    assert_eq!((ran.status, ran.err.as_str()), (Some(0), ""));
    assert_eq!(ran.text().trim_end(), shown.join("\n").trim_end());
}

#[test]
fn the_session_is_what_happens() {
    let commands = session(&document());
    assert!(commands.len() > 15);
    let folder = folder();
    for (line, output) in commands {
        let script = format!("PATH=$PWD/bin:$PATH; {{ {line}\n}} 2>&1");
        let mut command = Command::new("sh");
        command.args(["-c", &script]).current_dir(folder.path());
        let ran = Ran::of(command.stdin(Stdio::null()));
        assert_eq!(ran.text(), output, "{line}");
    }
}
