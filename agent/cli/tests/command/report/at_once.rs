//! Files are read at the same time, and how far the work has come is told on a terminal.

use super::{lines, sum, OF_C, OF_H};
use crate::fixtures::{row_h, C};
use crate::run::{skipped, Folder, Ran, PROGRAM};
use std::fs;
use std::path::PathBuf;
use std::process::{Command, Stdio};
use std::thread;
use std::time::Duration;

fn pipe(folder: &Folder, name: &str) -> PathBuf {
    let made = Command::new("mkfifo").arg(folder.at(name)).status();
    assert!(made.unwrap().success());
    folder.at(name)
}

/// The second of two pipes is read to its end while nobody has written to the first: with one thread it would
/// never be opened, and the program is ended then.
#[test]
fn two_files_at_once() {
    let folder = Folder::new();
    let (first, second) = (pipe(&folder, "first"), pipe(&folder, "second"));
    let writer = thread::spawn(move || {
        fs::write(second, row_h()).unwrap();
        fs::write(first, C).unwrap();
    });
    let mut command = Command::new("timeout");
    command.args(["60", PROGRAM, "report", "first", "second", "--threads", "2"]);
    let ran = Ran::of(command.current_dir(folder.path()).stdin(Stdio::null()));
    ran.done(&lines(sum(&[OF_C, OF_H])));
    writer.join().unwrap();
}

/// The line comes where more than a second has passed: a pipe keeps the work waiting.
#[test]
fn a_long_work_tells_how_far_it_is_on_a_terminal_only() {
    let folder = Folder::new();
    let slow = pipe(&folder, "slow");
    folder.put("h", row_h());
    let write = |path: PathBuf| {
        thread::spawn(move || {
            let mut file = fs::File::options().write(true).open(path).unwrap();
            thread::sleep(Duration::from_millis(1_300));
            std::io::Write::write_all(&mut file, &C).unwrap();
        })
    };
    let totals = lines(sum(&[OF_H, OF_C, OF_H]));
    let call = ["report", "h", "slow", "h", "--threads", "1"];
    let writer = write(slow.clone());
    folder.run(call).done(&totals);
    writer.join().unwrap();
    let mut command = Command::new("script");
    command.args([
        "-qec",
        &format!("'{PROGRAM}' {}", call.join(" ")),
        "/dev/null",
    ]);
    command.current_dir(folder.path()).stdin(Stdio::null());
    if Command::new("script").arg("--version").output().is_err() {
        return skipped("the progress line: no script(1) to make a terminal");
    }
    let writer = write(slow);
    let ran = Ran::of(&mut command);
    writer.join().unwrap();
    let text = ran.text();
    assert_eq!(ran.status, Some(0), "{text}");
    assert!(
        text.contains("\r\x1b[Ksections counted: 2 of 3"),
        "{text:?}"
    );
    // It is taken away before the totals come.
    let end = format!("\r\x1b[K{}", totals.replace('\n', "\r\n"));
    assert!(text.ends_with(&end), "{text:?}");
}
