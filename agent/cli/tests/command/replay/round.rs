//! Restores that are recorded and replayed: the samples, several moves in a row, and many frames.

use super::of_thread;
use crate::restore::{threads, Restore};
use crate::run::{sample, Folder, Ran};
use crate::trace::{answer, frame, of};
use std::process::Command;

/// Restores into `new` with a trace in it, and replays that; both with these arguments. Gives what the trace says.
#[track_caller]
fn round(folder: &Folder, arguments: &[&str], frames: &str, more: &[&str]) -> String {
    let mut command = folder.command();
    command.arg("restore").args(arguments).args(more);
    command.args(["--frames", frames, "--into", "new", "--trace", "new/t"]);
    let ran = Ran::of(&mut command);
    assert_eq!((ran.status, ran.err.as_str()), (Some(0), ""));
    let mut command = folder.command();
    command.arg("replay").args(arguments);
    command.args(["new/t", "--restored", "new/image"]);
    let ran = Ran::of(&mut command);
    assert_eq!((ran.status, ran.err.as_str()), (Some(0), ""));
    assert!(ran.text().starts_with("new/t: same, "), "{}", ran.text());
    let text = folder.run(["trace", "--text", "new/t"]).text().to_string();
    std::fs::remove_dir_all(folder.at("new")).unwrap();
    text
}

#[test]
fn the_samples() {
    let folder = Folder::new();
    for (section, frames, told) in [
        (
            "h-statepoint.section",
            "i.frames",
            "address 0x1020, function 0\n  registers: RSP 0x7000\n",
        ),
        (
            "h-version-1.section",
            "i-version-1.frames",
            "address 0x20, function 0\n  registers: RSP 0x7000\n",
        ),
        (
            "r-registers.section",
            "r.frames",
            "address 0x1020, function 0\n  registers: RBX 0x50000, RSP 0x7000\n",
        ),
    ] {
        let files = [section, "i.image", "i.moves", frames].map(sample);
        let [section, image, moves, frames] = files.each_ref().map(|path| path.to_str().unwrap());
        let arguments = [
            "--section",
            section,
            "--image",
            image,
            "--first",
            "7000",
            "--moves",
            moves,
        ];
        let text = round(&folder, &arguments, frames, &[]);
        let whole = format!(
            "trace: 285 bytes, 1 frame\nframe 0: x86-64, {told}  answer: accepted, 2 pointers\n"
        );
        assert_eq!(text, whole);
    }
}

const ROW: [&str; 8] = [
    "--section",
    "section",
    "--image",
    "image",
    "--first",
    "7000",
    "--moves",
    "moves",
];

/// With several tables the answers are by the joined one: the replay has to be told the same ones.
#[test]
fn several_moves_in_a_row() {
    let (row, folder) = (Restore::row_i(), Folder::new());
    row.put(&folder);
    folder.put("second", "90000 a0000\n");
    let both = [&ROW[..], &["--moves", "second"]].concat();
    round(&folder, &both, "frames", &[]);
    // The first alone leaves another image, though the answers are the same.
    let mut command = folder.command();
    let command = command.arg("restore").args(&both);
    let ran = Ran::of(command.args(["--frames", "frames", "--output", "new", "--trace", "t"]));
    assert_eq!(ran.status, Some(0), "{}", ran.err);
    let mut command = folder.command();
    let ran = Ran::of(
        command
            .arg("replay")
            .args(ROW)
            .args(["t", "--restored", "new"]),
    );
    assert_eq!((ran.status, ran.err.as_str()), (Some(1), ""));
    let told = "t: same, 1 answer\n\
        new: differs: byte 10, at address 0x700a, is 0x0a, and the replay leaves 0x09\n";
    assert_eq!(ran.text(), told);
}

/// AArch64, with and without an edition.
#[test]
fn the_other_machine() {
    use crate::fixtures::{location, of_pairs};
    let folder = Folder::new();
    let slot = |offset: i32| location(3, 8, 31, offset);
    let row = Restore {
        section: of_pairs(24, &[[slot(8), slot(8)], [slot(8), slot(16)]]),
        ..Restore::row_i()
    };
    row.put(&folder);
    let text = round(&folder, &ROW, "frames", &["--machine", "aarch64"]);
    assert!(text.contains("\nframe 0: aarch64, "), "{text}");
    assert!(text.contains("  registers: SP 0x7000\n"), "{text}");
    let make = "edition make --new --store s --machine aarch64";
    assert_eq!(folder.run(make.split(' ')).status, Some(0));
    let by_edition = [&ROW[..], &["--store", "s", "--edition", "1"]].concat();
    round(&folder, &by_edition, "frames", &[]);
}

/// As many frames as a restore may have; and more, which only a trace can.
#[test]
fn many_frames() {
    let (row, folder) = (threads::thread(4_096), Folder::new());
    row.put(&folder);
    let text = round(&folder, &ROW, "frames", &[]);
    assert!(text.starts_with("trace: 1163265 bytes, 4096 frames\n"));
    let (row, folder) = (threads::thread(10_000), Folder::new());
    row.put(&folder);
    folder.put("new", threads::moved(10_000));
    let mut items = of_thread(10_000);
    let replay = |command: &mut Command| {
        let command = command.arg("replay").args(ROW);
        Ran::of(command.args(["t", "--restored", "new"]))
    };
    folder.put("t", of(&items));
    replay(&mut folder.command()).done("t: same, 10000 answers\nnew: same, 240000 bytes\n");
    // The last answer, and a frame more that was moved already.
    items.push([frame(0, 0x1020, 0, &[(7, 0x7000)]), answer(21, 1)].concat());
    folder.put("t", of(&items));
    let ran = replay(&mut folder.command());
    let start = "t: differs in answer 10000 of 10001\nframe 10000: ";
    assert!(ran.text().starts_with(start), "{}", ran.text());
    assert!(ran.text().ends_with("\nnew: same, 240000 bytes\n"));
    assert_eq!((ran.status, ran.err.as_str()), (Some(1), ""));
}
