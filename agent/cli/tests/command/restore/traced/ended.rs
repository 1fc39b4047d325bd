//! A restore with a trace that is ended in the middle, has no room, or is run by several at once: the trace is whole
//! or not there, and no new image is without it.

use super::super::killed::{image, thread, whole_run, NEW, OLD, SAYS};
use super::super::{threads, Restore, DONE, RECEIPT};
use super::{has, restore, RECORDED};
use crate::fixtures::words;
use crate::run::{until_there, Folder, Ran};
use crate::trace::{answer, frame, of, row_i};
use std::fs;
use std::process::Stdio;
use std::thread::sleep;
use std::time::Duration;

/// A file that may not grow so long stops the trace, and with it the restore.
#[test]
fn files_that_may_not_grow() {
    let (row, folder) = (threads::thread(500), Folder::new());
    row.put(&folder);
    for way in [
        &["--in-place"][..],
        &["--output", "new"],
        &["--into", "new"],
    ] {
        let mut command = folder.shell("ulimit -f 100");
        let ran = Ran::of(row.inputs(&mut command).args(way).args(["--trace", "t"]));
        ran.failed("t: cannot be written: ", "File too large");
        has(&folder, &[]);
        assert!(folder.get("image") == row.image);
    }
    let mut command = folder.shell("ulimit -f 100");
    let ran = Ran::of(
        row.inputs(&mut command)
            .args(["--into", "new", "--trace", "new/t"]),
    );
    ran.failed("new/t: cannot be written: ", "File too large");
    has(&folder, &[]);
}

/// The trace of the long thread.
fn recorded() -> Vec<u8> {
    let item = |nth: u64| {
        let rsp = 0x7000 + 1024 * nth;
        [frame(0, 0x1020, 0, &[(7, rsp)]), answer(0, 24)].concat()
    };
    of(&(0..1024).map(item).collect::<Vec<_>>())
}

/// Killed at any moment: the trace is whole or not there, and no new image is without it. Where the image is the
/// old one, the next run makes all of it.
#[test]
fn killed_at_any_moment() {
    const KILLS: u64 = 160;
    let (row, folder) = (thread(), Folder::new());
    let (old, new, trace) = (image(OLD), image(NEW), recorded());
    let long = whole_run(&row, &folder).as_micros() as usize;
    let says = format!("{SAYS}t: 1024 frames recorded\n");
    let mut rng = generator::Rng::part(0xDEAD, 3);
    let (mut stayed, mut replaced, mut half, mut alone) = (0, 0, 0, 0);
    let more = ["--in-place", "--trace", "t"];
    for kill in 0..KILLS {
        folder.put("image", &old);
        for name in [RECEIPT, "t"] {
            let _ = fs::remove_file(folder.at(name));
        }
        let mut command = folder.command();
        let command = row.inputs(&mut command).args(more);
        let mut child = command.stdout(Stdio::null()).spawn().unwrap();
        // Most kills are aimed at the writing of the trace, and at what comes after it has its name.
        let within = match kill % 3 {
            0 => long * 5 / 4,
            1 => {
                until_there(&mut child, &folder, &[".t.treskibben-new", "t"]);
                long / 8
            }
            _ => {
                until_there(&mut child, &folder, &["t"]);
                long / 16
            }
        };
        sleep(Duration::from_micros(rng.below(within + 1) as u64));
        child.kill().unwrap();
        child.wait().unwrap();
        half += u64::from(folder.at(".t.treskibben-new").exists());
        let there = folder.at("t").exists();
        assert!(
            !there || folder.get("t") == trace,
            "kill {kill}: half a trace"
        );
        if folder.get("image") == new {
            assert!(there, "kill {kill}: a new image without its trace");
            replaced += 1;
        } else {
            assert!(folder.get("image") == old, "kill {kill}: a mixed image");
            (stayed, alone) = (stayed + 1, alone + u64::from(there));
            restore(&row, &folder, &more).done(&says);
            assert!(folder.get("t") == trace && folder.get("image") == new);
        }
        let mut names = DONE.to_vec();
        names.push("t");
        assert_eq!(folder.names(), names, "kill {kill}");
    }
    let counts =
        format!("{stayed} stayed, {replaced} replaced, {half} half written, {alone} traces alone");
    println!("{counts}");
    assert!(stayed > 0 && replaced > 0 && half > 0, "{counts}");
}

/// What a killed run has left beside the name is taken away.
#[test]
fn what_is_left_of_a_killed_run() {
    let (row, folder) = (Restore::row_i(), Folder::new());
    row.put(&folder);
    folder.put(".t.treskibben-new", "half a trace");
    let ran = restore(&row, &folder, &["--in-place", "--trace", "t"]);
    ran.done(&format!("image: 1 frame moved, 2 pointers\n{RECORDED}"));
    has(&folder, &[RECEIPT, "t"]);
    let image = words(&[0xEEEE_EEEE_EEEE_EEEE, 0x90000, 0x94E20]);
    assert_eq!((folder.get("t"), folder.get("image")), (row_i(), image));
}

/// The same where a folder is made: the trace is in it, or beside it and before it.
#[test]
fn killed_while_a_folder_is_made() {
    const KILLS: u64 = 80;
    let (row, folder) = (thread(), Folder::new());
    let long = whole_run(&row, &folder).as_micros() as usize;
    row.put(&folder);
    fs::remove_file(folder.at(RECEIPT)).unwrap();
    let trace = recorded();
    let mut rng = generator::Rng::part(0xDEAD, 4);
    let (mut none, mut whole) = (0, 0);
    for kill in 0..KILLS {
        let name = ["new/t", "t"][kill as usize % 2];
        let more = ["--into", "new", "--trace", name];
        let mut command = folder.command();
        let command = row.inputs(&mut command).args(more);
        let mut child = command.stdout(Stdio::null()).spawn().unwrap();
        until_there(
            &mut child,
            &folder,
            &[".new.treskibben-new", ".t.treskibben-new", "t"],
        );
        sleep(Duration::from_micros(rng.below(long / 4 + 1) as u64));
        child.kill().unwrap();
        child.wait().unwrap();
        if folder.at("new").exists() {
            whole += 1;
        } else {
            none += 1;
            let alone = folder.at("t").exists();
            assert!(
                !alone || folder.get("t") == trace,
                "kill {kill}: half a trace"
            );
            let ran = restore(&row, &folder, &more);
            assert_eq!((ran.status, ran.err.as_str()), (Some(0), ""), "kill {kill}");
        }
        assert!(
            folder.get(name) == trace,
            "kill {kill}: a folder without its trace"
        );
        assert!(folder.get("new/image") == image(NEW), "kill {kill}");
        has(&folder, if name == "t" { &["new", "t"] } else { &["new"] });
        fs::remove_dir_all(folder.at("new")).unwrap();
        let _ = fs::remove_file(folder.at("t"));
    }
    println!("{none} none, {whole} whole");
    assert!(none > 0 && whole > 0, "{none} none, {whole} whole");
}

/// Several runs that leave one trace: it is whole, and whoever ends well has an image.
#[test]
fn several_at_once() {
    let row = threads::thread(200);
    for round in 0..15 {
        let folder = Folder::new();
        row.put(&folder);
        let start = |nth: usize| {
            let output = format!("new{nth}");
            let mut command = folder.command();
            let command = row
                .inputs(&mut command)
                .args(["--output", &output, "--trace", "t"]);
            let command = command.stdout(Stdio::piped()).stderr(Stdio::piped());
            command.spawn().unwrap()
        };
        let children: Vec<_> = (0..4).map(start).collect();
        let end = |child: std::process::Child| Ran::from(child.wait_with_output().unwrap());
        let ran: Vec<Ran> = children.into_iter().map(end).collect();
        let mut names = vec!["t".to_string()];
        for (nth, ran) in ran.iter().enumerate() {
            match ran.status {
                Some(0) => names.extend(["", ".receipt.json"].map(|end| format!("new{nth}{end}"))),
                _ => assert!(
                    ran.err.contains(": cannot be written: "),
                    "{round}: {}",
                    ran.err
                ),
            }
        }
        assert!(names.len() > 1, "{round}: {ran:?}");
        let names: Vec<&str> = names.iter().map(String::as_str).collect();
        has(&folder, &names);
        assert_eq!(folder.get("t").len(), 284 * 200 + 1);
    }
}

/// A trace that another run is at work on may be taken away again: nobody goes by it.
#[test]
fn a_trace_of_another_run() {
    let (row, folder) = (Restore::row_i(), Folder::new());
    row.put(&folder);
    folder.put("t", row_i());
    let other = fs::File::open(folder.at("t")).unwrap();
    other.lock().unwrap();
    let ran = restore(&row, &folder, &["--in-place", "--trace", "t"]);
    ran.failed("t: cannot be written: another process is at work on it", "");
    has(&folder, &["t"]);
    assert_eq!(folder.get("image"), row.image);
    other.unlock().unwrap();
    let ran = restore(&row, &folder, &["--in-place", "--trace", "t"]);
    ran.done(&format!("image: 1 frame moved, 2 pointers\n{RECORDED}"));
}
