//! A restore into a folder that is ended in the middle, asked to end, or run by several at once: image and
//! registers are both old, or both new and beside their receipt.

use super::super::killed::{NEW, OLD};
use super::{in_rbx, into, made, register, MADE, WITH_NEW};
use crate::fixtures::{of_pairs, rsp, words};
use crate::restore::{Restore, FILES};
use crate::run::{until_there, Folder, Ran};
use nix::sys::signal::{kill, Signal};
use nix::unistd::Pid;
use std::fs;
use std::os::unix::process::ExitStatusExt;
use std::process::{Child, Stdio};
use std::thread::sleep;
use std::time::{Duration, Instant};

const FRAMES: u64 = 1024;
/// The words of a frame, of which some are pointers derived from RBX.
const WORDS: u64 = 128;
const PAIRS: u64 = 24;
const BESIDE: &str = ".new.treskibben-new";
const SAYS: &str = "new: 1024 frames moved, 25600 pointers, 1024 registers changed\n";

/// The image whose objects start at `start`, where pairs are.
fn image(start: u64) -> Vec<u8> {
    let word = |number: u64| match (number / WORDS, number % WORDS) {
        (frame, place @ ..PAIRS) => start + 0x1000 * frame + 8 * place,
        (frame, place) => OLD + 0x1000 * frame + 8 * place,
    };
    let numbers: Vec<u64> = (0..FRAMES * WORDS).map(word).collect();
    words(&numbers)
}

/// The list of frames, each of whose RBX is the start of its object.
fn frames(start: u64) -> String {
    let line = |frame: u64| {
        let (rsp, rbx) = (0x7000 + 8 * WORDS * frame, start + 0x1000 * frame);
        format!("0x1020 0x0 {rsp:#x} rbx={rbx:#x}\n")
    };
    (0..FRAMES).map(line).collect()
}

/// A thread of 1,024 frames, whose pointers are derived from RBX, and RBX from itself.
fn thread() -> Restore {
    let slot = |word: u64| [register(3), rsp(8 * word as i32)];
    let pairs = std::iter::once([register(3), register(3)]).chain((0..PAIRS).map(slot));
    let pairs: Vec<_> = pairs.collect();
    let line = |frame: u64| {
        let start = 0x1000 * frame;
        format!("{:x} {:x}\n", OLD + start, NEW + start)
    };
    Restore {
        section: of_pairs(8 * WORDS, &pairs),
        image: image(OLD),
        first: 0x7000,
        moves: (0..FRAMES).map(line).collect(),
        frames: frames(OLD),
    }
}

/// Starts a restore into the folder `new`.
fn start(row: &Restore, folder: &Folder) -> Child {
    let mut command = folder.command();
    let command = row.inputs(&mut command).args(["--into", "new"]);
    let command = command.stdout(Stdio::piped()).stderr(Stdio::piped());
    command.spawn().unwrap()
}

/// Whether the folder is there; if so, image and registers are of one moment and beside their receipt. What
/// was read is as it was.
fn is_whole(row: &Restore, folder: &Folder, what: &str) -> bool {
    assert!(folder.get("image") == row.image, "{what}: the old image");
    assert!(
        folder.get("frames") == row.frames.as_bytes(),
        "{what}: the old frames"
    );
    if !folder.at("new").exists() {
        return false;
    }
    assert_eq!(made(folder), MADE, "{what}");
    assert!(
        folder.get("new/image") == image(NEW),
        "{what}: the new image"
    );
    let list = String::from_utf8(folder.get("new/frames")).unwrap();
    let (_, list) = list.split_once('\n').unwrap();
    assert!(list == frames(NEW), "{what}: the new frames");
    true
}

/// How long a whole run takes.
fn whole_run(row: &Restore, folder: &Folder) -> Duration {
    let mut longest = Duration::ZERO;
    row.put(folder);
    for _ in 0..3 {
        let begun = Instant::now();
        into(row, folder, &[]).done(SAYS);
        longest = longest.max(begun.elapsed());
        assert!(is_whole(row, folder, "a whole run"));
        fs::remove_dir_all(folder.at("new")).unwrap();
    }
    longest
}

#[test]
fn killed_at_any_moment() {
    const KILLS: u64 = 160;
    let (row, folder) = (thread(), Folder::new());
    let long = whole_run(&row, &folder).as_micros();
    let mut rng = generator::Rng::part(0xDEAD, 2);
    let (mut none, mut whole, mut left) = (0, 0, 0);
    for nth in 0..KILLS {
        let mut child = start(&row, &folder);
        // Every second kill is aimed at the writing of the folder.
        let within = match nth % 2 {
            0 => long * 5 / 4,
            _ => {
                until_there(&mut child, &folder, &[BESIDE]);
                long / 8
            }
        };
        sleep(Duration::from_micros(rng.below(within as usize + 1) as u64));
        child.kill().unwrap();
        child.wait().unwrap();
        left += u64::from(folder.at(BESIDE).exists());
        let what = format!("kill {nth}");
        if is_whole(&row, &folder, &what) {
            assert_eq!(folder.names(), WITH_NEW, "{what}");
            whole += 1;
        } else {
            none += 1;
            into(&row, &folder, &[]).done(SAYS);
            assert!(is_whole(&row, &folder, &what));
            assert_eq!(folder.names(), WITH_NEW, "{what}: the next run");
        }
        fs::remove_dir_all(folder.at("new")).unwrap();
    }
    let counts = format!("{none} none, {whole} whole, {left} left beside");
    println!("{counts}");
    assert!(none > 0 && whole > 0 && left > 0, "{counts}");
}

#[test]
fn asked_to_end_at_any_moment() {
    const ASKED: usize = 150;
    let (row, folder) = (thread(), Folder::new());
    let long = whole_run(&row, &folder).as_micros() as usize;
    let mut rng = generator::Rng::part(0x51, 1);
    let (mut ended, mut done) = (0, 0);
    for asked in 0..ASKED {
        let signal = [Signal::SIGHUP, Signal::SIGINT, Signal::SIGTERM][asked % 3];
        let mut child = start(&row, &folder);
        let within = if asked / 3 % 3 == 0 {
            long
        } else {
            until_there(&mut child, &folder, &[BESIDE]);
            long / 2
        };
        sleep(Duration::from_micros(rng.below(within + 1) as u64));
        // Where the run is over already, there is nobody to ask.
        let _ = kill(Pid::from_raw(child.id() as i32), signal);
        let output = child.wait_with_output().unwrap();
        let what = format!("{asked}: {signal}");
        let whole = is_whole(&row, &folder, &what);
        if let Some(by) = output.status.signal() {
            assert_eq!((by, whole), (signal as i32, false), "{what}");
            assert_eq!(folder.names(), FILES, "{what}");
            ended += 1;
            continue;
        }
        Ran::from(output).done(SAYS);
        assert!(whole, "{what}");
        assert_eq!(folder.names(), WITH_NEW, "{what}");
        fs::remove_dir_all(folder.at("new")).unwrap();
        done += 1;
    }
    println!("{ended} ended, {done} done");
    assert!(ended > 0 && done > 0, "{ended} ended, {done} done");
}

#[test]
fn several_at_once() {
    let row = in_rbx();
    for round in 0..30 {
        let folder = Folder::new();
        row.put(&folder);
        let children: Vec<Child> = (0..4).map(|_| start(&row, &folder)).collect();
        let end = |child: Child| Ran::from(child.wait_with_output().unwrap());
        let ran: Vec<Ran> = children.into_iter().map(end).collect();
        let done = ran.iter().filter(|ran| ran.status == Some(0)).count();
        assert_eq!(done, 1, "{round}: {ran:?}");
        for ran in ran.iter().filter(|ran| ran.status != Some(0)) {
            ran.failed("new: cannot be made: ", "");
        }
        assert_eq!(made(&folder), MADE, "{round}");
        assert_eq!(folder.names(), WITH_NEW, "{round}");
    }
}

/// A disk that is full, as far as a file may not grow: nothing is made, and nothing is left.
#[test]
fn files_that_may_not_grow() {
    let (row, folder) = (thread(), Folder::new());
    row.put(&folder);
    for blocks in [0, 1, 100, 2047] {
        let mut command = folder.shell(&format!("ulimit -f {blocks}"));
        let ran = Ran::of(row.inputs(&mut command).args(["--into", "new"]));
        ran.failed("new/image: cannot be written: ", "");
        assert_eq!(folder.names(), FILES, "{blocks}");
    }
}
