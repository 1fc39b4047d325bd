//! A restore that is ended in the middle: the image is the old one or the new one, and no new image is
//! without its receipt.

use super::{Restore, DONE, FILES, RECEIPT};
use crate::fixtures::{of_pairs, rsp, words};
use crate::run::{until_there, Folder, Ran};
use std::fs;
use std::process::{Child, Stdio};
use std::thread::sleep;
use std::time::{Duration, Instant};

const FRAMES: u64 = 1024;
/// The words of a frame: a base, pointers derived from it, and the rest, which no pair names.
const WORDS: u64 = 128;
const PAIRS: u64 = 24;
pub const OLD: u64 = 0x5_0000_0000;
pub const NEW: u64 = 0x9_0000_0000;
pub const BESIDE: &str = ".image.treskibben-new";
pub const SAYS: &str = "image: 1024 frames moved, 24576 pointers\n";

/// The image of 1 MiB whose objects start at `start`.
pub fn image(start: u64) -> Vec<u8> {
    let word = |number: u64| match (number / WORDS, number % WORDS) {
        (frame, place @ ..PAIRS) => start + 0x1000 * frame + 8 * place,
        (frame, place) => OLD + 0x1000 * frame + 8 * place,
    };
    let numbers: Vec<u64> = (0..FRAMES * WORDS).map(word).collect();
    words(&numbers)
}

/// A thread of 1,024 frames, each with 24 pairs.
pub fn thread() -> Restore {
    let offset = |word: u64| rsp(8 * word as i32);
    let pairs: Vec<_> = (0..PAIRS).map(|word| [offset(0), offset(word)]).collect();
    let line = |frame: u64| {
        let start = 0x1000 * frame;
        format!("{:x} {:x}\n", OLD + start, NEW + start)
    };
    let first = 0x7000;
    Restore {
        section: of_pairs(8 * WORDS, &pairs),
        image: image(OLD),
        first,
        moves: (0..FRAMES).map(line).collect(),
        frames: (0..FRAMES)
            .map(|frame| format!("1020 0 {:x}\n", first + 8 * WORDS * frame))
            .collect(),
    }
}

/// Starts a restore in place whose end is waited for elsewhere.
pub fn start(row: &Restore, folder: &Folder) -> Child {
    let mut command = folder.command();
    let command = row.call(&mut command);
    let command = command.stdout(Stdio::piped()).stderr(Stdio::piped());
    command.spawn().unwrap()
}

/// How long a whole run takes.
pub fn whole_run(row: &Restore, folder: &Folder) -> Duration {
    let mut longest = Duration::ZERO;
    for _ in 0..3 {
        row.put(folder);
        let begun = Instant::now();
        Ran::of(row.call(&mut folder.command())).done(SAYS);
        longest = longest.max(begun.elapsed());
        assert!(folder.get("image") == image(NEW));
    }
    longest
}

#[test]
fn killed_at_any_moment() {
    const KILLS: u64 = 160;
    let (row, folder) = (thread(), Folder::new());
    let (old, new) = (image(OLD), image(NEW));
    let long = whole_run(&row, &folder);
    let mut rng = generator::Rng::part(0xDEAD, 0);
    let (mut stayed, mut replaced, mut left, mut between) = (0, 0, 0, 0);
    for kill in 0..KILLS {
        folder.put("image", &old);
        let _ = fs::remove_file(folder.at(RECEIPT));
        let mut child = start(&row, &folder);
        // Every second kill is aimed at the writing of the new image.
        let within = match kill % 2 {
            0 => long.as_micros() * 5 / 4,
            _ => {
                until_there(&mut child, &folder, &[BESIDE]);
                long.as_micros() / 8
            }
        };
        sleep(Duration::from_micros(rng.below(within as usize + 1) as u64));
        child.kill().unwrap();
        child.wait().unwrap();
        let image = folder.get("image");
        assert!(image == old || image == new, "kill {kill}: a mixed image");
        let names = folder.names();
        let has = |name: &str| names.iter().any(|there| there == name);
        left += u64::from(has(BESIDE));
        if image == new {
            assert_eq!(names, DONE, "kill {kill}: a new image, and its receipt");
            let ran = Ran::of(row.call(&mut folder.command()));
            assert_eq!(ran.status, Some(1), "kill {kill}: moved twice");
            replaced += 1;
            continue;
        }
        stayed += 1;
        between += u64::from(has(RECEIPT));
        Ran::of(row.call(&mut folder.command())).done(SAYS);
        assert!(folder.get("image") == new, "kill {kill}: the next run");
        assert_eq!(folder.names(), DONE, "kill {kill}: the next run");
    }
    assert_eq!(stayed + replaced, KILLS);
    let counts = format!(
        "{stayed} stayed, {replaced} replaced, {left} left, {between} between the two names"
    );
    println!("{counts}");
    assert!(stayed > 0 && replaced > 0 && left > 0, "{counts}");
}

/// The same where the new image is a new file: there is none, or it is whole and has its receipt.
#[test]
fn killed_while_it_writes_a_new_file() {
    const KILLS: u64 = 60;
    let (row, folder) = (thread(), Folder::new());
    row.put(&folder);
    let new = image(NEW);
    let mut rng = generator::Rng::part(0xDEAD, 1);
    let (mut none, mut whole) = (0, 0);
    let long = whole_run(&row, &folder);
    row.put(&folder);
    fs::remove_file(folder.at(RECEIPT)).unwrap();
    for kill in 0..KILLS {
        let mut command = folder.command();
        let command = row.inputs(&mut command).args(["--output", "new"]);
        let mut child = command.stdout(Stdio::null()).spawn().unwrap();
        until_there(&mut child, &folder, &[".new.treskibben-new"]);
        let within = long.as_micros();
        sleep(Duration::from_micros(rng.below(within as usize + 1) as u64));
        child.kill().unwrap();
        child.wait().unwrap();
        if folder.at("new").exists() {
            whole += 1;
        } else {
            none += 1;
            let mut command = folder.command();
            let ran = Ran::of(row.inputs(&mut command).args(["--output", "new"]));
            ran.done(&SAYS.replacen("image", "new", 1));
        }
        assert!(folder.get("new") == new, "kill {kill}");
        let mut names = FILES.to_vec();
        names.splice(3..3, ["new", "new.receipt.json"]);
        assert_eq!(folder.names(), names, "kill {kill}");
        fs::remove_file(folder.at("new")).unwrap();
        fs::remove_file(folder.at("new.receipt.json")).unwrap();
    }
    println!("{none} none, {whole} whole");
    assert!(none > 0 && whole > 0, "{none} none, {whole} whole");
}
