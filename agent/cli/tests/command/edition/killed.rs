//! A process that is killed while it changes a store: the store is the old one or the new one, whole.

use super::{make, numbers, retire, store, with_store, BESIDE, MAKE};
use crate::run::{until_there, Folder};
use generator::Rng;
use std::process::Stdio;
use std::thread::sleep;
use std::time::{Duration, Instant};

/// How long a whole run takes.
fn whole_run(folder: &Folder) -> Duration {
    let run = |_| {
        let begun = Instant::now();
        assert_eq!(make(folder, &[]).status, Some(0));
        begun.elapsed()
    };
    (0..3).map(run).max().unwrap()
}

/// Starts a make and kills it; every second kill is aimed at the writing of the new store.
fn kill_one(folder: &Folder, rng: &mut Rng, long: Duration, aimed: bool) {
    let mut command = folder.command();
    let command = command.args(MAKE).stdout(Stdio::null());
    let mut child = command.stderr(Stdio::null()).spawn().unwrap();
    let within = match aimed {
        false => long.as_micros(),
        true => {
            until_there(&mut child, folder, &[BESIDE]);
            long.as_micros() / 4
        }
    };
    sleep(Duration::from_micros(rng.below(within as usize + 1) as u64));
    child.kill().unwrap();
    child.wait().unwrap();
}

#[test]
fn killed_at_any_moment() {
    const KILLS: u64 = 200;
    let folder = with_store(&store(0, &[]));
    let long = whole_run(&folder);
    let mut rng = Rng::part(0xDEAD, 2);
    let (mut stayed, mut replaced, mut left) = (0, 0, 0);
    for kill in 0..KILLS {
        let (mut expected, greatest) = numbers(&folder);
        kill_one(&folder, &mut rng, long, kill % 2 == 1);
        let names = folder.names();
        assert!(names.iter().all(|own| own == "s" || own == BESIDE));
        left += u64::from(names.len() == 2);
        let (live, now) = numbers(&folder);
        match now == greatest {
            true => stayed += 1,
            false => {
                expected.push(greatest + 1);
                replaced += 1;
            }
        }
        assert_eq!(live, expected, "kill {kill}");
        // The next process goes on from there, and takes away what was left.
        assert_eq!(make(&folder, &[]).status, Some(0), "kill {kill}");
        assert_eq!(folder.names(), ["s"], "kill {kill}");
        let (live, last) = numbers(&folder);
        assert_eq!(last, now + 1, "kill {kill}");
        for number in live {
            let ran = retire(&folder, &[&number.to_string()]);
            assert_eq!(ran.status, Some(0), "kill {kill}");
        }
    }
    let counts = format!("{stayed} stayed, {replaced} replaced, {left} left");
    println!("{counts}");
    assert_eq!(stayed + replaced, KILLS);
    assert!(stayed > 0 && replaced > 0 && left > 0, "{counts}");
}
