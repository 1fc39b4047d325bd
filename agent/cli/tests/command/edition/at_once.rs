//! Several processes at work on one store: each number is given once, and nothing that was told is lost.

use super::{list, make, numbers, retire, store, with_store, BESIDE, MAKE};
use crate::run::{Folder, Ran};
use std::fs::File;
use std::process::{Child, Stdio};
use std::thread;

const BUSY: &str = "another process is at work on it";

/// Runs until it is not turned away because another process is at work; counts how often it was.
fn insist(turned_away: &mut u64, run: impl Fn() -> Ran) -> Ran {
    loop {
        let ran = run();
        if !(ran.status == Some(2) && ran.err.contains(BUSY)) {
            return ran;
        }
        assert_eq!(ran.text(), "");
        *turned_away += 1;
    }
}

/// The number that a make told.
fn told(ran: &Ran) -> u64 {
    assert_eq!((ran.status, ran.err.as_str()), (Some(0), ""));
    let words = ran.text().strip_prefix("s: edition ").unwrap();
    words.split_once(' ').unwrap().0.parse().unwrap()
}

#[test]
fn writers_at_once() {
    const WRITERS: u64 = 4;
    const EACH: u64 = 12;
    let folder = with_store(&store(0, &[]));
    let work = || {
        let (mut live, mut retired, mut away) = (vec![], vec![], 0);
        for nth in 0..EACH {
            let number = told(&insist(&mut away, || make(&folder, &[])));
            // Every third is retired again, by the one who made it.
            if nth % 3 == 2 {
                let ran = insist(&mut away, || retire(&folder, &[&number.to_string()]));
                ran.done(&format!("s: edition {number} retired\n"));
                retired.push(number);
            } else {
                live.push(number);
            }
            // Readers are never turned away, and never see a store that is not whole.
            assert_eq!(list(&folder, &[]).status, Some(0));
        }
        (live, retired, away)
    };
    let done: Vec<_> = thread::scope(|scope| {
        let workers: Vec<_> = (0..WRITERS).map(|_| scope.spawn(work)).collect();
        workers.into_iter().map(|own| own.join().unwrap()).collect()
    });
    let away: u64 = done.iter().map(|own| own.2).sum();
    println!("{away} turned away");
    assert!(away > 0, "no two were at work at once");
    let mut live: Vec<u64> = done.iter().flat_map(|own| own.0.clone()).collect();
    live.sort();
    assert_eq!(numbers(&folder), (live.clone(), WRITERS * EACH));
    live.extend(done.iter().flat_map(|own| own.1.clone()));
    live.sort();
    assert_eq!(live, (1..=WRITERS * EACH).collect::<Vec<u64>>());
    assert_eq!(folder.names(), ["s"]);
}

#[test]
fn a_new_store_is_begun_once() {
    for round in 0..20 {
        let folder = Folder::new();
        let start = |_| -> Child {
            let mut command = folder.command();
            let command = command.args(MAKE).arg("--new");
            let command = command.stdout(Stdio::piped()).stderr(Stdio::piped());
            command.spawn().unwrap()
        };
        let children: Vec<Child> = (0..4).map(start).collect();
        let end = |child: Child| Ran::from(child.wait_with_output().unwrap());
        let ran: Vec<Ran> = children.into_iter().map(end).collect();
        let done = ran.iter().filter(|ran| ran.status == Some(0)).count();
        assert_eq!(done, 1, "{round}: {ran:?}");
        for ran in ran.iter().filter(|ran| ran.status != Some(0)) {
            ran.failed("s: cannot be written: ", "");
        }
        assert_eq!(numbers(&folder), (vec![1], 1), "{round}");
        assert_eq!(folder.names(), ["s"], "{round}");
    }
}

/// While another process has the store locked, it is read and not changed.
#[test]
fn a_locked_store() {
    let bytes = store(5, &[(5, [1, 0, 1, 0])]);
    let folder = with_store(&bytes);
    let held = File::open(folder.at("s")).unwrap();
    held.lock().unwrap();
    make(&folder, &[]).failed("s: cannot be replaced: ", BUSY);
    retire(&folder, &["5"]).failed("s: cannot be replaced: ", BUSY);
    assert_eq!(numbers(&folder), (vec![5], 5));
    assert_eq!(folder.get("s"), bytes);
    assert_eq!(folder.names(), ["s"]);
    // Dropped, it would stay locked for as long as a process that another test starts has the file too.
    held.unlock().unwrap();
    // So it is where only the name beside it is locked.
    let beside = folder.put(BESIDE, "");
    let held = File::open(beside).unwrap();
    held.lock().unwrap();
    make(&folder, &[]).failed("s: cannot be replaced: ", BUSY);
    held.unlock().unwrap();
    make(&folder, &[]).done("s: edition 6 made: at most 256 pointers, x86-64, versions 1 and 3\n");
    assert_eq!(folder.names(), ["s"]);
}
