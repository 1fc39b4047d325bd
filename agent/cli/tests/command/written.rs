//! Files that `list`, `build` and `cut` write: whole or not there, whoever ends the program and when.

use crate::fixtures::{of_pairs, one_function, row_h, rsp, statepoint, C};
use crate::run::{until_there, Folder, Ran};
use nix::sys::signal::{kill, Signal};
use nix::unistd::Pid;
use std::fs;
use std::os::unix::process::ExitStatusExt;
use std::process::{Child, Stdio};
use std::thread::sleep;
use std::time::{Duration, Instant};

/// Starts the program; its end is waited for elsewhere.
fn start(folder: &Folder, call: &str) -> Child {
    let mut command = folder.command();
    let command = command.args(call.split(' ')).stdout(Stdio::null());
    command.stderr(Stdio::piped()).spawn().unwrap()
}

/// How long a call takes.
fn long(folder: &Folder, call: &str) -> usize {
    let begun = Instant::now();
    assert_eq!(folder.run(call.split(' ')).status, Some(0), "{call}");
    begun.elapsed().as_micros() as usize
}

/// Kills a call that makes the file `new` so often, while it writes. The file is whole or missing, and
/// where it is missing the next call makes it and leaves nothing else.
fn killed(folder: &Folder, call: &str, kills: u64, part: u64) {
    let within = long(folder, call) / 2;
    let (whole, names) = (folder.get("new"), folder.names());
    let mut rng = generator::Rng::part(0xF11E, part);
    let (mut missing, mut left) = (0, 0);
    for number in 0..kills {
        fs::remove_file(folder.at("new")).unwrap();
        let mut child = start(folder, call);
        until_there(&mut child, folder, &["new", ".new.treskibben-new"]);
        // Every second kill comes when the writing has just begun.
        let pause = rng.below(within + 1) as u64 * (number % 2);
        sleep(Duration::from_micros(pause));
        child.kill().unwrap();
        child.wait().unwrap();
        if !folder.at("new").exists() {
            missing += 1;
            left += u64::from(folder.at(".new.treskibben-new").exists());
            folder.run(call.split(' ')).done("");
        }
        assert!(folder.get("new") == whole, "{call}: kill {number}");
        assert_eq!(folder.names(), names, "{call}: kill {number}");
    }
    println!("{call}: {missing} of {kills} missing, {left} left");
    assert!(missing > 0 && left > 0, "{call}: no kill met the writing");
}

#[test]
fn list_and_build_killed() {
    let folder = Folder::new();
    let record = statepoint(0x20, &vec![[rsp(8), rsp(8)]; 30_000]);
    folder.put("section", one_function(24, vec![record; 4]).encode());
    folder
        .run(["list", "section", "--output", "listing"])
        .done("");
    killed(&folder, "list section --output new", 40, 0);
    killed(&folder, "list --text section --output new", 12, 1);
    killed(&folder, "build listing --output new", 40, 2);
}

const PARTS: usize = 600;

/// The parts are all there, or the folder is not.
fn whole(folder: &Folder, name: &str) -> bool {
    let parts = folder.at(name);
    if !parts.exists() {
        return false;
    }
    assert_eq!(fs::read_dir(&parts).unwrap().count(), PARTS);
    for number in [0, PARTS / 2, PARTS - 1] {
        let part = parts.join(format!("part-{number:03}.section"));
        assert_eq!(fs::read(part).unwrap(), C);
    }
    true
}

const CUT: &str = "cut all --into parts";

#[test]
fn cut_killed() {
    let folder = Folder::new();
    folder.put("all", C.repeat(PARTS));
    let within = long(&folder, CUT);
    let mut rng = generator::Rng::part(0xF11E, 3);
    let (mut missing, mut left) = (0, 0);
    for _ in 0..16 {
        let _ = fs::remove_dir_all(folder.at("parts"));
        let mut child = start(&folder, CUT);
        until_there(&mut child, &folder, &["parts", ".parts.treskibben-new"]);
        sleep(Duration::from_micros(rng.below(within + 1) as u64));
        child.kill().unwrap();
        child.wait().unwrap();
        left += u64::from(folder.at(".parts.treskibben-new").exists());
        missing += u64::from(!whole(&folder, "parts"));
    }
    let _ = fs::remove_dir_all(folder.at("parts"));
    assert_eq!(folder.run(CUT.split(' ')).status, Some(0));
    assert!(whole(&folder, "parts"));
    assert_eq!(folder.names(), ["all", "parts"]);
    assert!(missing > 0 && left > 0, "{missing} missing, {left} left");
}

#[test]
fn cut_asked_to_end() {
    let folder = Folder::new();
    folder.put("all", C.repeat(PARTS));
    let within = long(&folder, CUT);
    let mut rng = generator::Rng::part(0xF11E, 4);
    let (mut ended, mut done) = (0, 0);
    for round in 0..24 {
        let _ = fs::remove_dir_all(folder.at("parts"));
        let signal = [Signal::SIGHUP, Signal::SIGINT, Signal::SIGTERM][round % 3];
        let mut child = start(&folder, CUT);
        until_there(&mut child, &folder, &["parts", ".parts.treskibben-new"]);
        sleep(Duration::from_micros(rng.below(within + 1) as u64));
        let _ = kill(Pid::from_raw(child.id() as i32), signal);
        let output = child.wait_with_output().unwrap();
        match output.status.signal() {
            Some(by) => {
                assert_eq!(by, signal as i32);
                let said = String::from_utf8(output.stderr).unwrap();
                assert!(
                    said.starts_with("treskibben: parts: is not made: SIG"),
                    "{said}"
                );
                assert_eq!(folder.names(), ["all"], "{signal}");
                ended += 1;
            }
            None => {
                assert_eq!(Ran::from(output).status, Some(0));
                assert!(whole(&folder, "parts"), "{signal}");
                assert_eq!(folder.names(), ["all", "parts"], "{signal}");
                done += 1;
            }
        }
    }
    println!("{ended} ended, {done} done");
    assert!(ended > 0, "{ended} ended, {done} done");
}

/// Who starts the program so that a hangup is ignored is not hung up on.
#[test]
fn cut_under_nohup() {
    let folder = Folder::new();
    folder.put("all", C.repeat(PARTS));
    let mut command = folder.shell("trap '' HUP");
    let command = command.args(CUT.split(' ')).stdout(Stdio::null());
    let mut child = command.spawn().unwrap();
    until_there(&mut child, &folder, &["parts", ".parts.treskibben-new"]);
    let _ = kill(Pid::from_raw(child.id() as i32), Signal::SIGHUP);
    assert_eq!(child.wait().unwrap().code(), Some(0));
    assert!(whole(&folder, "parts"));
}

/// An empty folder is taken, with its permissions; a link to one is followed.
#[test]
fn cut_into_an_empty_folder() {
    use std::os::unix::fs::{symlink, PermissionsExt};
    let folder = Folder::new();
    folder.put("all", [row_h(), C.to_vec()].concat());
    fs::create_dir(folder.at("empty")).unwrap();
    fs::set_permissions(folder.at("empty"), fs::Permissions::from_mode(0o750)).unwrap();
    symlink("empty", folder.at("link")).unwrap();
    assert_eq!(folder.run(["cut", "all", "--into", "link"]).status, Some(0));
    assert_eq!(folder.get("empty/part-0.section"), row_h());
    let mode = fs::metadata(folder.at("empty"))
        .unwrap()
        .permissions()
        .mode();
    assert_eq!(mode & 0o7777, 0o750);
    assert_eq!(folder.names(), ["all", "empty", "link"]);
}

/// Several runs that write one file at once: it is whole, and nothing is left beside it.
#[test]
fn one_file_at_once() {
    let folder = Folder::new();
    folder.put("section", of_pairs(24, &vec![[rsp(8), rsp(8)]; 5_000]));
    folder
        .run(["list", "section", "--output", "whole"])
        .done("");
    for _ in 0..20 {
        let call = "list section --output new";
        let children: Vec<Child> = (0..4).map(|_| start(&folder, call)).collect();
        let mut done = 0;
        for child in children {
            let ran = Ran::from(child.wait_with_output().unwrap());
            match ran.status {
                Some(0) => done += 1,
                _ => ran.failed("new: cannot be ", ""),
            }
        }
        assert!(done > 0);
        assert!(folder.get("new") == folder.get("whole"));
        assert_eq!(folder.names(), ["new", "section", "whole"]);
        fs::remove_file(folder.at("new")).unwrap();
    }
}

/// The same of a folder of parts.
#[test]
fn one_folder_at_once() {
    let folder = Folder::new();
    folder.put("all", C.repeat(PARTS));
    for _ in 0..5 {
        let children: Vec<Child> = (0..3).map(|_| start(&folder, CUT)).collect();
        let mut done = 0;
        for child in children {
            let ran = Ran::from(child.wait_with_output().unwrap());
            match ran.status {
                Some(0) => done += 1,
                _ => ran.failed("parts: cannot be made: ", ""),
            }
        }
        assert_eq!(done, 1);
        assert!(whole(&folder, "parts"));
        assert_eq!(folder.names(), ["all", "parts"]);
        fs::remove_dir_all(folder.at("parts")).unwrap();
    }
}

/// Names as long as a file's may be.
#[test]
fn long_names() {
    let folder = Folder::new();
    folder.put("section", row_h());
    for length in [238, 239, 240, 255] {
        let name = "n".repeat(length);
        for _ in 0..2 {
            folder.run(["list", "section", "--output", &name]).done("");
        }
        folder.run(["build", &name, "--output", "back"]).done("");
        assert_eq!(folder.get("back"), row_h());
        let parts = "p".repeat(length);
        let ran = folder.run(["cut", "section", "--into", &parts]);
        assert_eq!(ran.status, Some(0), "{}", ran.err);
        assert_eq!(folder.get(&format!("{parts}/part-0.section")), row_h());
    }
    let too_long = "n".repeat(256);
    let ran = folder.run(["list", "section", "--output", &too_long]);
    ran.failed(&format!("{too_long}: cannot be written: "), "too long");
}
