//! Signals that ask a restore to end: it ends by them with everything as it was, or it goes on to its
//! end and says so.

use super::killed::{image, start, thread, whole_run, BESIDE, NEW, SAYS};
use super::{DONE, FILES, RECEIPT};
use crate::run::{until_there, Folder, Ran};
use nix::sys::signal::{kill, Signal};
use nix::unistd::Pid;
use std::fs;
use std::os::unix::process::ExitStatusExt;
use std::thread::sleep;
use std::time::Duration;

const SIGNALS: [Signal; 3] = [Signal::SIGHUP, Signal::SIGINT, Signal::SIGTERM];

#[test]
fn asked_to_end_at_any_moment() {
    const ASKED: usize = 306;
    let (row, folder) = (thread(), Folder::new());
    let long = whole_run(&row, &folder).as_micros() as usize;
    let mut rng = generator::Rng::part(0x51, 0);
    let (mut ended, mut done) = (0, 0);
    for asked in 0..ASKED {
        row.put(&folder);
        let _ = fs::remove_file(folder.at(RECEIPT));
        let signal = SIGNALS[asked % 3];
        let mut child = start(&row, &folder);
        // A third of the signals come at any time, the others at about the writing and the end.
        let within = if asked / 3 % 3 == 0 {
            long
        } else {
            until_there(&mut child, &folder, &[BESIDE]);
            long / 2
        };
        sleep(Duration::from_micros(rng.below(within + 1) as u64));
        // Where the run is over already, there is nobody to ask.
        let _ = kill(Pid::from_raw(child.id() as i32), signal);
        let output = child.wait_with_output().unwrap();
        if let Some(by) = output.status.signal() {
            assert_eq!(by, signal as i32, "{asked}");
            assert!(folder.get("image") == row.image, "{asked}: {signal}");
            assert_eq!(folder.names(), FILES, "{asked}: {signal}");
            ended += 1;
            continue;
        }
        Ran::from(output).done(SAYS);
        assert!(folder.get("image") == image(NEW), "{asked}: {signal}");
        assert_eq!(folder.names(), DONE, "{asked}: {signal}");
        done += 1;
    }
    println!("{ended} ended, {done} done");
    assert!(ended > 0 && done > 0, "{ended} ended, {done} done");
}
