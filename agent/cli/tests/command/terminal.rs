//! The line that tells how far a long work has come.

use crate::fixtures::{one_function, statepoint};
use crate::run::{skipped, Folder, Ran, PROGRAM};
use std::process::{Command, Stdio};
use std::time::{Duration, Instant};

/// The line comes after a second.
const LONG: Duration = Duration::from_secs(3);

/// How often a large section has to be checked until that takes long, tried out without a terminal.
fn long_enough(folder: &Folder) -> usize {
    const TRIED: usize = 40;
    let records = vec![statepoint(0x1000, &[]); 230_000];
    folder.put("section", one_function(24, records).encode());
    let begun = Instant::now();
    let ran = folder.run(["check"].into_iter().chain(["section"; TRIED]));
    ran.done(&"section: accepted\n".repeat(TRIED));
    let one = begun.elapsed() / TRIED as u32;
    (LONG.as_nanos() / one.as_nanos().max(1)) as usize + 1
}

#[test]
fn a_long_work_tells_how_far_it_is_on_a_terminal_only() {
    let folder = Folder::new();
    let times = long_enough(&folder);
    let call = format!("'{PROGRAM}' check{}", " section".repeat(times));
    let mut command = Command::new("script");
    command.args(["-qec", &call, "/dev/null"]);
    command.current_dir(folder.path()).stdin(Stdio::null());
    let Ok(output) = command.output() else {
        return skipped("the progress line: no script(1) to make a terminal");
    };
    let ran = Ran::from(output);
    let text = ran.text();
    assert_eq!(ran.status, Some(0), "{text}");
    assert!(text.contains("\r\x1b[Kfiles checked: "), "{text:?}");
    assert!(text.contains(&format!(" of {times}")), "{text:?}");
    assert!(text.ends_with("\r\x1b[K"), "{text:?}");
    assert_eq!(text.matches("section: accepted\r\n").count(), times);
}
