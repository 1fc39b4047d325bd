//! A run of a program by a mover, in a process of its own, and how it ended.

use live::guest::DIED;
use live::library::Machine;
use live::mover::Mover;
use live::program::Program;
use live::system::RETIRED_FAULT;
use std::collections::BTreeMap;
use std::fmt;
use std::os::unix::process::ExitStatusExt;
use std::process::{Command, ExitStatus};

const SIGSEGV: i32 = 11;

/// How a run ended.
#[derive(Clone, Copy, Debug, PartialEq, Eq)]
pub enum End {
    /// With the right checksum, and moved wherever it was to be.
    Right,
    /// With a wrong checksum.
    Wrong,
    /// With the right checksum, and nothing was moved at some stop.
    Unmoved,
    /// The program died of a bad address: with its process, or under the emulator, whose end the process
    /// tells.
    Killed,
    /// As it never should.
    Otherwise,
}

/// What a process did.
pub struct Ended {
    machine: Machine,
    /// Its program, its mover and its stops.
    run: String,
    status: ExitStatus,
    /// The last line that it printed.
    pub last: String,
    errors: String,
    /// The lines of a word and a number that it printed.
    counts: BTreeMap<String, u64>,
}

impl Ended {
    pub fn count(&self, name: &str) -> u64 {
        self.counts.get(name).copied().unwrap_or(0)
    }

    pub fn end(&self) -> End {
        match (self.machine, self.status.code(), self.status.signal()) {
            (_, Some(0), _) => End::Right,
            (_, Some(1), _) => End::Wrong,
            (_, Some(3), _) => End::Unmoved,
            (Machine::Amd64, _, Some(SIGSEGV)) => End::Killed,
            (Machine::Aarch64, Some(DIED), _) => End::Killed,
            _ => End::Otherwise,
        }
    }

    pub fn assert_right(&self, moved: u64) {
        assert_eq!(self.count("moved"), moved, "{self}");
        assert_eq!(self.end(), End::Right, "{self}");
        assert_eq!(self.errors, "", "{self}");
    }

    pub fn assert_killed(&self) {
        assert_eq!(self.end(), End::Killed, "{self}");
        assert_eq!(self.errors, RETIRED_FAULT, "{self}");
    }

    pub fn assert_killed_or_wrong(&self) {
        assert!([End::Killed, End::Wrong].contains(&self.end()), "{self}");
    }

    /// Nothing was moved, and the checksum is right all the same.
    pub fn assert_unmoved(&self) {
        assert_eq!(self.count("moved"), 0, "{self}");
        assert_eq!(self.end(), End::Unmoved, "{self}");
    }
}

impl fmt::Display for Ended {
    fn fmt(&self, to: &mut fmt::Formatter<'_>) -> fmt::Result {
        let Ended {
            run,
            status,
            last,
            errors,
            ..
        } = self;
        write!(to, "{run}: {status}, {last:?}, {errors:?}")
    }
}

pub fn run(program: &Program, mover: Mover, stops: &str) -> Ended {
    let arguments = ["run", program.name, mover.name(), stops];
    let ran = Command::new(env!("CARGO_BIN_EXE_live"))
        .args(arguments)
        .output();
    let ran = ran.expect("the program can be started");
    let printed = String::from_utf8(ran.stdout).unwrap();
    let pair = |line: &str| {
        let (name, count) = line.split_once(' ')?;
        Some((name.to_string(), count.parse().ok()?))
    };
    Ended {
        machine: program.machine,
        run: arguments[1..].join(" "),
        status: ran.status,
        last: printed.lines().last().unwrap_or("").to_string(),
        errors: String::from_utf8(ran.stderr).unwrap(),
        counts: printed.lines().filter_map(pair).collect(),
    }
}

/// The stops of a program, by number.
pub fn stops(program: &Program) -> impl Iterator<Item = String> {
    let all = run(program, Mover::Second, "all");
    assert!(all.count("stops") > 1, "{all}");
    all.assert_right(all.count("stops"));
    (0..all.count("stops")).map(|stop| stop.to_string())
}
