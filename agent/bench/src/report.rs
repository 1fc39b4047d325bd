//! The monthly report: one section added beside its check, and a fleet of 1,000 sections counted by the command on one
//! thread and on two.
//!
//! The command is `agent/cli/target/release/treskibben`, which `./bench report` builds, or what `TRESKIBBEN_COMMAND` names.

use crate::measure::{measure, ratio, table};
use crate::section;
use std::env;
use std::fs;
use std::path::{Path, PathBuf};
use std::process::Command;
use treskibben::report::Totals;

/// The fleet: so many sections of nearly this length, in folders of 50.
const SECTIONS: usize = 1_000;
const LENGTH: usize = 1 << 20;
const IN_A_FOLDER: usize = 50;

/// How many times as fast two threads have to be as one.
const LEAST: f64 = 1.8;

const ONE: &str = "fleet, one thread";
const TWO: &str = "fleet, two threads";
const CHECK: &str = "treskibben check";
const ADD: &str = "one section added";

/// Both tables.
pub fn rows(rounds: usize, limit: usize) {
    alone(rounds, &section::build(limit));
    let command = command();
    let fleet = Fleet::new();
    let expected = fleet.report();
    let count = |threads: &str| {
        let mut report = Command::new(&command);
        report
            .args(["report", "--threads", threads])
            .arg(&fleet.folder);
        let told = report.output().expect("the command starts");
        assert_eq!(String::from_utf8_lossy(&told.stdout), expected);
    };
    let rows = measure(
        rounds,
        &mut [(ONE, &mut || count("1")), (TWO, &mut || count("2"))],
    );
    let bytes = fleet.section.len();
    println!("\n{SECTIONS} sections of {bytes} bytes each, read from files");
    println!("\n{}", table(&rows, &[ONE]));
    let times = 1.0 / ratio(&rows, TWO, ONE);
    let verdict = if times >= LEAST {
        "reached"
    } else {
        "NOT reached"
    };
    let fastest = rows[0].fastest / rows[1].fastest;
    let wanted = format!("at least {LEAST} wanted: {verdict}");
    println!(
        "two threads: {times:.2} times as fast as one, {wanted}; by the fastest times {fastest:.2}"
    );
}

/// One section in memory.
fn alone(rounds: usize, bytes: &[u8]) {
    let rows = measure(
        rounds,
        &mut [
            (CHECK, &mut crate::on(bytes, treskibben::check)),
            (ADD, &mut crate::on(bytes, |bytes| Totals::of([bytes]))),
        ],
    );
    println!("\na section of {} bytes", bytes.len());
    println!("\n{}", table(&rows, &[CHECK]));
}

/// The command, which must be there.
fn command() -> PathBuf {
    let path = match env::var_os("TRESKIBBEN_COMMAND") {
        Some(named) => PathBuf::from(named),
        None => Path::new(env!("CARGO_MANIFEST_DIR")).join("../cli/target/release/treskibben"),
    };
    assert!(
        path.is_file(),
        "{} is missing: run `tools/cargo-command build --release`, or let TRESKIBBEN_COMMAND name the program",
        path.display()
    );
    path
}

/// The sections as files, which are removed at the end.
struct Fleet {
    folder: PathBuf,
    section: Vec<u8>,
}

impl Fleet {
    fn new() -> Fleet {
        let folder = env::temp_dir().join(format!("treskibben.fleet.{}", std::process::id()));
        let section = section::build(LENGTH);
        let fleet = Fleet { folder, section };
        for nth in 0..SECTIONS {
            let machine = fleet
                .folder
                .join(format!("machine-{:02}", nth / IN_A_FOLDER));
            fs::create_dir_all(&machine).expect("a folder for the fleet");
            let file = machine.join(format!("{nth:04}.section"));
            fs::write(file, &fleet.section).expect("room for a GiB of sections");
        }
        fleet
    }

    /// What is to be written of it: the same section counts each time.
    fn report(&self) -> String {
        let one = Totals::of([&self.section]).expect("small sums");
        let mut totals = Totals::default();
        (0..SECTIONS).for_each(|_| totals.join(one).expect("small sums"));
        totals.to_string()
    }
}

impl Drop for Fleet {
    fn drop(&mut self) {
        let _ = fs::remove_dir_all(&self.folder);
    }
}
