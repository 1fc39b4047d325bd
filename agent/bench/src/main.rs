//! Benchmarks of the proved library beside LLVM's own parser, a check in unproved C, the second implementation and a
//! plain read or copy of the bytes. All rows of a table are measured in turn, because only ratios of one run say anything.
//!
//! `cargo --offline run --release -p bench [ROUNDS] [--svg DIR]`; with a folder, the rows are drawn there too.
//! `cargo --offline run --release -p bench reads [ROUNDS]` measures the two ways to read eight bytes, and nothing else;
//! with `flat` instead of `reads`, flat sections and nothing else, with `index`, address indexes, with `report`, the
//! monthly report, by the command too, and with `restores`, replays, explanations and the bench controller.

mod conversions;
mod flat;
mod frame;
mod index;
mod measure;
mod parser;
mod reads;
mod report;
mod restores;
mod section;
mod svg;
mod thread;
mod unproved;
mod version_1;
mod words;

use measure::{measure, say, table};
use std::hint::black_box;

/// Rows that the others are compared with.
const PARSER: &str = "StackMapParser";
const REFERENCE: &str = "reference check";
const CHECK: &str = "treskibben check";

/// Questions, which are compared with the check of the same section, and the ratio to reach.
const FOUND: &str = "question by address, found (last record)";
const NOT_FOUND: &str = "question by address, not found";
const BY_NUMBER: &str = "question by record number (last)";
const MOST_OF_CHECK: f64 = 1.1;

/// The largest section that is accepted.
const LIMIT: usize = 16_777_216;

fn main() {
    if cfg!(debug_assertions) {
        eprintln!("bench: times say nothing without optimisation, run it with --release");
        std::process::exit(2);
    }
    let arguments: Vec<String> = svg::other_arguments().skip(1).collect();
    let words: Vec<&str> = arguments.iter().map(String::as_str).collect();
    match words[..] {
        ["reads", "--once", way] => reads::once(way, &section::build(LIMIT)),
        ["reads", ref rest @ ..] => reads::rows(rounds(rest), &section::build(LIMIT)),
        ["flat", ref rest @ ..] => flat::rows(rounds(rest), LIMIT),
        ["index", ref rest @ ..] => index::rows(rounds(rest), LIMIT),
        ["report", ref rest @ ..] => report::rows(rounds(rest), LIMIT),
        ["restores", ref rest @ ..] => restores::rows(rounds(rest), LIMIT),
        ref rest => all(rounds(rest)),
    }
}

/// The fewest rounds that give a steady median.
const FEWEST: usize = 21;

/// The number of rounds that is asked for; the program ends where none can be read.
fn rounds(words: &[&str]) -> usize {
    let asked = match words {
        [] => Some(31),
        [word] => word.parse().ok(),
        _ => None,
    };
    match asked {
        Some(rounds) if rounds >= FEWEST => return rounds,
        Some(_) => eprintln!("bench: fewer than {FEWEST} rounds give no steady median"),
        None => eprintln!(
            "bench: [reads|flat|index|report|restores] [ROUNDS] is what can be asked, and not `{}`",
            words.join(" ")
        ),
    }
    std::process::exit(2);
}

/// Every table but that of `reads`.
fn all(rounds: usize) {
    let bytes = section::build(LIMIT);
    let last = agree(&bytes);
    rows(rounds, &bytes, &last);
    unproved::rows(rounds, &bytes, LIMIT);
    conversions::rows(rounds, &bytes);
    frame::rows(rounds, &bytes);
    version_1::rows(rounds, &bytes);
    thread::rows(rounds, &bytes, LIMIT);
    index::rows(rounds, LIMIT);
    flat::rows(rounds, LIMIT);
}

/// The last record: its number and its address, which is the highest.
struct Last {
    number: u64,
    address: u64,
}

/// All read the same section: both checks accept it, the parser's sum is that of the fields we read, and the
/// questions are answered as they should be. Gives the last record.
fn agree(bytes: &[u8]) -> Last {
    assert!(
        treskibben::check(bytes).is_ok(),
        "the proved check refuses the section"
    );
    let Ok(read) = reference::section::read(bytes) else {
        panic!("the second implementation refuses the section")
    };
    assert_eq!(
        parser::walk(bytes),
        parser::sum(&read),
        "the parser reads other fields"
    );
    let (functions, constants) = (read.functions.len(), read.constants.len());
    let locations: usize = read
        .records
        .iter()
        .map(|record| record.locations.len())
        .sum();
    let live_outs: usize = read
        .records
        .iter()
        .map(|record| record.live_outs.len())
        .sum();
    println!(
        "section of {} bytes: {functions} functions, {constants} constants,",
        bytes.len()
    );
    println!(
        "{} records with {locations} locations and {live_outs} live-outs",
        read.records.len()
    );
    println!(
        "StackMapParser of LLVM 14 compiled with {}",
        env!("PARSER_COMPILER")
    );
    let Some(record) = read.records.last() else {
        panic!("the section has no records")
    };
    let last = Last {
        number: read.records.len() as u64 - 1,
        address: record.address,
    };
    assert!(
        read.records
            .iter()
            .all(|other| other.address <= last.address),
        "the last record is not the highest"
    );
    let found = treskibben::find(bytes, last.address).map(|found| (found.record, found.sharing));
    assert_eq!(
        found,
        Ok((last.number, 1)),
        "the last record is found at its address"
    );
    assert!(
        treskibben::find(bytes, last.address + 1).is_err(),
        "no record is found above it"
    );
    assert_eq!(
        treskibben::record(bytes, last.number),
        Ok(&bytes[record.first..]),
        "the last record's bytes"
    );
    last
}

/// The check of a whole section, and questions on it.
fn rows(rounds: usize, bytes: &[u8], last: &Last) {
    let rows = measure(
        rounds,
        &mut [
            (CHECK, &mut on(bytes, treskibben::check)),
            (REFERENCE, &mut on(bytes, reference::section::check)),
            (PARSER, &mut on(bytes, parser::walk)),
            ("plain read", &mut on(bytes, words::sum)),
            (
                FOUND,
                &mut on(bytes, |bytes| {
                    treskibben::find(bytes, black_box(last.address))
                }),
            ),
            (
                NOT_FOUND,
                &mut on(bytes, |bytes| {
                    treskibben::find(bytes, black_box(last.address + 1))
                }),
            ),
            (
                BY_NUMBER,
                &mut on(bytes, |bytes| {
                    treskibben::record(bytes, black_box(last.number))
                }),
            ),
        ],
    );
    println!("\n{}", table(&rows, &[PARSER, REFERENCE, CHECK]));
    let title = format!(
        "Times on a section of {} bytes, {rounds} rounds in one run",
        bytes.len()
    );
    svg::save("check.svg", &svg::bars(&title, &rows, PARSER));
    for question in [FOUND, NOT_FOUND, BY_NUMBER] {
        say(&rows, question, CHECK, "the check", MOST_OF_CHECK);
    }
}

/// The action of asking a function about the bytes, in such a way that no answer is known beforehand or left out.
fn on<'a, T>(bytes: &'a [u8], ask: impl Fn(&'a [u8]) -> T + 'a) -> impl FnMut() + 'a {
    move || {
        black_box(ask(black_box(bytes)));
    }
}
