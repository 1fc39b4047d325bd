//! The worked example of docs/FLAT.md: its bytes are the section of the tests,
//! and its answers are those given here.

use super::fixtures::worked;
use super::*;
use crate::fixtures::hex;

const DOCUMENT: &str = include_str!("../../../../docs/FLAT.md");

/// The cells of the table under a heading, row by row, without backquotes. It
/// has to have a first line of so many columns, and at least one row.
fn table<const COLUMNS: usize>(heading: &str) -> Vec<[String; COLUMNS]> {
    let (_, after) = DOCUMENT.split_once(&format!("\n## {heading}\n")).unwrap();
    let part = after.split("\n## ").next().unwrap();
    let lines = part.lines().filter(|line| line.starts_with('|'));
    let rows: Vec<[String; COLUMNS]> = lines.skip(2).map(cells).collect();
    assert!(!rows.is_empty(), "{heading}");
    rows
}

fn cells<const COLUMNS: usize>(line: &str) -> [String; COLUMNS] {
    let inner = line.strip_prefix('|').and_then(|l| l.strip_suffix('|'));
    let cells = inner.unwrap().split('|');
    let cells: Vec<String> = cells
        .map(|cell| cell.trim().trim_matches('`').to_string())
        .collect();
    cells.try_into().expect(line)
}

/// The section that the document writes out. Each row has to begin where the
/// one before it ends.
fn section() -> Vec<u8> {
    let mut section = vec![];
    for [offset, bytes, meaning] in table("A whole section") {
        assert_eq!(offset, section.len().to_string(), "{meaning}");
        section.extend(hex(&bytes));
    }
    section
}

fn said<T>(answer: Result<T, Refusal>, text: impl Fn(T) -> String) -> String {
    match answer {
        Ok(answer) => text(answer),
        Err(refusal) => format!("refused {} at {}", refusal.number, refusal.place),
    }
}

fn frame_text(frame: Frame) -> String {
    format!(
        "address {:#x}, size {}, stack size {}, flags {}, base register {}, \
         registers {} from {}, records {} from {}",
        frame.address,
        frame.size,
        frame.stack_size,
        frame.flags,
        frame.base_register,
        frame.num_registers,
        frame.register_index,
        frame.num_records,
        frame.record_index
    )
}

fn record_text(record: Record) -> String {
    format!(
        "ID {}, offset {}, call size {}, flags {}, locations {} from {}, live-outs {} from {}",
        record.id,
        record.offset,
        record.call_size,
        record.flags,
        record.num_locations,
        record.location_index,
        record.num_live_outs,
        record.live_out_index
    )
}

/// What a question that the document writes down is answered.
fn answer(section: &[u8], question: &str) -> String {
    let (kind, number) = question.split_once(' ').unwrap();
    let parsed = match number.strip_prefix("0x") {
        Some(digits) => u64::from_str_radix(digits, 16),
        None => number.parse(),
    };
    let number = parsed.unwrap();
    match kind {
        "lookup" => said(lookup(section, number), |found| {
            format!("frame {}, record {}", found.frame, found.record)
        }),
        "frame" => said(frame(section, number), frame_text),
        "frame-register" => said(frame_register(section, number), |entry| {
            let FrameRegister {
                register,
                offset,
                size,
                flags,
            } = entry;
            format!("register {register}, offset {offset}, size {size}, flags {flags}")
        }),
        "record" => said(record(section, number), record_text),
        "location" => said(location(section, number), |entry| {
            let (kind, register, offset) = (entry.kind, entry.register, entry.offset);
            format!("kind {kind}, register {register}, offset {offset}")
        }),
        "live-out" => said(live_out(section, number), |entry| {
            format!("register {}, size {}", entry.register, entry.size)
        }),
        _ => panic!("{question}"),
    }
}

#[test]
fn the_documents_bytes_are_the_worked_section() {
    assert_eq!(section(), worked());
    assert_eq!(check(&section()), Ok(()));
}

#[test]
fn the_documents_answers_are_given() {
    for [question, expected] in table("What it answers") {
        assert_eq!(answer(&section(), &question), expected, "{question}");
    }
}

#[test]
fn the_documents_changes_are_answered_so() {
    for [at, bytes, expected, why] in table("What a change does") {
        let (at, bytes) = (at.parse::<usize>().unwrap(), hex(&bytes));
        let mut section = section();
        section.resize(section.len().max(at + bytes.len()), 0);
        section[at..at + bytes.len()].copy_from_slice(&bytes);
        let answer = match check(&section) {
            Ok(()) => "accepted".to_string(),
            Err(refusal) => refusal.number.to_string(),
        };
        assert_eq!(answer, expected, "{at}: {why}");
    }
}
