//! The worked example of docs/FLAT.md: the sample is its bytes, and the library gives its answers.

use super::asked::by_library;
use generator::flat::questions::{Answer, Question};
use treskibben::flat;

const DOCUMENT: &str = include_str!("../../../docs/FLAT.md");
const SAMPLE: &[u8] = include_bytes!("../../../samples/worked.flat");

/// The cells of the table under a heading, row by row, without backquotes; at least one row.
fn table(heading: &str) -> Vec<Vec<String>> {
    let (_, after) = DOCUMENT.split_once(&format!("\n## {heading}\n")).unwrap();
    let part = after.split("\n## ").next().unwrap();
    let lines = part.lines().filter(|line| line.starts_with('|')).skip(2);
    let cell = |cell: &str| cell.trim().trim_matches('`').to_string();
    let rows: Vec<Vec<String>> = lines
        .map(|line| line.trim_matches('|').split('|').map(cell).collect())
        .collect();
    assert!(!rows.is_empty(), "{heading}");
    rows
}

fn hex(text: &str) -> Vec<u8> {
    let byte = |digits| u8::from_str_radix(digits, 16).unwrap();
    text.split_whitespace().map(byte).collect()
}

#[test]
fn the_sample_is_the_documents_section() {
    let rows = table("A whole section");
    let bytes: Vec<u8> = rows.iter().flat_map(|row| hex(&row[1])).collect();
    assert_eq!(bytes, SAMPLE);
    assert_eq!(flat::check(SAMPLE), Ok(()));
    assert_eq!(flat::constant(SAMPLE, 0), Ok(0xfedc_ba98_7654_3210));
}

/// The answer as the document writes it.
fn text(answer: Answer) -> String {
    match answer {
        Answer::Refused { number, place } => format!("refused {number} at {place}"),
        Answer::Found { frame, record } => format!("frame {frame}, record {record}"),
        Answer::Frame(it) => format!(
            "address {:#x}, size {}, stack size {}, flags {}, base register {}, \
             registers {} from {}, records {} from {}",
            it.address,
            it.size,
            it.stack_size,
            it.flags,
            it.base_register,
            it.registers.count,
            it.registers.index,
            it.records.count,
            it.records.index
        ),
        Answer::FrameRegister(it) => format!(
            "register {}, offset {}, size {}, flags {}",
            it.register, it.offset, it.size, it.flags
        ),
        Answer::Record(it) => format!(
            "ID {}, offset {}, call size {}, flags {}, locations {} from {}, live-outs {} from {}",
            it.id,
            it.offset,
            it.call_size,
            it.flags,
            it.locations.count,
            it.locations.index,
            it.live_outs.count,
            it.live_outs.index
        ),
        Answer::Location(it) => format!(
            "kind {}, register {}, offset {}",
            it.kind, it.register, it.offset
        ),
        Answer::LiveOut { register, size } => format!("register {register}, size {size}"),
    }
}

#[test]
fn the_documents_answers_are_the_librarys() {
    for row in table("What it answers") {
        let (kind, number) = row[0].split_once(' ').unwrap();
        let parsed = match number.strip_prefix("0x") {
            Some(digits) => u64::from_str_radix(digits, 16),
            None => number.parse(),
        };
        let number = parsed.unwrap();
        let question = match kind {
            "lookup" => Question::Lookup(number),
            "frame" => Question::Frame(number),
            "frame-register" => Question::FrameRegister(number),
            "record" => Question::Record(number),
            "location" => Question::Location(number),
            "live-out" => Question::LiveOut(number),
            _ => panic!("{kind}"),
        };
        assert_eq!(text(by_library(SAMPLE, question)), row[1], "{}", row[0]);
    }
}

#[test]
fn the_documents_changes_are_answered_so() {
    for row in table("What a change does") {
        let (at, bytes) = (row[0].parse::<usize>().unwrap(), hex(&row[1]));
        let mut section = SAMPLE.to_vec();
        section.resize(section.len().max(at + bytes.len()), 0);
        section[at..at + bytes.len()].copy_from_slice(&bytes);
        let answer = match flat::check(&section) {
            Ok(()) => "accepted".to_string(),
            Err(refusal) => refusal.number().to_string(),
        };
        assert_eq!(answer, row[2], "{}: {}", row[0], row[3]);
    }
}
