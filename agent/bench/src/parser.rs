//! LLVM's own stack map parser, compiled from `parser.cpp`.

use reference::section::{Location, Record, Section};

extern "C" {
    fn parser_walk(bytes: *const u8, length: usize) -> u64;
}

/// The parser's walk over an accepted section: the sum of all fields it read.
pub fn walk(bytes: &[u8]) -> u64 {
    // SAFETY: the walk only reads, and it stays inside the bytes of a section that the check accepts, which `main`
    // asserts of every section before it is walked.
    unsafe { parser_walk(bytes.as_ptr(), bytes.len()) }
}

/// The same sum over the section as the second implementation read it.
pub fn sum(section: &Section) -> u64 {
    let functions = section
        .functions
        .iter()
        .flat_map(|function| [function.address, function.stack_size, function.record_count]);
    let constants = section.constants.iter().copied();
    let records = section.records.iter().map(sum_of_record);
    functions
        .chain(constants)
        .chain(records)
        .fold(0, u64::wrapping_add)
}

fn sum_of_record(record: &Record) -> u64 {
    let counts = record.locations.len() as u64 + record.live_outs.len() as u64;
    let head = record
        .id
        .wrapping_add(u64::from(record.offset))
        .wrapping_add(counts);
    let locations = record.locations.iter().map(sum_of_location);
    let live_outs = record
        .live_outs
        .iter()
        .map(|live_out| u64::from(live_out.register) + u64::from(live_out.size));
    locations.chain(live_outs).fold(head, u64::wrapping_add)
}

/// The parser gives offsets with their sign, constants and indices without, and a register no offset.
fn sum_of_location(location: &Location) -> u64 {
    let value = match location.kind {
        1 => 0,
        2 | 3 => i64::from(location.offset) as u64,
        _ => u64::from(location.offset as u32),
    };
    let head = u64::from(location.kind) + u64::from(location.size) + u64::from(location.register);
    head.wrapping_add(value)
}
