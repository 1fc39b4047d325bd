//! Compares what the proved library answers on a section with what llvm-readobj printed of the same bytes: every
//! record by its number and by its address, and every location and live-out.
//!
//! No question gives a function's stack size, nor a constant that no location names. All other bytes are either
//! compared here or fixed by the check.

use crate::compare::{fields, length, owners, same};
use crate::readobj::{self, Printed, Value};
use treskibben::{ContentPlace, Refusal};

/// The first difference, if there is one.
pub fn compare(bytes: &[u8], printed: &Printed) -> Result<(), String> {
    let mut first = 16 + 24 * printed.functions.len() + 8 * printed.constants.len();
    for (number, theirs) in printed.records.iter().enumerate() {
        record(bytes, number as u64, first, theirs)
            .map_err(|fault| format!("record {number}: {fault}"))?;
        first += length(theirs);
    }
    for number in past(printed.records.len()) {
        same(
            "past the last record",
            refusal(treskibben::record(bytes, number)),
            Some((10, 0)),
        )?;
        same(
            "past the last record, location",
            refusal(treskibben::location(bytes, number, 0)),
            Some((10, 0)),
        )?;
        same(
            "past the last record, live-out",
            refusal(treskibben::live_out(bytes, number, 0)),
            Some((10, 0)),
        )?;
    }
    addresses(bytes, printed)
}

/// Number and place of a refused answer.
fn refusal<T>(answer: Result<T, Refusal>) -> Option<(u64, u64)> {
    answer
        .err()
        .map(|refusal| (refusal.number(), refusal.place()))
}

/// Numbers of which there is none where there are `count` items.
fn past(count: usize) -> [u64; 3] {
    [count as u64, 1 << 32, u64::MAX]
}

/// Each address of a record, and those beside it: the first record there, its function, and how many share it.
fn addresses(bytes: &[u8], printed: &Printed) -> Result<(), String> {
    let offsets = printed
        .records
        .iter()
        .map(|record| u64::from(record.offset));
    let records: Vec<(usize, u64)> = owners(printed)
        .zip(offsets)
        .map(|((function, start), offset)| (function, start + offset))
        .collect();
    for &(_, own) in &records {
        for address in [own - 1, own, own + 1] {
            let ours = treskibben::find(bytes, address);
            let ours = ours.map(|found| (found.record, found.function, found.sharing));
            let mut there = records
                .iter()
                .enumerate()
                .filter(|(_, (_, other))| *other == address);
            let theirs = there
                .next()
                .map(|(number, &(function, _))| (number as u64, function as u64));
            let theirs =
                theirs.map(|(number, function)| (number, function, 1 + there.count() as u64));
            same(
                &format!("refusal at address {address}"),
                refusal(ours),
                theirs.is_none().then_some((10, 0)),
            )?;
            same(
                &format!("record, function and sharing at address {address}"),
                ours.ok(),
                theirs,
            )?;
        }
    }
    Ok(())
}

fn record(bytes: &[u8], number: u64, first: usize, theirs: &readobj::Record) -> Result<(), String> {
    let ours = treskibben::record(bytes, number).map_err(|refusal| refusal.to_string())?;
    same(
        "first byte",
        ours.as_ptr().addr() - bytes.as_ptr().addr(),
        first,
    )?;
    same("length", ours.len(), length(theirs))?;
    same("ID", ours[..8].to_vec(), theirs.id.to_le_bytes())?;
    same(
        "instruction offset",
        ours[8..12].to_vec(),
        theirs.offset.to_le_bytes(),
    )?;
    for (nth, their) in theirs.locations.iter().enumerate() {
        location(bytes, number, nth as u64, their)
            .map_err(|fault| format!("location {nth}: {fault}"))?;
    }
    for nth in past(theirs.locations.len()) {
        same(
            "past the last location",
            refusal(treskibben::location(bytes, number, nth)),
            Some((11, 0)),
        )?;
    }
    for (nth, their) in theirs.live_outs.iter().enumerate() {
        live_out(bytes, number, nth as u64, their)
            .map_err(|fault| format!("live-out {nth}: {fault}"))?;
    }
    for nth in past(theirs.live_outs.len()) {
        same(
            "past the last live-out",
            refusal(treskibben::live_out(bytes, number, nth)),
            Some((11, 0)),
        )?;
    }
    Ok(())
}

fn location(
    bytes: &[u8],
    record: u64,
    number: u64,
    theirs: &readobj::Location,
) -> Result<(), String> {
    let ours =
        treskibben::location(bytes, record, number).map_err(|refusal| refusal.to_string())?;
    let (kind, register, offset, constant) = fields(&theirs.value);
    same("kind", ours.kind.number(), kind)?;
    same("size", ours.size, theirs.size)?;
    same("register", ours.register, register)?;
    same("offset", ours.offset, offset)?;
    same("constant", ours.constant, constant)?;
    same("content", ours.content, content(&theirs.value))
}

/// Where the value of a printed location is held.
fn content(value: &Value) -> ContentPlace {
    match value {
        Value::Register(..) => ContentPlace::Register,
        Value::Indirect(..) => ContentPlace::Memory,
        Value::Direct(..) | Value::Constant(..) | Value::ConstIndex(..) => ContentPlace::Nowhere,
    }
}

fn live_out(
    bytes: &[u8],
    record: u64,
    number: u64,
    theirs: &readobj::LiveOut,
) -> Result<(), String> {
    let ours =
        treskibben::live_out(bytes, record, number).map_err(|refusal| refusal.to_string())?;
    same("register", ours.register, theirs.register)?;
    same("size", ours.size, theirs.size)
}
