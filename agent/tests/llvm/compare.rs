//! Compares a section, as the second implementation reads it, with what llvm-readobj printed of the same bytes.
//!
//! llvm-readobj leaves out two fields: the offset of a register and the register of a constant. LLVM writes 0
//! there in every section of these tests, and that is what the comparison asks for. So no byte of a section is
//! left out: each is either compared here or fixed by the check.

use crate::readobj::{self, Printed, Value};
use reference::section::{Location, Record, Section};
use std::fmt::Debug;

/// The first difference, if there is one.
pub fn compare(section: &Section, printed: &Printed) -> Result<(), String> {
    functions(section, printed)?;
    same("constants", &section.constants, &printed.constants)?;
    records(section, printed)
}

pub fn same<T: PartialEq<U> + Debug, U: Debug>(
    what: &str,
    ours: T,
    printed: U,
) -> Result<(), String> {
    if ours == printed {
        Ok(())
    } else {
        Err(format!("{what}: we read {ours:?}, printed is {printed:?}"))
    }
}

fn functions(section: &Section, printed: &Printed) -> Result<(), String> {
    same(
        "number of functions",
        section.functions.len(),
        printed.functions.len(),
    )?;
    for (number, (ours, theirs)) in section.functions.iter().zip(&printed.functions).enumerate() {
        same(
            &format!("address of function {number}"),
            ours.address,
            theirs.address,
        )?;
        same(
            &format!("stack size of function {number}"),
            ours.stack_size,
            theirs.stack_size,
        )?;
        same(
            &format!("record count of function {number}"),
            ours.record_count,
            theirs.record_count,
        )?;
    }
    Ok(())
}

fn records(section: &Section, printed: &Printed) -> Result<(), String> {
    same(
        "number of records",
        section.records.len(),
        printed.records.len(),
    )?;
    let mut owners = owners(printed);
    let mut first = 16 + 24 * printed.functions.len() + 8 * printed.constants.len();
    for (number, (ours, theirs)) in section.records.iter().zip(&printed.records).enumerate() {
        let within = |fault| format!("record {number}: {fault}");
        let (function, start) = owners
            .next()
            .ok_or_else(|| format!("record {number} has no function"))?;
        same("function", ours.function, function).map_err(within)?;
        same("address", ours.address, start + u64::from(theirs.offset)).map_err(within)?;
        same("first byte", ours.first, first).map_err(within)?;
        record(ours, theirs, &printed.constants).map_err(within)?;
        same("length", ours.length, length(theirs)).map_err(within)?;
        first += ours.length;
    }
    same("records of functions without a record", owners.count(), 0)
}

/// For each record in order its function's number and address.
pub fn owners(printed: &Printed) -> impl Iterator<Item = (usize, u64)> + '_ {
    let repeated = |(number, function): (usize, &readobj::Function)| {
        (0..function.record_count).map({
            let owner = (number, function.address);
            move |_| owner
        })
    };
    printed.functions.iter().enumerate().flat_map(repeated)
}

/// How long a record with these numbers of locations and live-outs is: both lists end at a multiple of 8 bytes.
pub fn length(record: &readobj::Record) -> usize {
    let rounded = |length: usize| length.next_multiple_of(8);
    let to_live_outs = rounded(16 + 12 * record.locations.len()) + 4;
    rounded(to_live_outs + 4 * record.live_outs.len())
}

fn record(ours: &Record, theirs: &readobj::Record, pool: &[u64]) -> Result<(), String> {
    same("ID", ours.id, theirs.id)?;
    same("instruction offset", ours.offset, theirs.offset)?;
    same(
        "number of locations",
        ours.locations.len(),
        theirs.locations.len(),
    )?;
    for (number, (our, their)) in ours.locations.iter().zip(&theirs.locations).enumerate() {
        location(our, their, pool).map_err(|fault| format!("location {number}: {fault}"))?;
    }
    same(
        "number of live-outs",
        ours.live_outs.len(),
        theirs.live_outs.len(),
    )?;
    for (number, (our, their)) in ours.live_outs.iter().zip(&theirs.live_outs).enumerate() {
        same(
            &format!("register of live-out {number}"),
            our.register,
            their.register,
        )?;
        same(&format!("size of live-out {number}"), our.size, their.size)?;
    }
    Ok(())
}

fn location(ours: &Location, theirs: &readobj::Location, pool: &[u64]) -> Result<(), String> {
    if let Value::ConstIndex(index, value) = theirs.value {
        same(
            "constant of the pool",
            pool.get(index as usize),
            Some(&value),
        )?;
    }
    let (kind, register, offset, _) = fields(&theirs.value);
    same("kind", ours.kind, kind)?;
    same("size", ours.size, theirs.size)?;
    same("register", ours.register, register)?;
    same("offset", ours.offset, offset)
}

/// Kind, register, offset and 64-bit constant of a printed location.
pub fn fields(value: &Value) -> (u8, u16, i32, u64) {
    match *value {
        Value::Register(register) => (1, register, 0, 0),
        Value::Direct(register, offset) => (2, register, offset, 0),
        Value::Indirect(register, offset) => (3, register, offset, 0),
        Value::Constant(bits) => (4, 0, bits as i32, i64::from(bits as i32) as u64),
        Value::ConstIndex(index, constant) => (5, 0, index as i32, constant),
    }
}
