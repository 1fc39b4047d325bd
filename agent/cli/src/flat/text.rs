//! A flat section for people: an entry a line.

use super::{Flat, Frame, LiveOut, Record, Register};
use crate::numbers::count;
use crate::registers::Machine;
use std::io::{self, Write};
use std::ops::Range;

/// All entries for people, array after array.
pub fn section(out: &mut dyn Write, flat: &Flat, machine: Machine) -> io::Result<()> {
    let counts = [
        count(flat.section.len() as u64, "byte"),
        count(flat.constants.count as u64, "constant"),
        count(flat.frames.count as u64, "frame"),
        count(flat.registers.count as u64, "frame register"),
        count(flat.records.count as u64, "record"),
        count(flat.locations.count as u64, "location"),
        count(flat.live_outs.count as u64, "live-out"),
    ];
    writeln!(out, "flat section: {}", counts.join(", "))?;
    for nth in 0..flat.constants.count {
        writeln!(out, "constant {nth}: {:#x}", flat.constant(nth))?;
    }
    (0..flat.frames.count).try_for_each(|nth| frame_line(out, &flat.frame(nth), machine))?;
    (0..flat.registers.count)
        .try_for_each(|nth| register_line(out, &flat.register(nth), machine))?;
    (0..flat.records.count).try_for_each(|nth| record_line(out, &flat.record(nth)))?;
    (0..flat.locations.count).try_for_each(|nth| location_line(out, flat, nth, machine))?;
    (0..flat.live_outs.count).try_for_each(|nth| live_out_line(out, &flat.live_out(nth), machine))
}

/// What a lookup found, for people: the frame with its registers, the record with its locations and
/// live-outs.
pub fn found(
    out: &mut dyn Write,
    asked: u64,
    flat: &Flat,
    [frame, record]: [usize; 2],
    machine: Machine,
) -> io::Result<()> {
    writeln!(out, "{asked:#x}: record {record} of frame {frame}")?;
    let (frame, record) = (flat.frame(frame), flat.record(record));
    frame_line(out, &frame, machine)?;
    for nth in frame.registers {
        register_line(out, &flat.register(nth), machine)?;
    }
    record_line(out, &record)?;
    for nth in record.locations {
        location_line(out, flat, nth, machine)?;
    }
    for nth in record.live_outs {
        live_out_line(out, &flat.live_out(nth), machine)?;
    }
    Ok(())
}

/// Which entries a range names: `records 0 to 1`, `record 1`, `no records`.
fn range(numbers: &Range<usize>, thing: &str) -> String {
    match numbers.len() {
        0 => format!("no {thing}s"),
        1 => format!("{thing} {}", numbers.start),
        _ => format!("{thing}s {} to {}", numbers.start, numbers.end - 1),
    }
}

fn frame_line(out: &mut dyn Write, frame: &Frame, machine: Machine) -> io::Result<()> {
    let flags = [
        (1, "has a frame"),
        (2, "has an alloca of variable size"),
        (4, "has stack realignment"),
        (8, "has live-out information"),
    ];
    let said: Vec<&str> = flags
        .into_iter()
        .filter_map(|(bit, words)| (frame.flags & bit != 0).then_some(words))
        .collect();
    let said = if said.is_empty() {
        String::new()
    } else {
        format!("; {}", said.join(", "))
    };
    writeln!(
        out,
        "frame {} at {:#x}: function size {}, stack size {}, base register {}, {}, {}{said}",
        frame.frame,
        frame.address.0,
        frame.function_size,
        frame.stack_size,
        machine.register(frame.base),
        range(&frame.registers, "frame register"),
        range(&frame.records, "record"),
    )
}

fn register_line(out: &mut dyn Write, register: &Register, machine: Machine) -> io::Result<()> {
    let spilled = if register.spilled { ", spilled" } else { "" };
    writeln!(
        out,
        "frame register {}: {}, offset {}, size {}{spilled}",
        register.frame_register,
        machine.register(register.dwarf),
        register.offset,
        register.size
    )
}

fn record_line(out: &mut dyn Write, record: &Record) -> io::Result<()> {
    let info = if record.has_live_out_info {
        "; has live-out information"
    } else {
        ""
    };
    writeln!(
        out,
        "record {}: ID {}, offset {:#x}, call size {}, {}, {}{info}",
        record.record,
        record.id.0,
        record.offset,
        record.call_size,
        range(&record.locations, "location"),
        range(&record.live_outs, "live-out"),
    )
}

fn location_line(out: &mut dyn Write, flat: &Flat, nth: usize, machine: Machine) -> io::Result<()> {
    let location = flat.location(nth);
    let (register, offset) = (machine.register(location.dwarf), location.offset);
    let sum = match offset {
        0 => register.clone(),
        ..0 => format!("{register} - {}", offset.unsigned_abs()),
        _ => format!("{register} + {offset}"),
    };
    // Kinds are not judged, nor is the number of a constant.
    let constant = usize::try_from(offset).ok();
    let place = match location.kind {
        1 => format!("Register {register}"),
        2 => format!("Direct {sum}"),
        3 => format!("Indirect [{sum}]"),
        4 => format!("Constant {offset}"),
        5 => match constant.filter(|nth| *nth < flat.constants.count) {
            Some(nth) => format!("ConstIndex {nth}, which is {:#x}", flat.constant(nth)),
            None => format!("ConstIndex {offset}, which is no constant of the section"),
        },
        kind => format!("kind {kind}, {register}, offset {offset}"),
    };
    writeln!(out, "location {nth}: {place}")
}

fn live_out_line(out: &mut dyn Write, live_out: &LiveOut, machine: Machine) -> io::Result<()> {
    let register = machine.register(live_out.dwarf);
    let LiveOut { live_out, size, .. } = live_out;
    writeln!(out, "live-out {live_out}: {register}, size {size}")
}
