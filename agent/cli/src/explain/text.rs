//! A report for people: what went in, each frame with a line a slot, and the counts.

use super::counts::Counts;
use super::{OfFrame, OfSlot, Report};
use crate::inputs::Inputs;
use crate::library::{self, Slot};
use crate::numbers::{count, ranges};
use crate::receipt::Entry;
use std::io::{self, Write};

/// The columns of a slot's line.
const COLUMNS: usize = 7;
const NAMES: [&str; COLUMNS] = [
    "slot",
    "address",
    "old value",
    "object",
    "moved to",
    "new value",
    "why",
];

/// What stands in a column where there is nothing.
const NOTHING: &str = "-";

/// How wide each column is.
type Widths = [usize; COLUMNS];

/// Writes a report.
pub fn report(out: &mut dyn Write, report: &Report) -> io::Result<()> {
    head(out, report)?;
    let slots = report.frames.iter().flat_map(|frame| &frame.slots);
    let widths = widths(report.inputs, slots);
    for frame in &report.frames {
        writeln!(out)?;
        self::frame(out, report.inputs, frame, &widths)?;
    }
    writeln!(out)?;
    if let Some(after) = &report.after {
        let frames = after.frames.iter().map(|entry| ("new frames", entry));
        entries(out, [("new image", &after.image)].into_iter().chain(frames))?;
    }
    writeln!(out, "{}", total(report))
}

/// Writes one slot of a frame.
pub fn slot(
    out: &mut dyn Write,
    inputs: &Inputs,
    position: usize,
    slot: &OfSlot,
) -> io::Result<()> {
    writeln!(out, "{}", title(inputs, position))?;
    table(
        out,
        inputs,
        std::slice::from_ref(slot),
        &widths(inputs, [slot]),
    )
}

/// What went in, and what it was obeyed by.
fn head(out: &mut dyn Write, report: &Report) -> io::Result<()> {
    let inputs = report.inputs;
    writeln!(
        out,
        "why each slot moves or stays, by treskibben {}\n",
        library::VERSION
    )?;
    let [section, moves, frames] = inputs.entries();
    let edition = inputs.chosen.told();
    let store = edition.as_ref().and_then(|edition| edition.store.as_ref());
    let joined = inputs.moves.joined_of();
    let mut all = vec![("section", &section), ("image", &report.image)];
    all.extend(joined.iter().map(|entry| ("moves", entry)));
    all.push(match joined.is_empty() {
        true => ("moves", &moves),
        false => ("joined", &moves),
    });
    all.push(("frames", &frames));
    all.extend(store.map(|store| ("store", store)));
    entries(out, all.into_iter())?;
    let first = inputs.given.first;
    let end = u128::from(first) + u128::from(report.image.bytes);
    writeln!(out, "{:10}  {first:#x} to {end:#x}", "addresses")?;
    writeln!(out, "{:10}  {}", "machine", inputs.machine.name())?;
    writeln!(out, "{:10}  {}", "edition", inputs.chosen.line())?;
    match inputs.profile {
        Some(profile) => writeln!(out, "{:10}  {}", "profile", profile.name()),
        None => Ok(()),
    }
}

/// Files, a line each: what it is, its length, its digest, its name.
fn entries<'a>(
    out: &mut dyn Write,
    files: impl Iterator<Item = (&'a str, &'a Entry)> + Clone,
) -> io::Result<()> {
    let length = |entry: &Entry| count(entry.bytes, "byte");
    let width = files.clone().map(|(_, entry)| length(entry).len()).max();
    let width = width.unwrap_or_default();
    for (what, entry) in files {
        let (length, digest, name) = (length(entry), &entry.sha256, shown(entry));
        let line = format!("{what:10}  {length:>width$}  sha256 {digest}  {name}");
        writeln!(out, "{}", line.trim_end())?;
    }
    Ok(())
}

/// A file's name on one line.
fn shown(entry: &Entry) -> String {
    crate::names::shown(std::path::Path::new(&entry.file))
}

/// The first line of a frame.
fn title(inputs: &Inputs, position: usize) -> String {
    let entry = &inputs.lines[position];
    let words = inputs.naming.words(inputs.machine, &entry.value);
    format!("frame {position}, line {}: {words}", entry.line)
}

/// Writes a frame and its slots.
fn frame(out: &mut dyn Write, inputs: &Inputs, frame: &OfFrame, widths: &Widths) -> io::Result<()> {
    writeln!(out, "{}", title(inputs, frame.position))?;
    let stands = &frame.stands;
    let [first, end] = frame.extent(inputs);
    writeln!(
        out,
        "  record {} of function {}, {} of {}, extent {first:#x} to {end:#x}",
        stands.record,
        stands.function,
        count(frame.pointers, "pointer"),
        count(stands.pairs, "pair"),
    )?;
    if !frame.slots.is_empty() {
        table(out, inputs, &frame.slots, widths)?;
    }
    match frame.null_pairs.as_slice() {
        [] => Ok(()),
        [only] => writeln!(out, "  pair {only} is null, and has no slots"),
        more => writeln!(out, "  pairs {} are null, and have no slots", ranges(more)),
    }
}

/// Writes slots, a line each.
fn table(
    out: &mut dyn Write,
    inputs: &Inputs,
    slots: &[OfSlot],
    widths: &Widths,
) -> io::Result<()> {
    line(out, &NAMES.map(str::to_string), widths)?;
    let mut slots = slots.iter();
    slots.try_for_each(|slot| line(out, &cells(inputs, slot), widths))
}

/// Writes the cells of a line: names to the left, numbers to the right, so that their digits stand below
/// each other.
fn line(out: &mut dyn Write, cells: &[String; COLUMNS], widths: &Widths) -> io::Result<()> {
    let [place, numbers @ .., why] = cells;
    write!(out, "  {place:0$}", widths[0])?;
    for (cell, width) in numbers.iter().zip(&widths[1..]) {
        write!(out, "  {cell:>width$}")?;
    }
    writeln!(out, "  {why}")
}

/// What stands in the columns of a slot.
fn cells(inputs: &Inputs, slot: &OfSlot) -> [String; COLUMNS] {
    let number = |number: Option<u64>| match number {
        Some(number) => format!("{number:#x}"),
        None => NOTHING.to_string(),
    };
    let address = match slot.slot {
        Slot::Address(address) => Some(address),
        Slot::Register(_) => None,
    };
    let [old, new] = [0, 1].map(|nth| slot.content.map(|content| content[nth]));
    let [from, to] = [0, 1].map(|nth| slot.object().map(|object| object[nth]));
    let [address, old, from, to, new] = [address, old, from, to, new].map(number);
    let (place, why) = (slot.place.words(inputs.machine), slot.why(inputs.machine));
    [place, address, old, from, to, new, why]
}

fn widths<'a>(inputs: &Inputs, slots: impl IntoIterator<Item = &'a OfSlot>) -> Widths {
    let mut widths = NAMES.map(str::len);
    for slot in slots {
        for (width, cell) in widths.iter_mut().zip(cells(inputs, slot)) {
            *width = cell.len().max(*width);
        }
    }
    widths
}

/// The last line.
fn total(report: &Report) -> String {
    let counts = Counts::of(report);
    let frames = count(counts.frames, "frame");
    let pairs = count(counts.pairs, "pair");
    let pointers = count(counts.pointers, "pointer");
    let slots = count(counts.slots, "slot");
    let Counts {
        null_pairs,
        moved,
        null_base,
        only_base,
        ..
    } = counts;
    format!(
        "total: {frames}, {pairs} ({null_pairs} null), {pointers}, {slots}: \
         {moved} moved, {null_base} with a null base, {only_base} only a base"
    )
}
