//! A report for programs: one object a line.

use super::counts::Counts;
use super::{OfFrame, OfSlot, Report};
use crate::frames::Naming;
use crate::inputs::Inputs;
use crate::json::Hex;
use crate::library::{self, Reason, Slot};
use crate::receipt::{Edition, Entry};
use serde::Serialize;
use std::io::{self, Write};

/// One object.
#[derive(Serialize)]
#[serde(tag = "answer", rename_all = "kebab-case")]
enum Answer<'a> {
    /// What went in, before the rest.
    Explained(Head<'a>),
    ExplainedFrame(Frame<'a>),
    Slot(OneSlot),
    /// The counts, and what the move leaves.
    Total(Total<'a>),
}

#[derive(Serialize)]
struct Head<'a> {
    treskibben: &'a str,
    section: Entry,
    image: &'a Entry,
    first: Hex,
    moves: Entry,
    #[serde(skip_serializing_if = "Vec::is_empty")]
    joined: Vec<Entry>,
    frames: Entry,
    machine: &'a str,
    edition: Option<Edition>,
    #[serde(skip_serializing_if = "Option::is_none")]
    profile: Option<&'a str>,
}

#[derive(Serialize)]
struct Frame<'a> {
    frame: usize,
    line: usize,
    #[serde(skip_serializing_if = "Option::is_none")]
    address: Option<Hex>,
    record: u64,
    function: u64,
    /// Of version 1, whose frames stand at one.
    #[serde(skip_serializing_if = "Option::is_none")]
    offset: Option<Hex>,
    extent: [Hex; 2],
    pairs: u64,
    pointers: u64,
    slots: usize,
    null_pairs: &'a [u64],
}

#[derive(Serialize)]
struct OneSlot {
    frame: usize,
    line: usize,
    place: String,
    register: String,
    dwarf: u16,
    #[serde(skip_serializing_if = "Option::is_none")]
    offset: Option<i64>,
    #[serde(skip_serializing_if = "Option::is_none")]
    address: Option<Hex>,
    old: Option<Hex>,
    new: Option<Hex>,
    reason: &'static str,
    #[serde(skip_serializing_if = "Option::is_none")]
    pair: Option<u64>,
    #[serde(skip_serializing_if = "Option::is_none")]
    old_base: Option<Hex>,
    #[serde(skip_serializing_if = "Option::is_none")]
    new_base: Option<Hex>,
    why: String,
}

#[derive(Serialize)]
struct Total<'a> {
    #[serde(flatten)]
    counts: Counts,
    #[serde(flatten)]
    left: Option<Left<'a>>,
}

/// What a move leaves.
#[derive(Serialize)]
struct Left<'a> {
    registers: u64,
    after: Content<'a>,
    #[serde(skip_serializing_if = "Option::is_none")]
    frames_after: Option<Content<'a>>,
}

/// What a file would hold.
#[derive(Serialize)]
struct Content<'a> {
    bytes: u64,
    sha256: &'a str,
}

impl<'a> Content<'a> {
    fn of(entry: &'a Entry) -> Content<'a> {
        Content {
            bytes: entry.bytes,
            sha256: &entry.sha256,
        }
    }
}

/// Writes a report.
pub fn report(out: &mut dyn Write, report: &Report) -> io::Result<()> {
    let inputs = report.inputs;
    write(out, &Answer::Explained(head(report)))?;
    for frame in &report.frames {
        write(out, &Answer::ExplainedFrame(of_frame(inputs, frame)))?;
        for slot in &frame.slots {
            self::slot(out, inputs, frame.position, slot)?;
        }
    }
    write(out, &Answer::Total(total(report)))
}

/// Writes one slot of a frame.
pub fn slot(
    out: &mut dyn Write,
    inputs: &Inputs,
    position: usize,
    slot: &OfSlot,
) -> io::Result<()> {
    let [old, new] = [0, 1].map(|nth| slot.content.map(|content| Hex(content[nth])));
    let [old_base, new_base] = [0, 1].map(|nth| slot.object().map(|object| Hex(object[nth])));
    let (reason, pair) = match slot.reason {
        Reason::Unlisted => ("unlisted", None),
        Reason::OnlyBase => ("only_base", None),
        Reason::NullBase => ("null_base", None),
        Reason::Moved { pair, .. } => ("moved", Some(pair)),
    };
    let slot = OneSlot {
        frame: position,
        line: inputs.lines[position].line,
        place: slot.place.words(inputs.machine),
        register: inputs.machine.register(slot.place.register),
        dwarf: slot.place.register,
        offset: slot.place.offset,
        address: match slot.slot {
            Slot::Address(address) => Some(Hex(address)),
            Slot::Register(_) => None,
        },
        old,
        new,
        reason,
        pair,
        old_base,
        new_base,
        why: slot.why(inputs.machine),
    };
    write(out, &Answer::Slot(slot))
}

fn head<'a>(report: &'a Report) -> Head<'a> {
    let inputs = report.inputs;
    let [section, moves, frames] = inputs.entries();
    Head {
        treskibben: library::VERSION,
        section,
        image: &report.image,
        first: Hex(inputs.given.first),
        moves,
        joined: inputs.moves.joined_of(),
        frames,
        machine: inputs.machine.name(),
        edition: inputs.chosen.told(),
        profile: inputs.profile.map(|profile| profile.name()),
    }
}

fn of_frame<'a>(inputs: &Inputs, frame: &'a OfFrame) -> Frame<'a> {
    let entry = &inputs.lines[frame.position];
    let (stands, at) = (&frame.stands, Hex(entry.value.frame.address));
    // An extent lies in the image, and no image passes 2^64 - 1.
    let extent = frame.extent(inputs).map(|end| Hex(end as u64));
    Frame {
        frame: frame.position,
        line: entry.line,
        address: (inputs.naming == Naming::Address).then_some(at),
        record: stands.record,
        function: stands.function,
        offset: (inputs.naming == Naming::InFunction).then_some(at),
        extent,
        pairs: stands.pairs,
        pointers: frame.pointers,
        slots: frame.slots.len(),
        null_pairs: &frame.null_pairs,
    }
}

fn total<'a>(report: &'a Report) -> Total<'a> {
    let left = report.after.as_ref().map(|after| Left {
        registers: after.registers,
        after: Content::of(&after.image),
        frames_after: after.frames.as_ref().map(Content::of),
    });
    Total {
        counts: Counts::of(report),
        left,
    }
}

/// Writes an object on a line of its own.
fn write(out: &mut dyn Write, answer: &Answer) -> io::Result<()> {
    serde_json::to_writer(&mut *out, answer)?;
    out.write_all(b"\n")
}
