//! A trace in words, for people.

use crate::frames::Naming;
use crate::library::{self, Recorded, Step};
use crate::numbers::count;
use std::io::{self, Write};

/// Writes all that a trace says: each frame, and its answer.
pub fn trace(out: &mut dyn Write, length: usize, steps: &[Step]) -> io::Result<()> {
    let frames = count(steps.len() as u64, "frame");
    let bytes = count(length as u64, "byte");
    writeln!(out, "trace: {bytes}, {frames}")?;
    for (number, step) in steps.iter().enumerate() {
        frame(out, number, step, None)?;
        writeln!(out, "  answer: {}", answer(step.answer, None))?;
    }
    Ok(())
}

/// Writes a frame of a trace: the machine, where it stands, and the registers that are not 0. A trace has both an
/// address and a function; which of them a section reads is known where its naming is.
pub fn frame(
    out: &mut dyn Write,
    number: usize,
    step: &Step,
    naming: Option<Naming>,
) -> io::Result<()> {
    let (address, function) = (step.frame.address, step.frame.function);
    let machine = library::machine_of(step.machine).name();
    let place = match naming {
        None => format!("address {address:#x}, function {function}"),
        Some(Naming::Address) => format!("address {address:#x}"),
        Some(Naming::InFunction) => format!("function {function}, offset {address:#x}"),
    };
    writeln!(out, "frame {number}: {machine}, {place}")?;
    let told = registers(step).map(|(name, content)| format!("{name} {content:#x}"));
    let told: Vec<String> = told.collect();
    match told.as_slice() {
        [] => writeln!(out, "  registers: all 0"),
        told => writeln!(out, "  registers: {}", told.join(", ")),
    }
}

/// The registers of a frame that are not 0, by their names.
pub fn registers(step: &Step) -> impl Iterator<Item = (String, u64)> + use<'_> {
    let machine = library::machine_of(step.machine);
    let all = (0..).zip(&step.registers);
    let not_0 = all.filter(|(_, content)| **content != 0);
    not_0.map(move |(number, content)| (machine.register(number), *content))
}

/// An answer in words, with what was found where it is known; else with the pair, where its place is one.
pub fn answer(answer: Recorded, found: Option<&str>) -> String {
    let refusal = library::outcome(answer).err();
    let pair = refusal.filter(|refusal| matches!(refusal.number, 18..=21));
    let pair = pair.map(|refusal| format!("pair {}", refusal.place));
    match found.or(pair.as_deref()) {
        Some(found) => format!("{answer}; {found}"),
        None => answer.to_string(),
    }
}
