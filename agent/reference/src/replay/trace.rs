//! A trace as bytes and as plain data.

use crate::relocate::{Frame, REGISTERS};
use crate::Refusal;

/// The kinds of items.
const FRAME: u8 = 1;
const ANSWER: u8 = 2;
const END: u8 = 3;

/// The length of a frame's body: the machine, the address, the function number
/// and the registers.
const FRAME_BODY: usize = 1 + 8 + 8 + 8 * REGISTERS;

/// The length of an answer's body: the number, and place or count.
const ANSWER_BODY: usize = 1 + 8;

/// A frame of a trace with its recorded answer.
#[derive(Clone, Debug, PartialEq, Eq)]
pub struct Step {
    /// The machine, 0 for AMD64 and 1 for AArch64.
    pub machine: u8,
    /// The frame.
    pub frame: Frame,
    /// Its registers.
    pub registers: [u64; REGISTERS],
    /// The recorded answer.
    pub answer: Recorded,
}

/// An answer as a trace records it.
#[derive(Clone, Copy, Debug, PartialEq, Eq)]
pub struct Recorded {
    /// The refusal's number, 0 for an accepted move.
    pub number: u8,
    /// The refusal's place, or the count of an accepted move.
    pub value: u64,
}

impl Recorded {
    /// The answer of a move as a trace records it.
    pub fn of(answer: Result<u64, Refusal>) -> Recorded {
        match answer {
            Ok(value) => Recorded { number: 0, value },
            Err(refusal) => Recorded {
                number: refusal.number as u8,
                value: refusal.place,
            },
        }
    }
}

/// Writes a trace of these steps.
pub fn write(steps: &[Step]) -> Vec<u8> {
    let mut trace = Vec::new();
    for step in steps {
        trace.extend([FRAME, step.machine]);
        trace.extend(step.frame.address.to_le_bytes());
        trace.extend(step.frame.function.to_le_bytes());
        for register in step.registers {
            trace.extend(register.to_le_bytes());
        }
        trace.extend([ANSWER, step.answer.number]);
        trace.extend(step.answer.value.to_le_bytes());
    }
    trace.push(END);
    trace
}

/// Reads a trace, or gives refusal 35 at its first bad item: at the item's first
/// byte, a cut item included, or at the trace's length where an item is
/// missing.
pub fn parse(trace: &[u8]) -> Result<Vec<Step>, Refusal> {
    let mut steps = Vec::new();
    let mut rest = trace;
    loop {
        let bad = Err(Refusal::at(35, trace.len() - rest.len()));
        match rest.split_first() {
            Some((&END, after)) => {
                return match after.is_empty() {
                    true => Ok(steps),
                    false => Err(Refusal::at(35, trace.len() - after.len())),
                }
            }
            Some((&FRAME, body)) => {
                let Some((machine, frame, registers, after)) = frame(body) else {
                    return bad;
                };
                let answer = answer(after).ok_or(Refusal::at(35, trace.len() - after.len()))?;
                rest = answer.1;
                steps.push(Step {
                    machine,
                    frame,
                    registers,
                    answer: answer.0,
                });
            }
            _ => return bad,
        }
    }
}

/// What a frame's body says at the front of these bytes, and the bytes after it;
/// none where it is cut or its machine is neither 0 nor 1.
fn frame(bytes: &[u8]) -> Option<(u8, Frame, [u64; REGISTERS], &[u8])> {
    let (body, after) = bytes.split_first_chunk::<FRAME_BODY>()?;
    let (&machine, numbers) = body.split_first()?;
    let (numbers, _) = numbers.as_chunks::<8>();
    let mut numbers = numbers.iter().map(|number| u64::from_le_bytes(*number));
    let frame = Frame {
        address: numbers.next()?,
        function: numbers.next()?,
    };
    let mut registers = [0; REGISTERS];
    registers.fill_with(|| numbers.next().unwrap_or(0));
    (machine <= 1).then_some((machine, frame, registers, after))
}

/// The answer at the front of these bytes, its kind included, and the bytes
/// after it; none where something else stands there or it is cut.
fn answer(bytes: &[u8]) -> Option<(Recorded, &[u8])> {
    let body = bytes.strip_prefix(&[ANSWER])?;
    let (body, after) = body.split_first_chunk::<ANSWER_BODY>()?;
    let (&number, value) = body.split_first()?;
    let value = u64::from_le_bytes(*value.first_chunk()?);
    Some((Recorded { number, value }, after))
}
