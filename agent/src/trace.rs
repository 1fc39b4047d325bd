//! Traces of recorded restores: frames that were moved, with their answers, as bytes that can be kept.
//!
//! A trace is a row of items, each a byte of kind and a body whose length the kind fixes. All numbers are
//! little-endian.
//!
//! | Kind | Item | Body |
//! |---|---|---|
//! | 1 | frame | machine, 1 byte: 0 AMD64, 1 AArch64; address, 8; function number, 8; 32 registers of 8 |
//! | 2 | answer | number of the refusal, or 0, 1 byte; its place, or of 0 the number of pointers, 8 |
//! | 3 | end | nothing |
//!
//! Each frame is followed by its answer, the end stands last, and nothing after it. So a trace of n frames has
//! 284n + 1 bytes; there is no limit of frames.
//!
//! [`to_bytes`] writes a trace and [`steps`] reads one. [`Edition::replay`](crate::editions::Edition::replay) moves
//! its frames again, and names the first answer that differs.
//!
//! # Examples
//!
//! ```
//! use treskibben::editions::{Editions, Machine, Settings, Versions};
//! use treskibben::trace::{self, Recorded, Step};
//! use treskibben::{Frame, MoveTable};
//! # fn main() -> Result<(), Box<dyn std::error::Error>> {
//! // A statepoint of AMD64 at 0x1020 in a function with 24 bytes of stack. It has two pairs: the slot
//! // at RSP + 8 with itself as base, and the one at RSP + 16, which is derived from that.
//! let section = std::fs::read("../samples/h-statepoint.section")?;
//! let settings = Settings { pointers: 256, machine: Machine::Amd64, versions: Versions::Three };
//! let mut editions = Editions::new();
//! let edition = editions.make(settings)?;
//! let edition = editions.edition(edition);
//!
//! // Its function has called itself. The first frame is moved, the second has no base that moves, and the first is
//! // tried again: each is recorded with the registers that it had before.
//! let table = MoveTable::new(&[0x50000], &[0x90000]);
//! let (machine, frame) = (Machine::Amd64, Frame::new(0x1020));
//! let start = [7, 0x50000, 0x54e20, 8, 0, 0x1234_u64].map(u64::to_le_bytes).concat();
//! let mut image = start.clone();
//! let record = |stack_pointer| {
//!     let registers = machine.registers(0, stack_pointer);
//!     let moved = edition.relocate(
//!         &section, &mut image, 0x7000, table, machine, frame, &mut registers.clone(),
//!     );
//!     Step { machine, frame, registers, answer: Recorded::of(moved) }
//! };
//! let steps = [0x7000, 0x7018, 0x7000].map(record);
//! let trace = trace::to_bytes(&steps);
//! assert_eq!(trace.len(), 3 * 284 + 1);
//! assert_eq!(trace::steps(&trace)?, steps);
//! assert_eq!(steps[1].answer.to_string(), "accepted, 2 pointers");
//! assert_eq!(steps[2].answer.to_string(), "refused 21 at 0: base neither 0 nor an old start");
//!
//! // The auditor has the image from before, and finds no difference.
//! let mut again = start.clone();
//! assert_eq!(edition.replay(&section, &mut again, 0x7000, table, &trace)?, None);
//! assert_eq!(again, image);
//! # Ok(())
//! # }
//! ```

#[cfg(test)]
mod tests;

use crate::editions::Editions;
use crate::{Frame, Machine, MoveTable, Refusal, Registers, REGISTERS};
use std::fmt;

/// The kinds of items.
const FRAME: u8 = 1;
const ANSWER: u8 = 2;
const END: u8 = 3;

/// The bytes of an answer item, and of a frame item with the answer item after it, the kinds included.
const ANSWER_ITEM: usize = 2 + 8;
const STEP: usize = 2 + 8 + 8 + 8 * REGISTERS + ANSWER_ITEM;

/// The answer of a move as a trace records it.
///
/// As text it is the words of the refusal, or the number of pointers.
///
/// # Examples
///
/// ```
/// use treskibben::trace::Recorded;
///
/// assert_eq!(Recorded::of(Ok(2)), Recorded { number: 0, value: 2 });
/// assert_eq!(Recorded { number: 0, value: 1 }.to_string(), "accepted, 1 pointer");
/// let refused = Recorded { number: 18, value: 3 };
/// assert_eq!(refused.to_string(), "refused 18 at 3: pair of wrong form");
/// assert_eq!(Recorded::of(refused.answer().map(|_| 0)), refused);
/// ```
#[derive(Clone, Copy, Debug, PartialEq, Eq, Hash)]
pub struct Recorded {
    /// The number of the refusal, 0 for a move that was accepted. A trace may say any.
    pub number: u8,
    /// The place of the refusal, or the number of pointers of a move that was accepted.
    pub value: u64,
}

impl Recorded {
    /// The answer of a move as a trace records it: of [`relocate`](crate::relocate()),
    /// [`Edition::relocate`](crate::editions::Edition::relocate) or
    /// [`controller::relocate`](crate::controller::relocate).
    pub fn of(answer: Result<usize, Refusal>) -> Recorded {
        match answer {
            Ok(pointers) => Recorded {
                number: 0,
                value: pointers as u64,
            },
            Err(refusal) => Recorded::new(refusal.number(), refusal.place()),
        }
    }

    /// The answer of this number and this place or count. The library is proved to give no number over 51.
    pub(crate) fn new(number: u64, value: u64) -> Recorded {
        match u8::try_from(number) {
            Ok(number) => Recorded { number, value },
            Err(_) => {
                panic!("libtreskibben answers the number {number}, and a trace has one byte for it")
            }
        }
    }

    /// The number of pointers, or the refusal.
    ///
    /// # Errors
    ///
    /// The refusal that is recorded, where the number isn't 0.
    pub fn answer(self) -> Result<u64, Refusal> {
        match self.number {
            0 => Ok(self.value),
            number => Err(Refusal::new(number.into(), self.value)),
        }
    }
}

impl fmt::Display for Recorded {
    fn fmt(&self, f: &mut fmt::Formatter<'_>) -> fmt::Result {
        match self.answer() {
            Ok(1) => f.write_str("accepted, 1 pointer"),
            Ok(pointers) => write!(f, "accepted, {pointers} pointers"),
            Err(refusal) => refusal.fmt(f),
        }
    }
}

/// The first recorded answer that differs from the one that its frame gets now.
///
/// # Examples
///
/// ```
/// use treskibben::trace::{Difference, Recorded};
///
/// let now = Recorded { number: 21, value: 0 };
/// let words = Difference { item: 4, now }.to_string();
/// assert_eq!(words, "answer 4 differs: now refused 21 at 0: base neither 0 nor an old start");
/// ```
#[derive(Clone, Copy, Debug, PartialEq, Eq, Hash)]
pub struct Difference {
    /// The number of the answer item, counted from 0 among the answers: that of its step too.
    pub item: u64,
    /// The answer that the frame gets now.
    pub now: Recorded,
}

impl fmt::Display for Difference {
    fn fmt(&self, f: &mut fmt::Formatter<'_>) -> fmt::Result {
        write!(f, "answer {} differs: now {}", self.item, self.now)
    }
}

/// A frame of a trace with its recorded answer: what a call that moves one frame was given and answered, beside
/// what all frames share.
#[derive(Clone, Copy, Debug, PartialEq, Eq, Hash)]
pub struct Step {
    /// The machine.
    pub machine: Machine,
    /// The frame.
    pub frame: Frame,
    /// What its registers held before the move.
    pub registers: Registers,
    /// The answer.
    pub answer: Recorded,
}

/// The trace of these steps, with its end.
///
/// ```
/// assert_eq!(treskibben::trace::to_bytes(&[]), [3]);
/// ```
pub fn to_bytes(steps: &[Step]) -> Vec<u8> {
    let mut trace = Vec::with_capacity(STEP * steps.len() + 1);
    for step in steps {
        trace.extend([FRAME, step.machine.number() as u8]);
        let frame = [step.frame.address, step.frame.function];
        for number in frame.iter().chain(&step.registers) {
            trace.extend(number.to_le_bytes());
        }
        trace.extend([ANSWER, step.answer.number]);
        trace.extend(step.answer.value.to_le_bytes());
    }
    trace.push(END);
    trace
}

/// The steps of a trace. [`to_bytes`] writes the same trace again.
///
/// Nothing is moved, and no answer is judged.
///
/// # Errors
///
/// 35 where the trace is broken, by the same proved call and so at the same place as
/// [`Edition::replay`](crate::editions::Edition::replay) gives it.
///
/// | Number | Cause | Place |
/// |---|---|---|
/// | 35 | an item of unknown kind or cut, a frame of another machine, an item that may not stand where it does, or anything after the end | the first byte of the first such item |
/// | 35 | an item is missing | the length of the trace |
///
/// # Examples
///
/// ```
/// use treskibben::trace::steps;
///
/// assert_eq!(steps(&[3]), Ok(vec![]));
/// assert_eq!(steps(&[]).unwrap_err().to_string(), "refused 35 at 0: trace breaks its grammar");
/// // Something stands after the end.
/// assert_eq!(steps(&[3, 3]).unwrap_err().place(), 1);
/// ```
pub fn steps(trace: &[u8]) -> Result<Vec<Step>, Refusal> {
    // An empty store knows no edition, so that every frame is answered by 31 and none is moved: what is left is the
    // refusal of the trace itself.
    let editions = Editions::new();
    let none = editions.edition(0);
    none.replay(&[], &mut [], 0, MoveTable::default(), trace)?;
    let (steps, _) = trace.as_chunks::<STEP>();
    Ok(steps.iter().map(step).collect())
}

/// A step of a trace that is not broken.
fn step(items: &[u8; STEP]) -> Step {
    let (frame, answer) = items.split_at(STEP - ANSWER_ITEM);
    let (numbers, _) = frame[2..].as_chunks::<8>();
    let number = |nth: usize| u64::from_le_bytes(numbers[nth]);
    let (value, _) = answer[2..].as_chunks::<8>();
    Step {
        machine: match frame[1] {
            0 => Machine::Amd64,
            _ => Machine::Aarch64,
        },
        frame: Frame {
            address: number(0),
            function: number(1),
        },
        registers: std::array::from_fn(|nth| number(2 + nth)),
        answer: Recorded {
            number: answer[1],
            value: u64::from_le_bytes(value[0]),
        },
    }
}
