//! Traces for programs: one JSON object a line, whose field `answer` tells what it is.

use super::text;
use crate::json::Hex;
use crate::library::{self, Recorded, Step};
use serde::{Serialize, Serializer};

/// One object.
#[derive(Serialize)]
#[serde(tag = "answer", rename_all = "lowercase")]
pub enum Answer<'a> {
    /// `trace`: the trace as a whole, before its frames.
    Trace {
        file: &'a str,
        bytes: usize,
        frames: usize,
    },
    /// `trace`: a frame and its answer.
    Recorded {
        #[serde(flatten)]
        frame: Frame<'a>,
        recorded: Told,
    },
    /// `replay`: every answer is the recorded one.
    Same { file: &'a str, answers: usize },
    /// `replay`: the first answer that isn't.
    Differs {
        file: &'a str,
        answers: usize,
        item: u64,
        frame: Frame<'a>,
        recorded: Told,
        now: Told,
    },
    /// `replay`: the restored image is what the replay leaves.
    #[serde(rename = "same-image")]
    SameImage { file: &'a str, bytes: usize },
    /// `replay`: it isn't.
    #[serde(rename = "other-image")]
    OtherImage {
        file: &'a str,
        #[serde(skip_serializing_if = "Option::is_none")]
        byte: Option<usize>,
        found: &'a str,
    },
}

/// A frame of a trace.
#[derive(Serialize)]
pub struct Frame<'a> {
    frame: usize,
    machine: &'static str,
    address: Hex,
    function: Hex,
    registers: Registers<'a>,
}

impl Frame<'_> {
    pub fn of(number: usize, step: &Step) -> Frame<'_> {
        Frame {
            frame: number,
            machine: library::machine_of(step.machine).name(),
            address: Hex(step.frame.address),
            function: Hex(step.frame.function),
            registers: Registers(step),
        }
    }
}

/// The registers that are not 0, by their names.
struct Registers<'a>(&'a Step);

impl Serialize for Registers<'_> {
    fn serialize<S: Serializer>(&self, serializer: S) -> Result<S::Ok, S::Error> {
        let named = text::registers(self.0);
        serializer.collect_map(named.map(|(name, content)| (name, Hex(content))))
    }
}

/// An answer: its number, its place or count, and both in words.
#[derive(Serialize)]
pub struct Told {
    number: u8,
    value: Hex,
    words: String,
}

impl Told {
    pub fn of(answer: Recorded, found: Option<&str>) -> Told {
        Told {
            number: answer.number,
            value: Hex(answer.value),
            words: text::answer(answer, found),
        }
    }
}
