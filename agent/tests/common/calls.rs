//! One call, by the library and by the second implementation: the move of a frame, or of a thread.

#[path = "raw.rs"]
pub mod raw;

use crate::common::differ;
use generator::frames::Scene;
use std::fmt::Debug;
use treskibben::{Frame, Frames, Machine, MoveTable};

/// All that a call is given.
#[derive(Clone, Debug)]
pub struct Call<'a, F> {
    pub section: &'a [u8],
    pub image: &'a [u8],
    pub first: u64,
    pub olds: &'a [u64],
    pub news: &'a [u64],
    /// The number of the machine.
    pub machine: u64,
    /// A frame, or the list of a thread's frames.
    pub frames: F,
    /// The list of the frame's registers, or of all frames'.
    pub registers: Vec<u64>,
}

/// The answer, and the image and the registers after the call.
#[derive(Clone, PartialEq, Eq)]
pub struct Outcome {
    pub number: u64,
    pub place: u64,
    pub count: u64,
    pub image: Vec<u8>,
    pub registers: Vec<u64>,
}

impl std::fmt::Debug for Outcome {
    fn fmt(&self, f: &mut std::fmt::Formatter<'_>) -> std::fmt::Result {
        let Outcome {
            number,
            place,
            count,
            image,
            registers,
        } = self;
        write!(f, "{number} at {place}, {count} pointers, image ")?;
        let mut bytes = image.iter().take(4_096);
        bytes.try_for_each(|byte| write!(f, "{byte:02x}"))?;
        let shown = &registers[..registers.len().min(512)];
        write!(f, ", {} registers {shown:x?}", registers.len())
    }
}

impl Outcome {
    /// The outcome of a call that is lent image and registers.
    fn of(
        image: &[u8],
        registers: &[u64],
        call: impl FnOnce(&mut [u8], &mut [u64]) -> Result<u64, (u64, u64)>,
    ) -> Outcome {
        let (mut image, mut registers) = (image.to_vec(), registers.to_vec());
        let answer = call(&mut image, &mut registers);
        let (number, place) = answer.err().unwrap_or((0, 0));
        Outcome {
            number,
            place,
            count: answer.unwrap_or(0),
            image,
            registers,
        }
    }

    /// Number, place and count.
    #[allow(dead_code)] // Not every test asks for all three.
    pub fn answer(&self) -> (u64, u64, u64) {
        (self.number, self.place, self.count)
    }
}

/// What a call moves: one frame, or those of a list.
pub trait Moves: Copy + Debug {
    /// The number of pointers, or number and place of the refusal.
    fn by_library(call: &Call<Self>, image: &mut [u8], registers: &mut [u64]) -> Answer;
    #[allow(dead_code)] // Not every test moves frames by both.
    fn by_second(call: &Call<Self>, image: &mut [u8], registers: &mut [u64]) -> Answer;
}

type Answer = Result<u64, (u64, u64)>;

impl Moves for Frame {
    fn by_library(call: &Call<Frame>, image: &mut [u8], registers: &mut [u64]) -> Answer {
        let Some(machine) = call.machine() else {
            return raw::relocate(call, image, registers);
        };
        let (section, first) = (call.section, call.first);
        let (table, frame) = (call.table(), call.frames);
        let moved = treskibben::relocate(section, image, first, table, machine, frame, registers);
        let moved = moved.map(|pointers| pointers as u64);
        moved.map_err(|refusal| (refusal.number(), refusal.place()))
    }

    fn by_second(call: &Call<Frame>, image: &mut [u8], registers: &mut [u64]) -> Answer {
        let Call {
            section,
            first,
            olds,
            news,
            machine,
            ..
        } = *call;
        let Frame { address, function } = call.frames;
        let frame = reference::Frame { address, function };
        let moved =
            reference::relocate(section, image, first, olds, news, machine, frame, registers);
        moved.map_err(|refusal| (refusal.number, refusal.place))
    }
}

impl Moves for &[u64] {
    fn by_library(call: &Call<Self>, image: &mut [u8], registers: &mut [u64]) -> Answer {
        let Some(machine) = call.machine() else {
            return raw::thread(call, call.frames, image, registers);
        };
        let (section, first) = (call.section, call.first);
        let (table, frames) = (call.table(), Frames::of_numbers(call.frames));
        let moved =
            treskibben::relocate_thread(section, image, first, table, machine, frames, registers);
        let moved = moved.map(|pointers| pointers as u64);
        moved.map_err(|refusal| (refusal.number(), refusal.place()))
    }

    fn by_second(call: &Call<Self>, image: &mut [u8], registers: &mut [u64]) -> Answer {
        let Call {
            section,
            first,
            olds,
            news,
            machine,
            ..
        } = *call;
        let list = call.frames;
        let moved = reference::thread(section, image, first, olds, news, machine, list, registers);
        moved.map_err(|refusal| (refusal.number, refusal.place))
    }
}

impl<'a> Call<'a, Frame> {
    /// The move of a frame of the scene, whose section has these bytes.
    #[allow(dead_code)] // Not every test moves single frames.
    pub fn of(scene: &'a Scene, section: &'a [u8], stop: usize) -> Call<'a, Frame> {
        let stop = &scene.stops[stop];
        let frame = Frame {
            address: stop.address,
            function: stop.named,
        };
        Call::with(scene, section, frame, stop.lent())
    }
}

impl<'a, F> Call<'a, F> {
    /// The move of these frames with these registers on the scene, whose section has these bytes.
    pub fn with(
        scene: &'a Scene,
        section: &'a [u8],
        frames: F,
        registers: Vec<u64>,
    ) -> Call<'a, F> {
        Call {
            section,
            image: &scene.image,
            first: scene.first,
            olds: &scene.table.olds,
            news: &scene.table.news,
            machine: scene.machine,
            frames,
            registers,
        }
    }

    /// The machine, if the number is one's.
    pub fn machine(&self) -> Option<Machine> {
        let machines = [Machine::Amd64, Machine::Aarch64];
        let own = |machine: &Machine| machine.number() == self.machine;
        machines.into_iter().find(own)
    }

    pub fn table(&self) -> MoveTable<'a> {
        MoveTable::new(self.olds, self.news)
    }
}

impl<F: Moves> Call<'_, F> {
    pub fn by_library(&self) -> Outcome {
        Outcome::of(self.image, &self.registers, |image, registers| {
            F::by_library(self, image, registers)
        })
    }

    #[allow(dead_code)] // Not every test moves frames by both.
    pub fn by_second(&self) -> Outcome {
        Outcome::of(self.image, &self.registers, |image, registers| {
            F::by_second(self, image, registers)
        })
    }

    /// Compares both answers, images and registers, and sees that a refusal leaves image and registers as
    /// they were lent. Gives the outcome.
    #[allow(dead_code)] // Not every test moves frames by both.
    pub fn compare(&self) -> Outcome {
        let (library, second) = (self.by_library(), self.by_second());
        if library != second {
            self.fail(&format!(
                "by the library {library:?}, by the second implementation {second:?}"
            ));
        }
        let as_lent = library.image == self.image && library.registers == self.registers;
        if library.number != 0 && !as_lent {
            self.fail(&format!("{library:?}, though it is refused"));
        }
        library
    }

    /// Shows the call, and fails.
    pub fn fail(&self, why: &str) -> ! {
        let Call {
            first,
            machine,
            frames,
            ..
        } = *self;
        let many =
            |list: &[u64]| format!("{} entries {:x?}", list.len(), &list[..list.len().min(64)]);
        let (olds, news) = (many(self.olds), many(self.news));
        let before = Outcome::of(self.image, &self.registers, |_, _| Ok(0));
        let lent = format!(
            "machine {machine:#x}, {frames:x?}, first {first:#x}, old starts {olds}, new starts {news}, before {before:?}"
        );
        differ("a move", self.section, &format!("{why}\n{lent}"));
    }
}
