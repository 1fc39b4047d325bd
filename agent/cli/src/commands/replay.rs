//! `replay`: a recorded restore, done once more.

mod told;

use crate::files;
use crate::frames::{Line, Naming};
use crate::inputs::{Chosen, Given, Inputs};
use crate::library::{self, Difference, Refusal, Step};
use crate::lists::Entry;
use crate::moves::Moves;
use crate::numbers::{address, whole};
use crate::trace;
use crate::trouble::{Status, Trouble, Voice};
use std::path::PathBuf;

/// Replay a recorded restore on the old image, and say whether it is answered as recorded
///
/// The frames of the trace are moved one after the other, on a copy of the image, and each answer is compared with
/// the recorded one. 'TRACE: same' and how many answers there are goes to standard output; or the first answer that
/// differs, with its frame, what is recorded and what is answered now. All frames are moved in either case.
///
/// 35 is said of a broken trace, before all else. Every other refusal, 31 too, is an answer that is compared.
///
/// Exit status: 0 the same; 1 not the same, or refused; 2 a wrong call, or a file that cannot be read.
#[derive(clap::Args)]
#[command(override_usage = USAGE)]
pub struct Arguments {
    /// The stack map section
    #[arg(long, value_name = "FILE")]
    section: PathBuf,
    /// The bytes of the stack as they were before the restore; they are only read
    #[arg(long, value_name = "FILE")]
    image: PathBuf,
    /// The address of the image's first byte
    #[arg(long, value_name = "ADDRESS", value_parser = address)]
    first: u64,
    /// Where the objects of the heap were and are: lines 'OLD NEW', old starts rising; said as often, and in the
    /// order, as in the restore
    #[arg(long, value_name = "FILE", required = true)]
    moves: Vec<PathBuf>,
    /// The edition whose settings the restore named [default: 256 pointers, both versions, and the machine of
    /// the trace's first frame]
    #[arg(long, value_name = "NUMBER", value_parser = whole, requires = "store")]
    edition: Option<u64>,
    /// The store of editions that has it
    #[arg(long, value_name = "FILE", requires = "edition")]
    store: Option<PathBuf>,
    /// The image that the restore has made: say too whether the replay leaves the same bytes
    #[arg(long, value_name = "FILE")]
    restored: Option<PathBuf>,
    /// The trace, as 'restore --trace' writes it
    #[arg(value_name = "TRACE")]
    trace: PathBuf,
    /// Tell all answers on standard output, one JSON object a line
    #[arg(long)]
    pub json: bool,
}

const USAGE: &str = "\
treskibben replay --section FILE --image OLD --first ADDRESS
           --moves FILE [--moves FILE..] [--edition NUMBER --store FILE]
           [--restored NEW] [--json] TRACE";

/// A replay: all that it reads.
struct Replay<'a> {
    arguments: &'a Arguments,
    /// What all frames share. Its list has no frame but the one that something is said of.
    inputs: Inputs<'a>,
    image: Vec<u8>,
    trace: Vec<u8>,
    steps: Vec<Step>,
    restored: Option<Vec<u8>>,
}

pub fn run(arguments: &Arguments, voice: Voice) -> Result<Status, Trouble> {
    let given = arguments.given();
    let mut replay = Replay::read(arguments, &given)?;
    let mut image = replay.image.clone();
    let differs = replay.replay(&mut image, &replay.trace)?;
    let answered = match differs {
        None => replay.tell_same(voice)?,
        Some(differs) => replay.tell_difference(differs, voice)?,
    };
    let moved = match (&arguments.restored, &replay.restored) {
        (Some(path), Some(restored)) => replay.tell_image(path, restored, &image, voice)?,
        _ => Status::Done,
    };
    Ok(answered.max(moved))
}

impl Arguments {
    /// What is given for the moves; the frames are those of the trace.
    fn given(&self) -> Given {
        Given {
            section: self.section.clone(),
            image: self.image.clone(),
            first: self.first,
            moves: self.moves.clone(),
            frames: self.trace.clone(),
            machine: None,
            edition: self.edition,
            store: self.store.clone(),
        }
    }
}

impl<'a> Replay<'a> {
    fn read(arguments: &'a Arguments, given: &'a Given) -> Result<Replay<'a>, Trouble> {
        let Given {
            section,
            image,
            moves,
            frames,
            ..
        } = given;
        let others = moves.iter().chain(&given.store).chain(&arguments.restored);
        files::standard_input_once([section, image, frames].into_iter().chain(others))?;
        let section = files::read(section, files::SECTION)?;
        let image = files::read(image, files::IMAGE)?;
        let moves = Moves::read(moves)?;
        let restored = arguments.restored.as_deref();
        let restored = restored.map(|path| files::read(path, files::IMAGE));
        let restored = restored.transpose()?;
        let trace = trace::read(frames)?;
        let steps = trace::steps(frames, &trace)?;
        let machine = steps.first().map(|step| library::machine_of(step.machine));
        let machine = machine.unwrap_or_default();
        let inputs = Inputs {
            given,
            moves,
            frames_text: Vec::new(),
            naming: Naming::of(&section),
            section,
            machine,
            chosen: Chosen::of(given.store.as_deref(), given.edition, machine)?,
            lines: Vec::new(),
            profile: None,
        };
        Ok(Replay {
            arguments,
            inputs,
            image,
            trace,
            steps,
            restored,
        })
    }

    /// Moves the frames of a trace on an image, and gives the first answer that differs.
    fn replay(&self, image: &mut [u8], trace: &[u8]) -> Result<Option<Difference>, Trouble> {
        let replayed = self.inputs.restore().replay(image, trace);
        replayed.map_err(|refusal| Trouble::refused(&self.arguments.trace, refusal, None))
    }

    /// What was found where a frame is refused now. The image is that which the frames before it have left.
    fn found(&mut self, number: usize, refusal: Refusal) -> Result<Option<String>, Trouble> {
        let mut image = self.image.clone();
        self.replay(&mut image, &library::trace_of(&self.steps[..number]))?;
        let step = &self.steps[number];
        self.inputs.machine = library::machine_of(step.machine);
        self.inputs.lines = vec![Entry {
            line: 0,
            value: Line::of(step.frame, step.registers),
        }];
        Ok(self.inputs.found_alone(refusal, 0, &image))
    }
}
