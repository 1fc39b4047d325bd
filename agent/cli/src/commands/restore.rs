//! `restore`: a stack image whose frames are moved, all of them or none.

mod ahead;
mod left;
mod place;
mod single;
mod trace;

use super::explain;
use crate::explain::{text, Report};
use crate::inputs::{Given, Inputs, Moved};
use crate::library;
use crate::names::shown;
use crate::numbers::count;
use crate::profile::Profile;
use crate::receipt::{self, Receipt};
use crate::trouble::{say, Refused, Status, Trouble, Voice};
use crate::{files, found, json, listing, output};
use left::{Leaves, Left};
use place::Target;
use std::path::{Path, PathBuf};

/// Move the frames of a stopped thread on its stack image
///
/// All frames are moved or none, on the stack and in their registers. Each way of writing leaves a receipt
/// beside the new image, NAME.receipt.json, with the SHA-256 of all that went in and came out; an image that
/// its receipt tells to be restored already is refused.
///
/// Numbers are hexadecimal, with or without 0x; a function's number is decimal, as 'list --text'
/// tells it. In the lists, '#' begins a comment, and blank lines are passed over.
///
/// Refusals come in this order: an image that was restored already; 31 of the edition; 1 to 9 of the
/// section; 50 where --profile is said; 33 of a version or a machine that the edition doesn't allow; 13 of
/// the image, 14 of the moves, 25 of the frames as a list; a frame with a pair in a register that its line
/// doesn't tell; then the first frame of the list that is refused by itself, by 10, 15, 12, 16, 18, 17 (of
/// version 1 17, 18), or 19 to 21; then 26 at the first frame whose extent shares a byte with an earlier
/// one's; with several --moves the first frame that has a base slot which is not listed with itself; a list of
/// no frames; last a register that would change, where no --into is said. The place of a frame's refusal is
/// its position in the list, counted from 0.
#[derive(clap::Args)]
#[command(override_usage = USAGE)]
#[command(group = clap::ArgGroup::new("where").required(true).multiple(true)
    .args(["into", "output", "in_place", "dry_run"]))]
pub struct Arguments {
    #[command(flatten)]
    given: Given,
    /// Write the new image and the frames with their new registers to a folder that gets its name in one
    /// step, and never touch the old ones
    ///
    /// It is made, or is empty. In it are the files 'image', 'frames' and 'image.receipt.json'. It is the
    /// only way where a register changes: image and registers are of one moment.
    #[arg(long, value_name = "DIR", conflicts_with_all = ["output", "in_place"])]
    into: Option<PathBuf>,
    /// Write the new image to a file that must not exist yet, and never touch the old one
    #[arg(long, value_name = "NEW", conflicts_with = "in_place")]
    output: Option<PathBuf>,
    /// Replace the old image by the new one, in one step
    #[arg(long)]
    in_place: bool,
    /// Tell why each slot would move or stay, and write nothing
    ///
    /// It tells what 'treskibben explain' tells of the same files. Where it is also said where the new image
    /// would go, what the restore would be refused by there is told too.
    #[arg(long, conflicts_with_all = ["report", "trace"])]
    dry_run: bool,
    /// Leave the report of all slots with the new image: what --dry-run tells, as text
    ///
    /// With --into it is a file in that folder, which gets its name with all that is in it. Else it is a file
    /// that must not exist yet, and it is there before the new image is. Its SHA-256 is in the receipt.
    #[arg(long, value_name = "FILE")]
    report: Option<PathBuf>,
    /// Restore an image whose receipt tells that it was restored already
    ///
    /// So it is from the second call on where a thread's frames stand in several sections, which have
    /// a call each.
    #[arg(long)]
    again: bool,
    /// Accept a list of no frames, which moves nothing
    #[arg(long)]
    allow_empty: bool,
    /// Record the restore: each frame with its registers and its answer, in a file that must not exist yet
    ///
    /// It is there before the new image is, and not at all where the restore is refused. Where it is in the
    /// folder of --into, it gets its name with it. 'treskibben replay' replays it on the old image.
    #[arg(long, value_name = "FILE")]
    trace: Option<PathBuf>,
    /// Hold the section against a profile too, and refuse by 50 what is outside
    ///
    /// 'bench' is the bench controller's, as 'check --profile bench' tells it; frames of another machine than
    /// x86-64 are outside too. 50 comes after 31 and 1 to 9, and before 33.
    #[arg(long, value_name = "NAME", value_enum)]
    profile: Option<Profile>,
    /// Tell the answer on standard output as one JSON object
    #[arg(long)]
    pub json: bool,
}

const USAGE: &str = "\
treskibben restore --section FILE --image FILE --first ADDRESS
           --moves FILE [--moves FILE..] --frames FILE
           --into DIR | --output NEW | --in-place | --dry-run [OPTIONS]";

/// A call, and all that it reads but for the image.
struct Call<'a> {
    arguments: &'a Arguments,
    inputs: Inputs<'a>,
}

pub fn run(arguments: &Arguments, voice: Voice) -> Result<Status, Trouble> {
    let mut inputs = Inputs::read(&arguments.given)?;
    inputs.profile = arguments.profile;
    let call = Call { arguments, inputs };
    let mut target = Target::open(arguments)?;
    let mut left = Leaves::open(arguments, &target)?;
    let image = target.read()?;
    match call.move_frames(image, voice) {
        Ok(moved) if arguments.dry_run => {
            explain::tell(&Report::of_thread(&call.inputs, &moved)?, voice)
        }
        Ok(moved) => {
            call.write_down(&moved, &mut left)?;
            let receipt = call.receipt(&moved, &target, &left);
            target.put(&moved.after, &moved.frames_after, &receipt, &left)?;
            call.tell(&moved, &target, &left, voice);
            Ok(Status::Done)
        }
        Err(trouble) => {
            let status = trouble.tell(voice);
            if status == Status::Refused && voice == Voice::Text {
                say(&target.untouched());
                for left in left.iter() {
                    say(&format!("{}: is not written", shown(left.path)));
                }
            }
            Ok(status)
        }
    }
}

impl Call<'_> {
    /// Moves all frames on copies of the image and of their registers, or says why not.
    fn move_frames(&self, before: Vec<u8>, voice: Voice) -> Result<Moved, Trouble> {
        self.not_twice(&before)?;
        let section = &self.inputs.section;
        if listing::all_at_zero([&section[..]]) && library::check(section).is_ok() {
            found::warn_of_zeros(&self.arguments.given.section, voice);
        }
        let moved = self.inputs.move_frames(before)?;
        if moved.frames == 0 && !self.arguments.allow_empty {
            let why = "an unwinder that failed leaves such a list; --allow-empty accepts it";
            return Err(Trouble::declined(
                &self.arguments.given.frames,
                "no frames in the list",
                why.to_string(),
            ));
        }
        self.changes_no_register(&moved)?;
        Ok(moved)
    }

    /// Only a folder takes image and registers in one step, so that without one a change of a register is
    /// refused.
    fn changes_no_register(&self, moved: &Moved) -> Result<(), Trouble> {
        let Arguments {
            output, in_place, ..
        } = self.arguments;
        let alone = output.is_some() || *in_place;
        let Some(change) = moved.changed.first().filter(|_| alone) else {
            return Ok(());
        };
        let name = self.inputs.machine.register(change.register);
        let way = "--into DIR writes the image and the registers in one step";
        let more = format!("{name} would hold {:#x}: {way}", change.now);
        Err(Trouble::Refused(Box::new(Refused {
            cause: "a register would change".to_string(),
            ..self.inputs.at_frame(change.frame, None, Some(more))
        })))
    }

    /// An image that the receipt beside it tells to be restored already is refused, and so are frames
    /// whose registers were changed.
    fn not_twice(&self, image: &[u8]) -> Result<(), Trouble> {
        if self.arguments.again {
            return Ok(());
        }
        let Given {
            image: path,
            frames,
            ..
        } = &self.arguments.given;
        let declined = |file: &Path, beside: &Path, field: &str| {
            let beside = shown(&receipt::path_of(beside));
            let why =
                format!("its SHA-256 is '{field}' in {beside}; --again restores it once more");
            Err(Trouble::declined(file, "it was restored already", why))
        };
        if !files::is_standard_input(path) {
            match receipt::beside(path)? {
                Some(receipt) if receipt.made(&receipt::digest(image)) => {
                    return declined(path, path, "after");
                }
                _ => {}
            }
        }
        let beside = frames.with_file_name(place::IMAGE);
        match receipt::beside(&beside) {
            Ok(Some(receipt))
                if receipt.made_frames(&receipt::digest(&self.inputs.frames_text)) =>
            {
                declined(frames, &beside, "frames_after")
            }
            _ => Ok(()),
        }
    }

    /// Puts down what is left with the new image.
    fn write_down(&self, moved: &Moved, left: &mut Leaves) -> Result<(), Trouble> {
        if let Some(trace) = &mut left.trace {
            trace.bytes = self.trace(moved);
        }
        if let Some(left) = &mut left.report {
            let report = Report::of_thread(&self.inputs, moved)?;
            let written = text::report(&mut left.bytes, &report);
            written.map_err(|error| Trouble::file(left.path, "cannot be written", error))?;
        }
        Ok(())
    }

    fn receipt(&self, moved: &Moved, target: &Target, left: &Leaves) -> Receipt {
        let (entry, inputs) = (receipt::Entry::of, &self.inputs);
        let (given, frames) = (inputs.given, moved.frames_after.as_bytes());
        let [section, moves, frames_before] = inputs.entries();
        let of_left = |left: &Option<Left>| left.as_ref().map(|own| entry(own.path, &own.bytes));
        Receipt {
            treskibben: library::VERSION.to_string(),
            section,
            moves,
            joined: inputs.moves.joined_of(),
            frames: frames_before,
            machine: inputs.machine.name().to_string(),
            edition: inputs.chosen.told(),
            first: format!("{:#x}", given.first),
            before: entry(&given.image, &moved.before),
            after: entry(&target.image(), &moved.after),
            frames_after: target.frames().map(|path| entry(&path, frames)),
            report: of_left(&left.report),
            profile: inputs.profile.map(|profile| profile.name().to_string()),
            trace: of_left(&left.trace),
            moved_frames: moved.frames,
            moved_pointers: moved.pointers,
            moved_registers: moved.changed.len() as u64,
        }
    }

    /// Tells what was done. It is done, whether anybody hears of it or not.
    fn tell(&self, moved: &Moved, target: &Target, left: &Leaves, voice: Voice) {
        let (new_frames, registers) = (target.frames(), moved.changed.len() as u64);
        let trace = left.trace.as_ref();
        let _ = match voice {
            Voice::Text => {
                let frames = count(moved.frames, "frame");
                let pointers = count(moved.pointers, "pointer");
                let changed = match new_frames {
                    Some(_) => format!(", {} changed", count(registers, "register")),
                    None => String::new(),
                };
                let edition = self.inputs.chosen.number();
                let edition = edition.map(|number| format!(", by edition {number}"));
                let (named, edition) = (shown(target.named()), edition.unwrap_or_default());
                let recorded =
                    trace.map(|trace| format!("\n{}: {frames} recorded", shown(trace.path)));
                let recorded = recorded.unwrap_or_default();
                output::line(&format!(
                    "{named}: {frames} moved, {pointers}{changed}{edition}{recorded}"
                ))
            }
            Voice::Json => output::object(&json::Answer::Restored {
                image: &json::name(&self.arguments.given.image),
                output: &json::name(&target.image()),
                new_frames: new_frames.map(|path| json::name(&path)),
                receipt: &json::name(&target.receipt()),
                trace: trace.map(|trace| json::name(trace.path)),
                frames: moved.frames,
                pointers: moved.pointers,
                registers,
                edition: self.inputs.chosen.told(),
                report: left.report.as_ref().map(|left| json::name(left.path)),
            }),
        };
    }
}
