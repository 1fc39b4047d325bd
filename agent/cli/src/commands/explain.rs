//! `explain`: why each slot of a frame or of a whole thread moves, or stays.

use crate::explain::{objects, text, Report};
use crate::inputs::{Given, Inputs};
use crate::numbers::{count, whole};
use crate::trouble::{Status, Trouble, Voice};
use crate::{files, found, library, listing, output};

/// Tell why each slot of stopped frames moves or stays, and write nothing
///
/// Given the same as a restore, it tells of each slot where it is, what it holds, which object it moves
/// with, from where to where, what it will hold, and why. The whole thread is told, or with --frame one
/// frame of it, or with --slot one slot of that frame. A slot is listed as a pointer of a statepoint, or
/// it is the base of one:
///
/// moved: derived from the start of an object, and goes with it; null base: derived from a base of 0, and
/// stays; only a base: no pointer is derived there, and it stays; unlisted: no pointer's slot.
///
/// What a restore refuses is refused here too, by the same number. With --frame the place of 18 to 21 is
/// the pair, as in the move of one frame, and other frames are not looked at.
#[derive(clap::Args)]
#[command(override_usage = USAGE)]
pub struct Arguments {
    #[command(flatten)]
    given: Given,
    /// Tell of one frame only: its position in the list, counted from 0
    #[arg(long, value_name = "POSITION", value_parser = whole)]
    frame: Option<u64>,
    /// Tell of one slot of the frame only: an address, a register, or a distance from one
    ///
    /// 7010 is the address of its first byte, rbx is a register, and rsp+10 is what RSP holds plus 0x10. Any
    /// slot may be asked for, listed or not.
    #[arg(
        long,
        value_name = "SLOT",
        requires = "frame",
        allow_hyphen_values = true
    )]
    slot: Option<String>,
    /// For programs: one JSON object a line
    #[arg(long)]
    pub json: bool,
}

const USAGE: &str = "\
treskibben explain --section FILE --image FILE --first ADDRESS
           --moves FILE [--moves FILE..] --frames FILE
           [--frame POSITION [--slot SLOT]] [OPTIONS]";

pub fn run(arguments: &Arguments, voice: Voice) -> Result<Status, Trouble> {
    let given = &arguments.given;
    let inputs = Inputs::read(given)?;
    let image = files::read(&given.image, files::IMAGE)?;
    if listing::all_at_zero([&inputs.section[..]]) && library::check(&inputs.section).is_ok() {
        found::warn_of_zeros(&given.section, voice);
    }
    let Some(frame) = arguments.frame else {
        let moved = inputs.move_frames(image)?;
        let report = Report::of_thread(&inputs, &moved)?;
        return tell(&report, voice);
    };
    let position = position(&inputs, frame, &image)?;
    let report = Report::of_frame(&inputs, position, &image)?;
    let Some(slot) = &arguments.slot else {
        return tell(&report, voice);
    };
    let slot = report.asked(slot, &image)?;
    output::to(None, |out| match voice {
        Voice::Text => text::slot(out, &inputs, position, &slot),
        Voice::Json => objects::slot(out, &inputs, position, &slot),
    })?;
    Ok(Status::Done)
}

/// The position of a frame that is in the list. Where there is none, what every frame shares is looked at
/// first.
fn position(inputs: &Inputs, frame: u64, image: &[u8]) -> Result<usize, Trouble> {
    let frames = inputs.lines.len();
    let position = usize::try_from(frame).ok();
    if let Some(position) = position.filter(|position| *position < frames) {
        return Ok(position);
    }
    let shared = inputs.restore().explain_thread(image, &[], &[]);
    shared.map_err(|(refusal, _)| inputs.refused(refusal, None, image))?;
    let why = format!("it has {}, counted from 0", count(frames as u64, "frame"));
    let what = format!("has no frame {frame}");
    Err(Trouble::file(&inputs.given.frames, &what, why))
}

/// Writes a report to standard output.
pub fn tell(report: &Report, voice: Voice) -> Result<Status, Trouble> {
    output::to(None, |out| match voice {
        Voice::Text => text::report(out, report),
        Voice::Json => objects::report(out, report),
    })?;
    Ok(Status::Done)
}
