//! `trace`: what a trace of a restore says, for people or for programs.

use crate::trace::objects::{Answer, Frame, Told};
use crate::trace::{self, text};
use crate::trouble::{Status, Trouble, Voice};
use crate::{json, output};
use std::io::{self, Write};
use std::path::PathBuf;

/// Tell what a trace says: each frame, its registers, and its answer
///
/// 'restore --trace' writes one. 35 is said of a file that is none, or a broken one, with the place of the first bad
/// item and what stands there. Whether the answers are right is what 'replay' tells.
#[derive(clap::Args)]
#[command(group = clap::ArgGroup::new("readable").args(["text", "json"]))]
pub struct Arguments {
    /// The trace
    #[arg(value_name = "TRACE")]
    file: PathBuf,
    /// For people: machine, address and function of each frame, its registers that are not 0, and its answer
    /// in words; so it is unless --json is said
    #[arg(long)]
    text: bool,
    /// For programs: one JSON object a line
    #[arg(long)]
    pub json: bool,
}

pub fn run(arguments: &Arguments, voice: Voice) -> Result<Status, Trouble> {
    let file = &arguments.file;
    let bytes = trace::read(file)?;
    let steps = trace::steps(file, &bytes)?;
    output::to(None, |out| match voice {
        Voice::Text => text::trace(out, bytes.len(), &steps),
        Voice::Json => {
            let head = Answer::Trace {
                file: &json::name(file),
                bytes: bytes.len(),
                frames: steps.len(),
            };
            write(out, &head)?;
            let mut steps = steps.iter().enumerate();
            steps.try_for_each(|(number, step)| {
                let object = Answer::Recorded {
                    frame: Frame::of(number, step),
                    recorded: Told::of(step.answer, None),
                };
                write(out, &object)
            })
        }
    })?;
    Ok(Status::Done)
}

/// Writes an object on a line of its own.
fn write(out: &mut dyn Write, object: &Answer) -> io::Result<()> {
    serde_json::to_writer(&mut *out, object)?;
    out.write_all(b"\n")
}
