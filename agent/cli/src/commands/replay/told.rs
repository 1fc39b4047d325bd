//! What a replay tells: whether the answers are the same, and the image.

use super::Replay;
use crate::files;
use crate::found::length;
use crate::library::{self, Difference};
use crate::names::shown;
use crate::numbers::count;
use crate::trace::objects::{Answer, Frame, Told};
use crate::trace::text;
use crate::trouble::{Status, Trouble, Voice};
use crate::{json, output};
use std::path::Path;

/// The status of what was told: it is the same whether anybody reads that or not.
fn told(written: Result<(), Trouble>, status: Status) -> Result<Status, Trouble> {
    match written {
        Ok(()) | Err(Trouble::Closed) => Ok(status),
        Err(trouble) => Err(trouble),
    }
}

impl Replay<'_> {
    /// Every answer is the recorded one.
    pub fn tell_same(&self, voice: Voice) -> Result<Status, Trouble> {
        let (file, answers) = (&self.arguments.trace, self.steps.len());
        let written = match voice {
            Voice::Text => {
                let answers = count(answers as u64, "answer");
                output::line(&format!("{}: same, {answers}", shown(file)))
            }
            Voice::Json => output::object(&Answer::Same {
                file: &json::name(file),
                answers,
            }),
        };
        told(written, Status::Done)
    }

    /// The first answer that differs: its frame, what is recorded and what is answered now.
    pub fn tell_difference(
        &mut self,
        differs: Difference,
        voice: Voice,
    ) -> Result<Status, Trouble> {
        let number = usize::try_from(differs.item).unwrap_or(usize::MAX);
        let refusal = library::outcome(differs.now).err();
        let found = refusal.map(|refusal| self.found(number, refusal));
        let found = found.transpose()?.flatten();
        let found = found.as_deref();
        let (file, step) = (&self.arguments.trace, &self.steps[number]);
        let answers = self.steps.len();
        let written = match voice {
            Voice::Text => output::to(None, |out| {
                let name = shown(file);
                writeln!(out, "{name}: differs in answer {number} of {answers}")?;
                text::frame(out, number, step, Some(self.inputs.naming))?;
                writeln!(out, "  recorded: {}", text::answer(step.answer, None))?;
                writeln!(out, "  now: {}", text::answer(differs.now, found))
            }),
            Voice::Json => output::object(&Answer::Differs {
                file: &json::name(file),
                answers,
                item: differs.item,
                frame: Frame::of(number, step),
                recorded: Told::of(step.answer, None),
                now: Told::of(differs.now, found),
            }),
        };
        told(written, Status::Refused)
    }

    /// Whether a restored image is what the replay leaves.
    pub fn tell_image(
        &self,
        path: &Path,
        restored: &[u8],
        left: &[u8],
        voice: Voice,
    ) -> Result<Status, Trouble> {
        let (name, file) = (shown(path), &json::name(path));
        let Some((byte, found)) = self.other_byte(path, restored, left) else {
            let bytes = left.len();
            let written = match voice {
                Voice::Text => {
                    let bytes = count(bytes as u64, "byte");
                    output::line(&format!("{name}: same, {bytes}"))
                }
                Voice::Json => output::object(&Answer::SameImage { file, bytes }),
            };
            return told(written, Status::Done);
        };
        let found = &found;
        let written = match voice {
            Voice::Text => output::line(&format!("{name}: differs: {found}")),
            Voice::Json => output::object(&Answer::OtherImage { file, byte, found }),
        };
        told(written, Status::Refused)
    }

    /// The first byte of an image that is another than the replay leaves, or their lengths.
    fn other_byte(
        &self,
        path: &Path,
        restored: &[u8],
        left: &[u8],
    ) -> Option<(Option<usize>, String)> {
        if restored.len() != left.len() {
            let length = length(path, restored, files::IMAGE);
            let left = left.len();
            let found = format!("it has {length}, and the replay leaves {left}");
            return Some((None, found));
        }
        let mut both = restored.iter().zip(left);
        let byte = both.position(|(one, other)| one != other)?;
        let (is, left) = (restored[byte], left[byte]);
        let address = self.arguments.first.wrapping_add(byte as u64);
        let found = format!(
            "byte {byte}, at address {address:#x}, is {is:#04x}, and the replay leaves {left:#04x}"
        );
        Some((Some(byte), found))
    }
}
