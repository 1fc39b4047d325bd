//! The frames moved, on copies of the image and of their registers.

use super::Inputs;
use crate::library::Registers;
use crate::profile::Profile;
use crate::trouble::Trouble;

/// An image that was moved, and the registers of its frames.
pub struct Moved {
    pub before: Vec<u8>,
    pub after: Vec<u8>,
    pub registers: Vec<Registers>,
    /// The list of the frames after the move.
    pub frames_after: String,
    /// The registers that hold another number than before.
    pub changed: Vec<Changed>,
    pub frames: u64,
    pub pointers: u64,
}

/// A register that holds another number than before.
pub struct Changed {
    /// The position of its frame.
    pub frame: usize,
    pub register: u16,
    pub now: u64,
}

impl Inputs<'_> {
    /// Moves all frames on copies of the image and of their registers, or says why not.
    pub fn move_frames(&self, before: Vec<u8>) -> Result<Moved, Trouble> {
        let frames = self.frames();
        let (mut after, mut registers) = (before.clone(), self.registers());
        let restore = self.restore();
        let (image, own) = (&mut after, &mut registers);
        let moved = match self.profile {
            None => restore.relocate_thread(image, &frames, own),
            Some(Profile::Bench) => restore.relocate_thread_in_profile(image, &frames, own),
        };
        if !matches!(moved, Err((_, None))) {
            self.all_told(0..frames.len())?;
        }
        let pointers =
            moved.map_err(|(refusal, position)| self.refused(refusal, position, &before))?;
        self.one_for_all(0..frames.len())?;
        Ok(Moved {
            frames_after: self.naming.text(self.machine, &self.lines, &registers),
            changed: self.changed(&registers),
            before,
            after,
            registers,
            frames: frames.len() as u64,
            pointers,
        })
    }

    /// The registers that hold another number than before.
    fn changed(&self, after: &[Registers]) -> Vec<Changed> {
        let lines = self.lines.iter().zip(after).enumerate();
        let of_frame = |(frame, (before, after)): (usize, (&Registers, &Registers))| {
            let both = (0..).zip(before.iter().zip(after));
            let changed = both.filter(|(_, (before, now))| before != now);
            let changed = changed.map(|(register, (_, &now))| Changed {
                frame,
                register,
                now,
            });
            changed.collect::<Vec<Changed>>()
        };
        let lines = lines.map(|(frame, (entry, after))| (frame, (&entry.value.registers, after)));
        lines.flat_map(of_frame).collect()
    }
}
