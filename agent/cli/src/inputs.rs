//! What a restore is of: the files that a call names, and what they say.

mod edition;
mod moved;
mod pairs;
mod refused;
mod registers;
pub mod slots;
mod twice;

use crate::frames::{Line, Naming};
use crate::library::{Frame, Registers, Restore};
use crate::lists::{self, Entry};
use crate::moves::Moves;
use crate::numbers::{address, whole};
use crate::profile::Profile;
use crate::registers::Machine;
use crate::trouble::Trouble;
use crate::{files, receipt};
pub use edition::Chosen;
pub use moved::Moved;
use std::path::PathBuf;

/// What every call that moves frames, or tells why, is given.
#[derive(clap::Args)]
pub struct Given {
    /// The stack map section
    #[arg(long, value_name = "FILE")]
    pub section: PathBuf,
    /// The bytes of the stack; at most 1,048,576
    #[arg(long, value_name = "FILE")]
    pub image: PathBuf,
    /// The address of the image's first byte
    #[arg(long, value_name = "ADDRESS", value_parser = address)]
    pub first: u64,
    /// Where the objects of the heap were and are: lines 'OLD NEW', old starts rising; may be said again
    ///
    /// Where the objects were moved several times, each time has its --moves, in order: the frames are then
    /// moved once, by the joined table of all, as 'treskibben join' writes it. That is what the moves one after
    /// the other would do where every pointer's base slot is also listed with itself, and a frame where one
    /// isn't is refused.
    #[arg(long, value_name = "FILE", required = true)]
    pub moves: Vec<PathBuf>,
    /// The stopped frames: lines 'ADDRESS RBP RSP', of version 1 'FUNCTION+OFFSET RBP RSP', and other
    /// registers as 'rbx=VALUE'; on AArch64 X29 and SP stand in place of RBP and RSP
    #[arg(long, value_name = "FILE")]
    pub frames: PathBuf,
    /// The machine that the frames are of [default: the edition's, and without one x86-64]
    ///
    /// Slots on the stack are counted from its frame pointer and its stack pointer: RBP and RSP, or X29
    /// and SP. Slots in registers are the other general registers. A section doesn't say its machine; a pair
    /// with another register is refused by 18, and 33 is said where the edition is for the other machine.
    #[arg(long, value_name = "NAME", value_enum)]
    pub machine: Option<Machine>,
    /// The edition of the store whose settings the moves obey
    ///
    /// 31 is said where there is none of this number, or it is retired; 33 of a section's version or a
    /// machine that it doesn't allow; and 17 of more pointers than it allows. Where no edition is named, 256
    /// pointers are allowed, the machine that is asked for, and versions 1 and 3.
    #[arg(long, value_name = "NUMBER", value_parser = whole, requires = "store")]
    pub edition: Option<u64>,
    /// The store of editions, as 'treskibben edition' keeps it
    #[arg(long, value_name = "FILE", requires = "edition")]
    pub store: Option<PathBuf>,
}

/// All that a call reads but for the image.
pub struct Inputs<'a> {
    pub given: &'a Given,
    pub section: Vec<u8>,
    pub moves: Moves<'a>,
    pub frames_text: Vec<u8>,
    pub naming: Naming,
    pub machine: Machine,
    pub chosen: Chosen<'a>,
    pub lines: Vec<Entry<Line>>,
    /// The profile that the section is held against, if a call asks for it.
    pub profile: Option<Profile>,
}

impl<'a> Inputs<'a> {
    pub fn read(given: &'a Given) -> Result<Inputs<'a>, Trouble> {
        let Given {
            section,
            image,
            moves,
            frames,
            ..
        } = given;
        let others = moves.iter().chain(&given.store);
        files::standard_input_once([section, image, frames].into_iter().chain(others))?;
        let chosen = Chosen::read(given)?;
        let section = files::read(section, files::SECTION)?;
        let moves = Moves::read(moves)?;
        let naming = Naming::of(&section);
        let frames_text = lists::text(frames)?;
        let machine = chosen.machine(given.machine);
        let lines = match machine {
            Some(machine) => naming.read(machine, frames, &frames_text)?,
            // Whose registers the lines name is not known: 31 is said, before a frame is looked at.
            None => Vec::new(),
        };
        Ok(Inputs {
            given,
            section,
            moves,
            frames_text,
            naming,
            machine: machine.unwrap_or_default(),
            chosen,
            lines,
            profile: None,
        })
    }

    /// All that stays the same throughout the restore.
    pub fn restore(&self) -> Restore<'_> {
        Restore {
            edition: self.chosen.edition(),
            section: &self.section,
            first: self.given.first,
            table: &self.moves.table,
            machine: self.machine,
        }
    }

    pub fn frames(&self) -> Vec<Frame> {
        self.lines.iter().map(|entry| entry.value.frame).collect()
    }

    pub fn registers(&self) -> Vec<Registers> {
        let lines = self.lines.iter();
        lines.map(|entry| entry.value.registers).collect()
    }

    /// The files that went in, by the names that a receipt has for them: the section, the moves, the frames.
    pub fn entries(&self) -> [receipt::Entry; 3] {
        let entry = receipt::Entry::of;
        [
            entry(&self.given.section, &self.section),
            self.moves.used(),
            entry(&self.given.frames, &self.frames_text),
        ]
    }
}
