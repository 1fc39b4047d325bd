//! The list of stopped frames. Where a frame stands is told by an address or, for a section of version
//! 1, by the number of its function and an offset: each version has lines of its own. What its registers hold
//! is told by their names; the frame pointer and the stack pointer may stand without, as the first two numbers.

use crate::found::not_in_function;
use crate::library::{self, Frame, Registers};
use crate::lists::{is_not, number, read, Entry, Form};
use crate::numbers::{count, in_function};
use crate::registers::Machine;
use crate::trouble::Trouble;
use std::path::Path;

#[cfg(test)]
mod tests;

/// How a section names the place of a frame.
#[derive(Clone, Copy, Debug, PartialEq, Eq)]
pub enum Naming {
    Address,
    InFunction,
}

/// A line of the list.
#[derive(Clone, Copy, Debug, PartialEq, Eq)]
pub struct Line {
    pub frame: Frame,
    /// What the registers hold, by their numbers; 0 where the line doesn't tell it.
    pub registers: Registers,
    /// Which registers the line tells: a bit for each.
    told: u32,
    /// How many of them stand there without a name.
    unnamed: usize,
}

impl Default for Line {
    fn default() -> Line {
        Line {
            frame: Frame::new(0),
            registers: Registers::default(),
            told: 0,
            unnamed: 0,
        }
    }
}

impl Line {
    /// A frame that stands in no list, with all its registers.
    pub fn of(frame: Frame, registers: Registers) -> Line {
        Line {
            frame,
            registers,
            told: u32::MAX,
            unnamed: 0,
        }
    }

    /// Whether the line tells what a register holds.
    pub fn tells(&self, register: u16) -> bool {
        self.told.checked_shr(register.into()).unwrap_or(0) & 1 == 1
    }

    fn tell(&mut self, register: u16, content: u64) {
        self.told |= 1 << register;
        self.registers[usize::from(register)] = content;
    }
}

/// What a line looks like, by the section's version and the machine.
struct Lines(Naming, Machine);

impl Form for Lines {
    type Value = Line;

    fn names(&self) -> String {
        format!("{} [REGISTER=VALUE..]", self.first_names())
    }

    fn take(&self, line: &mut Line, nth: usize, word: &[u8]) -> Result<(), String> {
        let Lines(naming, machine) = *self;
        if nth == 0 {
            line.frame = naming.place(word)?;
            return Ok(());
        }
        let (register, content) = match word.iter().position(|byte| *byte == b'=') {
            Some(equals) => {
                let name = &word[..equals];
                let what = format!("a register of {}", machine.name());
                let register = machine.named(name).ok_or_else(|| is_not(name, &what))?;
                (register, number(&word[equals + 1..])?)
            }
            None => {
                let content = number(word)?;
                let Some(register) = library::pointers_of(machine).get(line.unnamed).copied()
                else {
                    line.unnamed += 1;
                    return Ok(());
                };
                line.unnamed += 1;
                (register, content)
            }
        };
        if line.tells(register) {
            return Err(format!("{} is told twice", machine.register(register)));
        }
        line.tell(register, content);
        Ok(())
    }

    /// A line has two numbers without a name, or none and names the two pointers.
    fn whole(&self, line: &Line, words: usize) -> Result<(), String> {
        let Lines(_, machine) = *self;
        if line.unnamed != 2 && (line.unnamed != 0 || words == 1) {
            return Err(count(1 + line.unnamed as u64, "word"));
        }
        let mut pointers = library::pointers_of(machine).into_iter();
        match pointers.find(|pointer| !line.tells(*pointer)) {
            Some(pointer) => Err(format!("{} is not told", machine.register(pointer))),
            None => Ok(()),
        }
    }
}

impl Lines {
    /// The names of the words that stand without one.
    fn first_names(&self) -> String {
        let Lines(naming, machine) = *self;
        let place = match naming {
            Naming::Address => "ADDRESS",
            Naming::InFunction => "FUNCTION+OFFSET",
        };
        let [of_frame, of_stack] = library::pointers_of(machine).map(|one| machine.register(one));
        format!("{place} {of_frame} {of_stack}")
    }
}

impl Naming {
    /// The naming of a section, which its first byte, the version, decides. Whether it is a section at all
    /// is not asked here.
    pub fn of(section: &[u8]) -> Naming {
        match section.first() {
            Some(1) => Naming::InFunction,
            _ => Naming::Address,
        }
    }

    /// The frames of a list.
    pub fn read(
        self,
        machine: Machine,
        path: &Path,
        text: &[u8],
    ) -> Result<Vec<Entry<Line>>, Trouble> {
        read(path, text, &Lines(self, machine))
    }

    /// The frame whose place a word tells.
    fn place(self, word: &[u8]) -> Result<Frame, String> {
        match self {
            Naming::Address => Ok(Frame::new(number(word)?)),
            Naming::InFunction => {
                let what = "a function's decimal number, '+' and a hexadecimal offset";
                let (function, offset) = in_function(word).ok_or_else(|| is_not(word, what))?;
                Ok(Frame::in_function(function, offset))
            }
        }
    }

    /// The list of frames whose registers hold these now: what every line tells, in the form that
    /// [`read`](Naming::read) takes.
    pub fn text(self, machine: Machine, lines: &[Entry<Line>], registers: &[Registers]) -> String {
        let names = Lines(self, machine).first_names();
        let mut text = format!("# The frames after the move: {names} REGISTER=VALUE..\n");
        for (Entry { value: line, .. }, now) in lines.iter().zip(registers) {
            let Frame { address, function } = line.frame;
            text += &match self {
                Naming::Address => format!("{address:#x}"),
                Naming::InFunction => format!("{function}+{address:#x}"),
            };
            let content = |register: u16| now[usize::from(register)];
            let pointers = library::pointers_of(machine);
            for pointer in pointers {
                text += &format!(" {:#x}", content(pointer));
            }
            let told = |register: &u16| line.tells(*register) && !pointers.contains(register);
            for register in machine.of_frames().filter(told) {
                let name = machine.register(register).to_lowercase();
                text += &format!(" {name}={:#x}", content(register));
            }
            text.push('\n');
        }
        text
    }

    /// What 10 found of a frame, as it was read.
    pub fn not_there(self, section: &[u8], frame: &Frame) -> String {
        match self {
            Naming::Address => format!("no record at address {:#x}", frame.address),
            Naming::InFunction => not_in_function(section, frame.function, frame.address),
        }
    }

    /// A frame in words, with the machine's names of its two pointers.
    pub fn words(self, machine: Machine, line: &Line) -> String {
        let Frame { address, function } = line.frame;
        let place = match self {
            Naming::Address => format!("address {address:#x}"),
            Naming::InFunction => format!("function {function}, offset {address:#x}"),
        };
        let pointer = |register: u16| {
            let content = line.registers[usize::from(register)];
            format!("{} {content:#x}", machine.register(register))
        };
        let [of_frame, of_stack] = library::pointers_of(machine).map(pointer);
        format!("{place}, {of_frame}, {of_stack}")
    }
}
