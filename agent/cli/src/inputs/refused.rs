//! What is said of a restore that the library refuses.

use super::Inputs;
use crate::found::{self, Sizes};
use crate::frames::Line;
use crate::library::{self, Refusal};
use crate::numbers::count;
use crate::profile;
use crate::trouble::{place, Refused, Trouble};

/// How the frames of several maps are moved.
const BY_MAPS: &str = "the frames of each map have a call of their own, a restore on the image of the one before with --again";

impl Inputs<'_> {
    /// The refusal of a frame, by its position, or of what all frames share.
    pub fn refused(&self, refusal: Refusal, position: Option<usize>, image: &[u8]) -> Trouble {
        let refused = match position {
            Some(position) => self.of_frame(refusal, position, image),
            None => self.of_file(refusal, image),
        };
        Trouble::Refused(Box::new(Refused {
            answer: Some((refusal.number, refusal.place)),
            cause: refusal.cause.to_string(),
            ..refused
        }))
    }

    /// The refusal of a frame that was asked for by itself, at this position.
    pub fn refused_alone(&self, refusal: Refusal, position: usize, image: &[u8]) -> Trouble {
        let position = refusal.is_of_frame().then_some(position);
        self.refused(refusal, position, image)
    }

    /// What was found of a frame that was moved by itself, at this position; of what all frames share with the
    /// file that is at fault.
    pub fn found_alone(&self, refusal: Refusal, position: usize, image: &[u8]) -> Option<String> {
        if refusal.is_of_frame() {
            let line = &self.lines.get(position)?.value;
            return self.at_line(refusal.number, line, Some(refusal.place), image);
        }
        let refused = self.of_file(refusal, image);
        let file = place(Some(&refused.file), refused.line);
        Some(format!("{file}{}", refused.found?))
    }

    /// The file and, of 14, the line in it.
    fn of_file(&self, refusal: Refusal, image: &[u8]) -> Refused {
        let given = self.given;
        let (file, found) = match refusal.number {
            13 => {
                let found = found::of_image(&given.image, image, given.first);
                (&given.image, Some(found))
            }
            14 => return self.moves.at_fault(),
            25 => {
                let frames = count(self.lines.len() as u64, "frame");
                (&given.frames, Some(format!("it has {frames}")))
            }
            50 => match profile::of_machine(self.naming, self.machine) {
                Some(found) => (&given.frames, Some(found)),
                None => {
                    let found = profile::of_section(&self.section, refusal.place);
                    (&given.section, found)
                }
            },
            9 => {
                let found = found::of_section(&given.section, &self.section, refusal);
                (&given.section, found.map(|found| self.by_maps(found)))
            }
            31 => return self.of_edition(Some(self.chosen.unknown())),
            33 => return self.of_edition(self.chosen.not_allowed(&self.section, self.machine)),
            _ => {
                let found = found::of_section(&given.section, &self.section, refusal);
                (&given.section, found)
            }
        };
        Refused {
            file: file.clone(),
            found,
            ..Refused::default()
        }
    }

    /// What was found of a linked section, and how its frames are moved.
    fn by_maps(&self, found: String) -> String {
        match library::maps(&self.section) {
            Ok(_) => format!("{found}; {BY_MAPS}"),
            Err(_) => found,
        }
    }

    /// The store of the edition, and what was found.
    fn of_edition(&self, found: Option<String>) -> Refused {
        let store = self.chosen.file().unwrap_or(&self.given.section);
        Refused {
            file: store.to_path_buf(),
            found,
            ..Refused::default()
        }
    }

    /// A frame of the list: its line, the pair at fault, and what was found there.
    fn of_frame(&self, refusal: Refusal, position: usize, image: &[u8]) -> Refused {
        let line = &self.lines[position].value;
        let (frame, registers) = (line.frame, line.registers);
        let pair = self.restore().pair_at_fault(image, frame, registers);
        let more = match refusal.number {
            26 => self.sizes().shared(&self.lines, position).map(|earlier| {
                let line = self.lines[earlier].line;
                format!("it is shared with frame {earlier} of line {line}")
            }),
            number => self.at_line(number, line, pair, image),
        };
        self.at_frame(position, pair, more)
    }

    /// What was found where a frame is refused by itself; the pair is that of 18 to 21.
    fn at_line(&self, number: u64, line: &Line, pair: Option<u64>, image: &[u8]) -> Option<String> {
        match number {
            10 => Some(self.naming.not_there(&self.section, &line.frame)),
            16 => {
                let first = self.given.first;
                self.sizes().outside(line, first, image.len())
            }
            number => self.at_pair(number, line, pair, image),
        }
    }

    /// The stack sizes that the frames stand in.
    pub fn sizes(&self) -> Sizes<'_> {
        Sizes::of(&self.section, self.naming, self.machine)
    }

    /// What is said of a frame of the list: its line, the pair at fault, and what more was found.
    pub fn at_frame(&self, position: usize, pair: Option<u64>, more: Option<String>) -> Refused {
        let entry = &self.lines[position];
        let more = more.map(|more| format!(": {more}")).unwrap_or_default();
        let words = self.naming.words(self.machine, &entry.value);
        Refused {
            file: self.given.frames.clone(),
            line: Some(entry.line),
            frame: Some(position as u64),
            pair,
            found: Some(format!("frame {position} ({words}){more}")),
            ..Refused::default()
        }
    }
}
