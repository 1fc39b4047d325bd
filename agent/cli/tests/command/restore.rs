//! `restore`: a stack image whose frames are moved, all of them or none.

mod asked_to_end;
mod at_once;
mod dry_run;
mod editions;
mod facts;
mod faults;
pub mod killed;
mod lists;
mod machines;
mod output;
pub mod receipts;
mod refusals;
pub mod registers;
mod reports;
pub mod threads;
mod traced;
mod twice;
mod worked;

use crate::fixtures::{row_h, words};
use crate::run::{Folder, Ran};
use std::process::Command;

/// The files of a restore, and nothing else in their folder; and what is there after one in place.
pub const FILES: [&str; 4] = ["frames", "image", "moves", "section"];
pub const DONE: [&str; 5] = ["frames", "image", RECEIPT, "moves", "section"];
/// The receipt of a restore in place.
pub const RECEIPT: &str = "image.receipt.json";

/// All that a restore is given.
#[derive(Clone)]
pub struct Restore {
    pub section: Vec<u8>,
    pub image: Vec<u8>,
    pub first: u64,
    pub moves: String,
    pub frames: String,
}

impl Restore {
    /// Row I, with bytes in the image that no slot has.
    pub fn row_i() -> Restore {
        Restore {
            section: row_h(),
            image: words(&[0xEEEE_EEEE_EEEE_EEEE, 0x50000, 0x54E20]),
            first: 0x7000,
            moves: "50000 90000\n".to_string(),
            frames: "1020 0 7000\n".to_string(),
        }
    }

    /// Writes the files.
    pub fn put(&self, folder: &Folder) {
        folder.put("section", &self.section);
        folder.put("image", &self.image);
        folder.put("moves", &self.moves);
        folder.put("frames", &self.frames);
    }

    /// Adds the arguments of the call but for where the new image goes.
    pub fn inputs<'a>(&self, command: &'a mut Command) -> &'a mut Command {
        let first = format!("{:x}", self.first);
        command.args(["restore", "--section", "section", "--image", "image"]);
        command.args(["--first", &first, "--moves", "moves", "--frames", "frames"])
    }

    /// Adds the arguments of a call in place.
    pub fn call<'a>(&self, command: &'a mut Command) -> &'a mut Command {
        self.inputs(command).arg("--in-place")
    }

    /// Runs it; the image afterwards comes along. Nothing but a receipt may be left in the folder.
    #[track_caller]
    pub fn run(&self) -> (Ran, Vec<u8>) {
        let folder = Folder::new();
        self.put(&folder);
        let ran = Ran::of(self.call(&mut folder.command()));
        match ran.status {
            Some(0) => assert_eq!(folder.names(), DONE),
            _ => assert_eq!(folder.names(), FILES),
        }
        for (name, bytes) in [
            ("section", &self.section[..]),
            ("moves", self.moves.as_bytes()),
        ] {
            assert!(folder.get(name) == bytes, "{name} has changed");
        }
        (ran, folder.get("image"))
    }

    /// The image after a restore that is accepted, with what it says of frames and pointers.
    #[track_caller]
    pub fn done(&self, says: &str) -> Vec<u8> {
        let (ran, image) = self.run();
        ran.done(&format!("image: {says}\n"));
        image
    }

    /// A restore that is refused: the image must be as it was. Gives the line without number and place.
    #[track_caller]
    pub fn refused(&self, number: u64, place: u64) -> String {
        let (ran, image) = self.run();
        assert!(image == self.image, "the image has changed");
        assert_eq!((ran.status, ran.text()), (Some(1), ""), "{}", ran.err);
        let lines: Vec<&str> = ran.err.lines().collect();
        assert_eq!(lines.len(), 2, "{}", ran.err);
        assert_eq!(lines[1], "image: is as it was");
        let answer = format!(": refused {number} at {place}: ");
        assert!(lines[0].contains(&answer), "{}", ran.err);
        lines[0].replacen(&answer, ": ", 1)
    }

    /// A restore that fails: the image must be as it was.
    #[track_caller]
    pub fn failed(&self, start: &str, words: &str) {
        let (ran, image) = self.run();
        assert!(image == self.image, "the image has changed");
        ran.failed(start, words);
    }
}
