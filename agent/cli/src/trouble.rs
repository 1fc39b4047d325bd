//! What went wrong, and how it is said.

use crate::json;
use crate::library::Refusal;
use crate::names::shown;
use crate::{output, system};
use nix::sys::signal::Signal;
use std::fmt::Display;
use std::io::{self, Write};
use std::path::{Path, PathBuf};
use std::process::ExitCode;

/// How a command tells what it finds.
#[derive(Clone, Copy, Debug, PartialEq, Eq)]
pub enum Voice {
    /// In words: answers on standard output, the rest on standard error.
    Text,
    /// All on standard output, one JSON object a line.
    Json,
}

/// How a command ended. The later ones outweigh the earlier.
#[derive(Clone, Copy, Debug, PartialEq, Eq, PartialOrd, Ord)]
pub enum Status {
    /// All is done.
    Done,
    /// Something was refused.
    Refused,
    /// The call was wrong, or a file could not be read or written.
    Failed,
}

impl From<Status> for ExitCode {
    fn from(status: Status) -> ExitCode {
        ExitCode::from(match status {
            Status::Done => 0,
            Status::Refused => 1,
            Status::Failed => 2,
        })
    }
}

/// What was refused, by the library or by the command itself.
#[derive(Debug, Default)]
pub struct Refused {
    /// The file at fault.
    pub file: PathBuf,
    /// The line in it, if it is a list.
    pub line: Option<usize>,
    /// The frame at fault, by its position in the list, and the pair, if it is one.
    pub frame: Option<u64>,
    pub pair: Option<u64>,
    /// The part of a file that is cut: its number and its first byte.
    pub part: Option<(u64, u64)>,
    /// The map of a linked section, where it isn't the first: its number and its first byte.
    pub map: Option<(u64, u64)>,
    /// The library's number and place; none where the command itself refuses.
    pub answer: Option<(u64, u64)>,
    pub cause: String,
    /// What was found, which the number doesn't tell.
    pub found: Option<String>,
}

/// A file that cannot be read or written, or a line in it that cannot be understood.
#[derive(Debug)]
pub struct Fault {
    /// The file; none of standard output.
    pub file: Option<PathBuf>,
    pub line: Option<usize>,
    pub error: String,
}

/// Why a command could not do what it was asked.
#[derive(Debug)]
pub enum Trouble {
    /// Something was refused.
    Refused(Box<Refused>),
    /// Something is wrong with a file.
    File(Fault),
    /// A call that the command does not know.
    Usage(String),
    /// Whoever reads standard output wants no more.
    Closed,
    /// A signal asked for the end.
    Interrupted(Signal, String),
}

impl Trouble {
    /// A refusal of a file by the library.
    pub fn refused(file: &Path, refusal: Refusal, found: Option<String>) -> Trouble {
        Trouble::Refused(Box::new(Refused {
            file: file.to_path_buf(),
            answer: Some((refusal.number, refusal.place)),
            cause: refusal.cause.to_string(),
            found,
            ..Refused::default()
        }))
    }

    /// A refusal of a file by the command itself.
    pub fn declined(file: &Path, cause: &str, found: String) -> Trouble {
        Trouble::Refused(Box::new(Refused {
            file: file.to_path_buf(),
            cause: cause.to_string(),
            found: Some(found),
            ..Refused::default()
        }))
    }

    /// A file, what cannot be done with it, and why.
    pub fn file(path: &Path, what: &str, why: impl Display) -> Trouble {
        Trouble::File(Fault {
            file: Some(path.to_path_buf()),
            line: None,
            error: format!("{what}: {why}"),
        })
    }

    /// A line of a file that cannot be understood.
    pub fn line(path: &Path, line: usize, error: String) -> Trouble {
        Trouble::File(Fault {
            file: Some(path.to_path_buf()),
            line: Some(line),
            error,
        })
    }

    /// An error in writing standard output.
    pub fn output(error: io::Error) -> Trouble {
        match error.kind() {
            io::ErrorKind::BrokenPipe => Trouble::Closed,
            _ => Trouble::File(Fault {
                file: None,
                line: None,
                error: format!("standard output: cannot be written: {error}"),
            }),
        }
    }

    /// Says it, and gives the status. A signal ends the program here.
    pub fn tell(&self, voice: Voice) -> Status {
        match (self, voice) {
            (Trouble::Refused(refused), Voice::Text) => {
                say(&refused.line());
                Status::Refused
            }
            (Trouble::Refused(refused), Voice::Json) => {
                tell_object(&json::Answer::refused(refused), Status::Refused)
            }
            (Trouble::File(fault), Voice::Json) => {
                tell_object(&json::Answer::failed(fault), Status::Failed)
            }
            (Trouble::File(fault), Voice::Text) => {
                say(&format!("treskibben: {}", fault.words()));
                Status::Failed
            }
            (Trouble::Usage(words), _) => {
                say(&format!("treskibben: {words}"));
                Status::Failed
            }
            (Trouble::Closed, _) => Status::Done,
            (Trouble::Interrupted(signal, words), _) => {
                say(&format!("treskibben: {words}"));
                system::end_by(*signal);
                Status::Failed
            }
        }
    }
}

impl Fault {
    fn words(&self) -> String {
        let file = place(self.file.as_deref(), self.line);
        format!("{file}{}", self.error)
    }
}

/// A file and a line in it, before what is said of them.
pub fn place(file: Option<&Path>, line: Option<usize>) -> String {
    match (file.map(shown), line) {
        (Some(file), Some(line)) => format!("{file}:{line}: "),
        (Some(file), None) => format!("{file}: "),
        _ => String::new(),
    }
}

impl Refused {
    /// All of it on one line, which begins with the file.
    fn line(&self) -> String {
        let file = place(Some(&self.file), self.line);
        let answer = self
            .answer
            .map(|(number, place)| format!(" {number} at {place}"));
        let found = self.found.as_ref().map(|found| format!("; {found}"));
        format!(
            "{file}refused{}: {}{}",
            answer.unwrap_or_default(),
            self.cause,
            found.unwrap_or_default()
        )
    }
}

/// Writes an object for programs, and gives the status; where it cannot be written, says why.
fn tell_object(answer: &json::Answer, status: Status) -> Status {
    match output::object(answer) {
        Err(Trouble::File(fault)) => {
            say(&format!("treskibben: {}", fault.words()));
            Status::Failed
        }
        _ => status,
    }
}

/// Writes a text and a newline to standard error. Nobody is left to be told where that fails.
pub fn say(text: &str) {
    let _ = io::stderr().write_all(format!("{text}\n").as_bytes());
}
