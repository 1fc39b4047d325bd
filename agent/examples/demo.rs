//! Looks at section files. Each that its arguments name is checked; after `--at ADDRESS` the next file
//! is asked instead which record has that address and what it says, after `--listing` it is
//! converted to its listing and back, and after `--move ADDRESS` a sample frame is moved that stands
//! at the record with that address. A file of version 1 is asked with `FUNCTION+OFFSET` in place of
//! the address. `--tour DIR` shows all of that on the sample files of a folder, under headings.
//!
//! The exit status is 0 where everything was accepted, 1 where something was refused, and 2 where the
//! call is wrong or a file cannot be read.

#[path = "demo/listing.rs"]
mod listing;
#[path = "demo/record.rs"]
mod record;
#[path = "demo/tour.rs"]
mod tour;

use record::Place;
use std::env;
use std::ffi::OsString;
use std::fs;
use std::io::{self, Write};
use std::path::Path;
use std::process::ExitCode;
use treskibben::Refusal;

const USAGE: &str = "\
usage: demo [--at ADDRESS | --listing | --move ADDRESS] FILE ..
Each file has the bytes of one stack map section. It is checked, or asked for the
record at the address that stands before it, or listed, or a sample frame is moved
that stands there. For version 1, FUNCTION+OFFSET is the address.
Exit status: 0 accepted, 1 refused, 2 a wrong call or a file that cannot be read.
";

/// What is done with a file: the check, the question by this place, both conversions, or the move of
/// a frame there.
enum Task {
    Check,
    Find(Place),
    List,
    Move(Place),
}

/// The files in order, each with its task; `None` where there is no file or a place is wrong.
fn tasks(arguments: impl Iterator<Item = OsString>) -> Option<Vec<(Task, OsString)>> {
    let mut arguments = arguments.peekable();
    arguments.peek()?;
    let mut tasks = Vec::new();
    while let Some(argument) = arguments.next() {
        let mut place = || Place::of(&arguments.next()?);
        let task = match argument.to_str() {
            Some("--at") => Task::Find(place()?),
            Some("--move") => Task::Move(place()?),
            Some("--listing") => Task::List,
            Some(option) if option.starts_with("--") => return None,
            _ => {
                tasks.push((Task::Check, argument));
                continue;
            }
        };
        tasks.push((task, arguments.next()?));
    }
    Some(tasks)
}

/// What there is to say of a section.
fn answer(task: &Task, section: &[u8]) -> Result<String, Refusal> {
    match task {
        Task::Check => treskibben::check(section).map(|()| "accepted".to_string()),
        Task::Find(place) => record::describe(section, place),
        Task::List => listing::describe(section),
        Task::Move(place) => record::moved(section, place, &record::TABLE),
    }
}

/// Writes a text, whose reader may have gone away.
fn show(text: &str) {
    let _ = io::stdout().write_all(text.as_bytes());
}

/// Looks at one file, and gives the exit status for it.
fn look_at(task: &Task, file: &Path) -> u8 {
    let name = file.display();
    let section = match fs::read(file) {
        Ok(section) => section,
        Err(error) => {
            eprintln!("{name}: cannot be read: {error}");
            return 2;
        }
    };
    let place = match task {
        Task::Find(place) | Task::Move(place) => format!(" at {place}"),
        Task::Check | Task::List => String::new(),
    };
    let answer = answer(task, &section);
    let status = u8::from(answer.is_err());
    let text = answer.unwrap_or_else(|refusal| refusal.to_string());
    show(&format!("{name}{place}: {text}\n"));
    status
}

fn main() -> ExitCode {
    let arguments: Vec<OsString> = env::args_os().skip(1).collect();
    let words: Vec<_> = arguments.iter().map(|word| word.to_str()).collect();
    match words[..] {
        [Some("--help" | "-h"), ..] => {
            show(USAGE);
            return ExitCode::SUCCESS;
        }
        [Some("--tour"), Some(folder)] => return tour::show(Path::new(folder)),
        _ => (),
    }
    let Some(tasks) = tasks(arguments.into_iter()) else {
        eprint!("{USAGE}");
        return ExitCode::from(2);
    };
    let worst = tasks
        .iter()
        .map(|(task, file)| look_at(task, Path::new(file)));
    ExitCode::from(worst.max().unwrap_or(0))
}
