//! All that the library does, shown on the sample files, under headings.

use crate::record::{Place, OTHER_TABLE, TABLE};
use crate::{listing, record};
use std::fs;
use std::io;
use std::path::Path;
use std::process::ExitCode;
use treskibben::Refusal;

/// The sample with a statepoint, and the same in version 1.
const STATEPOINT: &str = "h-statepoint.section";
const OLDER: &str = "h-version-1.section";

/// Where their records are.
const AT: Place = Place::At(0x1020);
const OLDER_AT: Place = Place::In(0, 0x20);

/// The headings, numbered on from the live restore, which `./demo` shows first.
const HEADINGS: [&str; 5] = [
    "2. Sections are checked: accepted, or refused with a number, a place and the cause",
    "3. The record of a stopped call is found by the address it returns to",
    "4. One frame is moved, or refused without a changed byte",
    "5. A section is written as a listing, and made from it again",
    "6. Version 1 of the format: a function's number and an offset name the record",
];

/// An answer, or the refusal in words.
fn told(answer: Result<String, Refusal>) -> String {
    answer.unwrap_or_else(|refusal| refusal.to_string())
}

/// The verdicts on the sample sections, one to a line.
fn verdicts(folder: &Path) -> io::Result<String> {
    let entries = fs::read_dir(folder)?.collect::<io::Result<Vec<_>>>()?;
    let mut files: Vec<_> = entries.iter().map(fs::DirEntry::path).collect();
    files.retain(|file| file.extension().is_some_and(|it| it == "section"));
    files.sort();
    let mut lines = Vec::new();
    for file in files {
        let section = fs::read(&file)?;
        let verdict = told(treskibben::check(&section).map(|()| "accepted".to_string()));
        let name = file.file_name().unwrap_or_default().to_string_lossy();
        lines.push(format!("{name:<28} {verdict}"));
    }
    Ok(lines.join("\n"))
}

/// What stands under each heading.
fn acts(folder: &Path) -> io::Result<[String; 5]> {
    let section = fs::read(folder.join(STATEPOINT))?;
    let older = fs::read(folder.join(OLDER))?;
    let moved = told(record::moved(&section, &AT, &TABLE));
    let unknown = told(record::moved(&section, &AT, &OTHER_TABLE));
    let older_moved = told(record::moved(&older, &OLDER_AT, &TABLE));
    Ok([
        verdicts(folder)?,
        format!(
            "{STATEPOINT} at {AT}: {}",
            told(record::describe(&section, &AT))
        ),
        format!(
            "a frame at {AT}: {moved}\nthe same, and the table doesn't know the object: {unknown}"
        ),
        format!("{STATEPOINT}: {}", told(listing::describe(&section))),
        format!("{OLDER}, a frame at {OLDER_AT}: {older_moved}"),
    ])
}

/// Shows the samples of a folder.
pub fn show(folder: &Path) -> ExitCode {
    let acts = match acts(folder) {
        Ok(acts) => acts,
        Err(error) => {
            eprintln!(
                "the samples in {} cannot be read: {error}",
                folder.display()
            );
            return ExitCode::from(2);
        }
    };
    for (heading, act) in HEADINGS.iter().zip(acts) {
        let lines: Vec<String> = act.lines().map(|line| format!("   {line}")).collect();
        crate::show(&format!("\n{heading}\n{}\n", lines.join("\n")));
    }
    ExitCode::SUCCESS
}
