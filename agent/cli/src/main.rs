//! The program `treskibben`: LLVM stack map sections checked, listed, built, searched and cut, and
//! a stack image restored. docs/COMMAND.md describes it for people.
//!
//! Every answer on a section, a listing or a frame is the library's (`library`). The rest is
//! reading, writing and wording: a refusal or a fault leaves every file as it was.

#![deny(unsafe_code)]

mod beside;
mod commands;
mod editions;
mod explain;
mod files;
mod flat;
mod folder;
mod found;
mod frames;
mod index;
mod inputs;
mod json;
mod library;
mod linked;
mod listing;
mod lists;
mod moves;
mod names;
mod numbers;
mod output;
mod profile;
mod progress;
mod receipt;
mod registers;
mod replace;
mod report;
mod system;
mod text;
mod trace;
mod trouble;

use clap::error::ErrorKind;
use clap::Parser;
use commands::Command;
use std::process::ExitCode;
use trouble::{say, Status, Trouble, Voice};

/// LLVM stack map sections, versions 3 and 1: checked, listed, built, searched, cut, counted; and
/// the frames of a stopped thread moved to where its heap has come back.
#[derive(Parser)]
#[command(name = "treskibben", version, after_help = STATUSES)]
struct Program {
    #[command(subcommand)]
    command: Command,
}

const STATUSES: &str = "\
A FILE that is '-' is standard input.

Exit status: 0 done; 1 refused, with a line 'FILE: refused NUMBER at PLACE: ..' on standard error;
2 a wrong call, or a file that cannot be read or written.";

fn main() -> ExitCode {
    let status = match Program::try_parse() {
        Ok(program) => {
            let voice = program.command.voice();
            let ended = program.command.run();
            ended.unwrap_or_else(|trouble| trouble.tell(voice))
        }
        Err(error) => not_a_call(&error),
    };
    status.into()
}

/// Help and the version go to standard output, and what is wrong with a call to standard error.
fn not_a_call(error: &clap::Error) -> Status {
    let text = names::without_controls(&error.render().to_string());
    match error.kind() {
        ErrorKind::DisplayHelp | ErrorKind::DisplayVersion => {
            let told = output::line(text.trim_end()).map(|()| Status::Done);
            told.unwrap_or_else(|trouble| trouble.tell(Voice::Text))
        }
        ErrorKind::DisplayHelpOnMissingArgumentOrSubcommand => {
            Trouble::Usage(format!("no command\n{}", text.trim_end())).tell(Voice::Text)
        }
        _ => {
            let text = text.trim_end();
            let text = text.strip_prefix("error: ").unwrap_or(text);
            say(&format!("treskibben: {text}"));
            Status::Failed
        }
    }
}
