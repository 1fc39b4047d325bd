//! The commands, one to a module.

mod build;
mod check;
mod completions;
mod cut;
mod edition;
mod explain;
mod find;
mod flat;
mod index;
mod join;
mod list;
mod replay;
mod report;
mod restore;
mod trace;

use crate::trouble::{Status, Trouble, Voice};

/// A command, with the arguments of the call.
#[derive(clap::Subcommand)]
pub enum Command {
    Check(check::Arguments),
    List(list::Arguments),
    Build(build::Arguments),
    Find(find::Arguments),
    Index(index::Arguments),
    Cut(cut::Arguments),
    Flat(flat::Arguments),
    Edition(edition::Arguments),
    Report(report::Arguments),
    Join(join::Arguments),
    Explain(explain::Arguments),
    Restore(restore::Arguments),
    Replay(replay::Arguments),
    Trace(trace::Arguments),
    Completions(completions::Arguments),
}

impl Command {
    /// How the command tells what it finds.
    pub fn voice(&self) -> Voice {
        let json = match self {
            Command::Check(arguments) => arguments.json,
            Command::List(arguments) => arguments.json,
            Command::Find(arguments) => arguments.json,
            Command::Cut(arguments) => arguments.json,
            Command::Flat(arguments) => arguments.json(),
            Command::Edition(arguments) => arguments.json(),
            Command::Report(arguments) => arguments.json,
            Command::Explain(arguments) => arguments.json,
            Command::Restore(arguments) => arguments.json,
            Command::Replay(arguments) => arguments.json,
            Command::Trace(arguments) => arguments.json,
            Command::Build(_) | Command::Index(_) | Command::Join(_) | Command::Completions(_) => {
                false
            }
        };
        if json {
            Voice::Json
        } else {
            Voice::Text
        }
    }

    pub fn run(self) -> Result<Status, Trouble> {
        let voice = self.voice();
        match self {
            Command::Check(arguments) => check::run(&arguments, voice),
            Command::List(arguments) => list::run(&arguments, voice),
            Command::Build(arguments) => build::run(&arguments),
            Command::Find(arguments) => find::run(&arguments, voice),
            Command::Index(arguments) => index::run(&arguments),
            Command::Cut(arguments) => cut::run(&arguments, voice),
            Command::Flat(arguments) => flat::run(&arguments, voice),
            Command::Edition(arguments) => edition::run(&arguments, voice),
            Command::Report(arguments) => report::run(&arguments, voice),
            Command::Join(arguments) => join::run(&arguments),
            Command::Explain(arguments) => explain::run(&arguments, voice),
            Command::Restore(arguments) => restore::run(&arguments, voice),
            Command::Replay(arguments) => replay::run(&arguments, voice),
            Command::Trace(arguments) => trace::run(&arguments, voice),
            Command::Completions(arguments) => completions::run(&arguments),
        }
    }
}
