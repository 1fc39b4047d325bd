//! `completions`: what a shell needs to complete the command's arguments.

use crate::output;
use crate::trouble::{Status, Trouble};
use crate::Program;
use clap::CommandFactory;
use clap_complete::Shell;

/// Write the completions of a shell, for its start-up files
#[derive(clap::Args)]
pub struct Arguments {
    shell: Shell,
}

pub fn run(arguments: &Arguments) -> Result<Status, Trouble> {
    let mut script = Vec::new();
    clap_complete::generate(
        arguments.shell,
        &mut Program::command(),
        "treskibben",
        &mut script,
    );
    output::to(None, |out| out.write_all(&script))?;
    Ok(Status::Done)
}
