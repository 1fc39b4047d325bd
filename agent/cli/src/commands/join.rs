//! `join`: one move table of two or more.

use crate::moves::Moves;
use crate::trouble::{Refused, Status, Trouble};
use crate::{files, output};
use std::path::PathBuf;

/// Write the one move table that two or more make, one after the other
///
/// The joined table has each old start of the first whose new start is an old start of the second, with the
/// second's new start for it. It is what 'treskibben restore' takes with --moves for each.
///
/// In one restore it does what two restores in a row would do only where every pointer's base slot is also
/// listed with itself. 'restore' tests that for --moves that is said twice, and not for a table that is
/// joined already.
///
/// 14 is said of the first file that is no table, with the line.
#[derive(clap::Args)]
pub struct Arguments {
    /// The tables, in the order of the moves: lines 'OLD NEW', old starts rising
    #[arg(value_name = "MOVES", required = true, num_args = 2..)]
    files: Vec<PathBuf>,
    /// Write to a file, whole or not at all, instead of standard output
    #[arg(long, value_name = "FILE")]
    output: Option<PathBuf>,
}

pub fn run(arguments: &Arguments) -> Result<Status, Trouble> {
    files::standard_input_once(arguments.files.iter())?;
    let moves = Moves::read(&arguments.files)?;
    if let Some(refusal) = moves.refusal() {
        return Err(Trouble::Refused(Box::new(Refused {
            answer: Some((refusal.number, refusal.place)),
            cause: refusal.cause.to_string(),
            ..moves.at_fault()
        })));
    }
    let output = output::named(&arguments.output);
    output::to(output, |out| out.write_all(moves.text().as_bytes()))?;
    Ok(Status::Done)
}
