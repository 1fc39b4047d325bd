//! `check`: whether files are sections.

use crate::json;
use crate::library::{self, Refusal};
use crate::names::shown;
use crate::numbers::count;
use crate::profile::{self, Profile};
use crate::progress::Progress;
use crate::trouble::{Status, Trouble, Voice};
use crate::{files, found, linked, output};
use std::path::{Path, PathBuf};

/// Say of each file whether it is a whole section
///
/// The sections may be of version 3 or 1. 'FILE: accepted' goes to standard output, and to standard
/// error 'FILE: refused NUMBER at PLACE: ..', with the cause in words and what was found. All files
/// are looked at, whatever is found in the earlier ones, and the worst answer is the exit status.
///
/// A linker puts the maps of several objects one after the other. Such a section is taken as it comes:
/// 'FILE: accepted, 3 maps'. A refusal's place is in the whole; the map is named, counted from 0, and
/// the place in it. A profile takes one map: there a linked section is refused by 9.
#[derive(clap::Args)]
pub struct Arguments {
    /// The sections
    #[arg(value_name = "FILE", required = true)]
    files: Vec<PathBuf>,
    /// Hold the sections against a profile too, and refuse by 50 what is outside
    ///
    /// 'bench' is the bench controller's: version 3, and at most 64 records, each a statepoint whose pairs are
    /// of right form on x86-64 and have at most 16 pointers, with addresses that strictly rise. The place is
    /// the first record that breaks it, and what it breaks is told; 0 too where the version does.
    #[arg(long, value_name = "NAME", value_enum)]
    profile: Option<Profile>,
    /// Tell all answers on standard output, one JSON object a line
    #[arg(long)]
    pub json: bool,
}

pub fn run(arguments: &Arguments, voice: Voice) -> Result<Status, Trouble> {
    files::standard_input_once(arguments.files.iter())?;
    let mut worst = Status::Done;
    let mut progress = Progress::of("files checked");
    for (number, file) in arguments.files.iter().enumerate() {
        match check(file, arguments.profile, voice) {
            // Where nobody listens any more, the files are looked at all the same: the status counts.
            Ok(()) | Err(Trouble::Closed) => {}
            Err(trouble) => worst = worst.max(trouble.tell(voice)),
        }
        progress.tell(number as u64 + 1, arguments.files.len() as u64);
    }
    Ok(worst)
}

fn check(file: &Path, profile: Option<Profile>, voice: Voice) -> Result<(), Trouble> {
    let section = files::read(file, files::SECTION)?;
    let maps = match profile {
        None => library::maps(&section)
            .map(|maps| maps.len() as u64)
            .map_err(|refusal| linked::refused(file, &section, refusal))?,
        Some(Profile::Bench) => library::check_profile(&section)
            .map(|()| 1)
            .map_err(|refusal| outside(file, &section, refusal))?,
    };
    let profile = profile.map(Profile::name);
    let maps = Some(maps).filter(|maps| *maps > 1);
    match voice {
        Voice::Text => {
            let held = profile.map(|name| format!(", profile {name}"));
            let maps = maps.map(|maps| format!(", {}", count(maps, "map")));
            let more = [held, maps].map(Option::unwrap_or_default).concat();
            output::line(&format!("{}: accepted{more}", shown(file)))
        }
        Voice::Json => output::object(&json::Answer::Accepted {
            file: &json::name(file),
            profile,
            maps,
        }),
    }
}

/// The refusal of a section that is held against a profile.
fn outside(file: &Path, section: &[u8], refusal: Refusal) -> Trouble {
    let found = match refusal {
        Refusal {
            number: 50, place, ..
        } => profile::of_section(section, place),
        _ => found::of_section(file, section, refusal),
    };
    Trouble::refused(file, refusal, found)
}
