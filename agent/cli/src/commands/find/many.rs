//! The records at the addresses of a list.

use super::{first_line, over_maps, refused, Asked};
use crate::library::{Found, Index, Refusal};
use crate::lists::{self, Entry, Numbers};
use crate::trouble::{Refused, Status, Trouble, Voice};
use crate::{files, index, json, library, linked, output};
use std::path::Path;

/// An address of a list, and the line that it stands in.
pub type Line = Entry<[u64; 1]>;

/// Looks all addresses of a list up in one call, and tells of each what is found, or what lies nearest.
pub fn run(file: &Path, kept: Option<&Path>, list: &Path, voice: Voice) -> Result<Status, Trouble> {
    let section = files::read(file, files::SECTION)?;
    let entries = kept.map(index::read).transpose()?;
    let lines: Vec<Line> = lists::read(list, &lists::text(list)?, &Numbers("ADDRESS"))?;
    let index = match entries {
        Some(entries) => Index::from_entries(&section, entries),
        None => {
            let told = |refusal| linked::refused(file, &section, refusal);
            let maps = library::maps(&section).map_err(told)?;
            if maps.len() > 1 {
                return over_maps::run(file, &section, &maps, list, &lines, voice);
            }
            library::index_of(&section).map_err(|refusal| refused(file, None, &section, refusal))?
        }
    };
    let addresses: Vec<u64> = lines.iter().map(|line| line.value[0]).collect();
    let answers = library::find_all(&index, &addresses)
        .map_err(|refusal| refused(file, kept.zip(Some(&index)), &section, refusal))?;
    let missing = Missing::of(&index, &addresses, &answers);
    let mut near = missing.near.into_iter();
    let mut worst = Status::Done;
    for (line, answer) in lines.iter().zip(answers) {
        let ended = match (answer, missing.refusal) {
            (Some(found), _) => tell(file, line, &found, None, voice),
            (None, Some(refusal)) => Err(not_there(list, line, refusal, near.next())),
            (None, None) => Ok(()),
        };
        match ended {
            // Where nobody listens any more, the list is gone through all the same: the status counts.
            Ok(()) | Err(Trouble::Closed) => {}
            Err(trouble) => worst = worst.max(trouble.tell(voice)),
        }
    }
    Ok(worst)
}

/// The addresses that no record has: their refusal, and what lies nearest to each.
struct Missing {
    refusal: Option<Refusal>,
    near: Vec<String>,
}

impl Missing {
    fn of(index: &Index, addresses: &[u64], answers: &[Option<Found>]) -> Missing {
        let none = |(address, answer): (&u64, &Option<Found>)| match answer {
            Some(_) => None,
            None => Some(*address),
        };
        let missing: Vec<u64> = addresses.iter().zip(answers).filter_map(none).collect();
        let first = missing.first();
        Missing {
            refusal: first.and_then(|address| library::find_by_index(index, *address).err()),
            near: index::nearest_records(index, &missing),
        }
    }
}

/// The refusal of an address that no record has, with what lies nearest.
pub fn not_there(list: &Path, line: &Line, refusal: Refusal, near: Option<String>) -> Trouble {
    let asked = Asked::At(line.value[0]);
    let near = near.unwrap_or_default();
    Trouble::Refused(Box::new(Refused {
        file: list.to_path_buf(),
        line: Some(line.line),
        answer: Some((refusal.number, refusal.place)),
        cause: refusal.cause.to_string(),
        found: Some(format!("no record at address {asked}: {near}")),
        ..Refused::default()
    }))
}

/// Tells what is found at an address; of several maps with its own.
pub fn tell(
    file: &Path,
    line: &Line,
    found: &Found,
    map: Option<u64>,
    voice: Voice,
) -> Result<(), Trouble> {
    let asked = Asked::At(line.value[0]);
    match voice {
        Voice::Text => output::line(&first_line(&asked, found, map)),
        Voice::Json => output::object(&json::Answer::Located {
            file: &json::name(file),
            line: line.line,
            asked: &asked.to_string(),
            map,
            record: found.record,
            function: found.function,
            sharing: found.sharing,
        }),
    }
}
