//! The records at the addresses of a list, over all maps of a linked section. Each address is a question of its own to
//! the library; one that stands in the list again isn't asked again.

use super::many::{not_there, tell, Line};
use crate::index::Nearest;
use crate::library::{self, LinkedFound, Map, Refusal};
use crate::linked;
use crate::progress::Progress;
use crate::trouble::{Status, Trouble, Voice};
use std::collections::HashMap;
use std::path::Path;

/// Looks the addresses up one by one, and tells of each what is found, or what lies nearest.
pub fn run(
    file: &Path,
    section: &[u8],
    maps: &[Map],
    list: &Path,
    lines: &[Line],
    voice: Voice,
) -> Result<Status, Trouble> {
    // What is said of the maps is said for a list of no addresses too: any will do.
    if let Some(refusal) = library::find_linked(section, 0).err() {
        if refusal.number != 10 {
            return Err(linked::refused(file, section, refusal));
        }
    }
    let mut answers: HashMap<u64, Result<LinkedFound, Refusal>> = HashMap::new();
    let mut nearest = None;
    let mut progress = Progress::of("addresses looked up");
    let mut worst = Status::Done;
    for (number, line) in (1..).zip(lines) {
        let address = line.value[0];
        let asked = || library::find_linked(section, address);
        let ended = match *answers.entry(address).or_insert_with(asked) {
            Ok(found) => {
                let own = library::found_in_map(found);
                tell(file, line, &own, Some(found.map), voice)
            }
            Err(refusal) => {
                let nearest = nearest.get_or_insert_with(|| Nearest::of(section, maps));
                Err(not_there(list, line, refusal, Some(nearest.to(address))))
            }
        };
        match ended {
            // Where nobody listens any more, the list is gone through all the same: the status counts.
            Ok(()) | Err(Trouble::Closed) => {}
            Err(trouble) => worst = worst.max(trouble.tell(voice)),
        }
        progress.tell(number, lines.len() as u64);
    }
    Ok(worst)
}
