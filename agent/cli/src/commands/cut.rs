//! `cut`: a file of several maps, taken apart.

mod write;

use crate::folder::Folder;
use crate::library::{self, Map, Refusal};
use crate::numbers::count;
use crate::progress::Progress;
use crate::trouble::{Refused, Status, Trouble, Voice};
use crate::{files, found, json, output};
use std::fs::File;
use std::path::{Path, PathBuf};

/// Take a file of several maps apart, as a linker leaves it
///
/// A linker puts the maps of several objects one after the other: each of them becomes a part. Writes a
/// line for each part. A part that is refused ends the work; its refusal's place is counted from the
/// part's first byte. The file may be of any length, a part at most 16,777,216 bytes.
#[derive(clap::Args)]
pub struct Arguments {
    /// The maps
    #[arg(value_name = "FILE")]
    file: PathBuf,
    /// Write the parts to part-0.section and so on in this folder, all of them or none
    ///
    /// The folder is made, or is there and empty. It gets its name when all parts are in it.
    #[arg(long, value_name = "DIR")]
    into: Option<PathBuf>,
    /// Tell all answers on standard output, one JSON object a line
    #[arg(long)]
    pub json: bool,
}

/// The longest section.
const LONGEST: usize = files::SECTION as usize;

/// A map in the file: its first byte and its length.
struct Part {
    first: u64,
    length: u64,
}

pub fn run(arguments: &Arguments, voice: Voice) -> Result<Status, Trouble> {
    let path = &arguments.file;
    let mut file = files::open(path)?;
    let Some(folder) = &arguments.into else {
        parts(path, &mut file, voice, false)?;
        return Ok(Status::Done);
    };
    if !file.metadata().is_ok_and(|there| there.is_file()) {
        let why = "--into reads the file twice, which has to be a regular one";
        return Err(Trouble::file(path, "cannot be cut", why));
    }
    let target = Folder::at(folder)?;
    let parts = parts(path, &mut file, voice, true)?;
    write::all(path, &mut file, &parts, &target)?;
    if voice == Voice::Json {
        // The parts are written, whether anybody hears of it or not.
        let _ = output::object(&json::Answer::Written {
            file: &json::name(path),
            folder: &json::name(folder),
            parts: parts.len() as u64,
        });
    }
    Ok(Status::Done)
}

/// The parts of a file, each checked and told. Where nobody listens any more, it goes on all the same:
/// the status counts. `deaf` goes on where nobody can be told at all.
fn parts(path: &Path, file: &mut File, voice: Voice, deaf: bool) -> Result<Vec<Part>, Trouble> {
    let mut progress = Progress::of("bytes cut");
    let all = file.metadata().map_or(0, |metadata| metadata.len());
    let mut parts = Vec::new();
    let mut window = Window::default();
    loop {
        window.fill(path, file)?;
        let (number, first) = (parts.len() as u64, window.first);
        let maps = whole_maps(window.bytes())
            .map_err(|refusal| refused(path, number, first, window.bytes(), refusal))?;
        for map in maps {
            let (number, first, length) = (parts.len() as u64, window.first, map.length as u64);
            match tell(path, number, first, length, voice) {
                Err(trouble) if !deaf && !matches!(trouble, Trouble::Closed) => {
                    return Err(trouble)
                }
                _ => {}
            }
            parts.push(Part { first, length });
            window.pass(length);
            progress.tell(window.first, all);
        }
        if window.bytes().is_empty() {
            return Ok(parts);
        }
    }
}

fn tell(path: &Path, part: u64, first: u64, bytes: u64, voice: Voice) -> Result<(), Trouble> {
    match voice {
        Voice::Text => {
            let bytes = count(bytes, "byte");
            output::line(&format!("part {part} from byte {first}: {bytes}, accepted"))
        }
        Voice::Json => output::object(&json::Answer::Part {
            file: &json::name(path),
            part,
            first,
            bytes,
        }),
    }
}

/// The refusal of a part.
fn refused(path: &Path, number: u64, first: u64, bytes: &[u8], refusal: Refusal) -> Trouble {
    let found = found::of_section(path, bytes, refusal);
    let found = found.map(|found| format!(": {found}")).unwrap_or_default();
    Trouble::Refused(Box::new(Refused {
        file: path.to_path_buf(),
        part: Some((number, first)),
        answer: Some((refusal.number, refusal.place)),
        cause: refusal.cause.to_string(),
        found: Some(format!("part {number} from byte {first}{found}")),
        ..Refused::default()
    }))
}

/// The maps that the bytes begin with: all of them, or those before one that is refused, of which the file may have
/// more. There may be one byte more than the longest section has, to tell that the file goes on.
fn whole_maps(bytes: &[u8]) -> Result<Vec<Map>, Refusal> {
    let inside = &bytes[..bytes.len().min(LONGEST)];
    library::maps(inside).or_else(|refusal| match library::map_at_fault(inside) {
        // What isn't inside the longest section belongs to a longer one, which is refused as such.
        (0, _) if refusal.number == 4 => Err(library::check(bytes).err().unwrap_or(refusal)),
        (0, _) => Err(refusal),
        (_, first) => library::maps(&inside[..first]),
    })
}

/// The part of the file that is in memory.
#[derive(Default)]
struct Window {
    bytes: Vec<u8>,
    /// How many of the bytes are passed.
    passed: usize,
    /// The first byte that isn't passed, in the file.
    first: u64,
    /// Whether the file has no more.
    ended: bool,
}

impl Window {
    /// Reads on until there is more than the longest section, or no more.
    fn fill(&mut self, path: &Path, file: &mut File) -> Result<(), Trouble> {
        let there = (self.bytes.len() - self.passed) as u64;
        if self.ended || there > files::SECTION {
            return Ok(());
        }
        self.bytes.drain(..self.passed);
        self.passed = 0;
        let room = 2 * files::SECTION - there;
        let more = files::read_up_to(path, file, room)?;
        self.ended = (more.len() as u64) < room;
        self.bytes.extend(more);
        Ok(())
    }

    /// The next bytes, at most one more than the longest section has.
    fn bytes(&self) -> &[u8] {
        let rest = &self.bytes[self.passed..];
        &rest[..rest.len().min(LONGEST + 1)]
    }

    fn pass(&mut self, length: u64) {
        self.passed += length as usize;
        self.first += length;
    }
}
