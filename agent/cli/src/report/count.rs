//! Many files counted at once. Each thread takes the next file and works out what it adds; what they have worked
//! out is added in the order of the files. So the answer, also that of a section with 34, is the one of a single
//! thread: totals of parts add up to those of the whole, which is proved of the library.

use super::gather::Entry;
use super::{passing, Report};
use crate::library::{self, Map, Refusal, Totals};
use crate::progress::Progress;
use crate::trouble::{Status, Trouble, Voice};
use crate::{files, linked};
use std::collections::VecDeque;
use std::path::Path;
use std::sync::atomic::{AtomicBool, AtomicUsize, Ordering};
use std::sync::{Mutex, PoisonError};
use std::thread;

/// What is told beside the totals.
#[derive(Clone, Copy)]
pub struct Told {
    pub voice: Voice,
    /// Whether each refused section is told, with its cause.
    pub refused: bool,
}

/// What came of one file.
struct Counted {
    /// What each of its maps adds; 34 where its own sums pass already. A file of which a map is refused is one
    /// refused section.
    adds: Vec<Result<Totals, Refusal>>,
    /// What is said of it: that it cannot be read, or that it is refused.
    said: Option<Trouble>,
}

/// All that the threads share.
struct Work<'a> {
    entries: &'a [Entry],
    told: Told,
    /// The next file to be taken.
    next: AtomicUsize,
    /// Whether a section gave 34, after which none counts.
    ended: AtomicBool,
    sums: Mutex<Sums<'a>>,
}

/// What is added so far.
struct Sums<'a> {
    report: &'a mut Report,
    /// How many files are added.
    done: usize,
    /// What came of those after them, as far as it is known.
    early: VecDeque<Option<Counted>>,
    progress: Progress,
    worst: Status,
    refused: Option<Trouble>,
}

/// Adds all files to a report, on so many threads. Gives the worst of what was said, and 34 at its section,
/// with which the report ends.
pub fn all(
    report: &mut Report,
    entries: &[Entry],
    threads: usize,
    told: Told,
) -> (Status, Option<Trouble>) {
    let work = Work {
        entries,
        told,
        next: AtomicUsize::new(0),
        ended: AtomicBool::new(false),
        sums: Mutex::new(Sums {
            report,
            done: 0,
            early: VecDeque::new(),
            progress: Progress::of("sections counted"),
            worst: Status::Done,
            refused: None,
        }),
    };
    thread::scope(|scope| {
        // This thread is one of them. Where no more can be had, fewer do the same.
        for _ in 1..threads.min(entries.len()) {
            let started = thread::Builder::new().spawn_scoped(scope, || work.run());
            if started.is_err() {
                break;
            }
        }
        work.run();
    });
    let sums = work.sums.into_inner();
    let sums = sums.unwrap_or_else(PoisonError::into_inner);
    (sums.worst, sums.refused)
}

impl Work<'_> {
    /// Takes files until there are no more, or the report has ended.
    fn run(&self) {
        let mut buffer = Vec::new();
        while !self.ended.load(Ordering::Relaxed) {
            let nth = self.next.fetch_add(1, Ordering::Relaxed);
            let Some(entry) = self.entries.get(nth) else {
                return;
            };
            let counted = self.count(entry, &mut buffer);
            self.put(nth, counted);
        }
    }

    /// What a file adds. One that cannot be read counts as a section of no bytes, which is refused.
    fn count(&self, entry: &Entry, buffer: &mut Vec<u8>) -> Counted {
        let nothing = |said| Counted {
            adds: vec![library::totals_of(&[])],
            said,
        };
        if entry.trouble.is_some() {
            return nothing(None);
        }
        match files::read_into(&entry.path, files::SECTION, buffer) {
            Ok(section) => self.section(&entry.path, section),
            Err(trouble) => nothing(Some(trouble)),
        }
    }

    fn section(&self, path: &Path, section: &[u8]) -> Counted {
        match library::maps(section) {
            Ok(maps) => {
                let adds = |map: &Map| library::totals_of(linked::bytes(section, *map));
                let adds = maps.iter().map(adds).collect();
                Counted { adds, said: None }
            }
            Err(refusal) => {
                let said = || linked::refused(path, section, refusal);
                Counted {
                    // The check refuses the whole as well, if only by 9.
                    adds: vec![library::totals_of(section)],
                    said: self.told.refused.then(said),
                }
            }
        }
    }

    /// Keeps what came of a file, and adds all that is known without a gap.
    fn put(&self, nth: usize, counted: Counted) {
        let mut sums = self.sums.lock().unwrap_or_else(PoisonError::into_inner);
        if sums.refused.is_some() {
            return;
        }
        let at = nth - sums.done;
        if sums.early.len() <= at {
            sums.early.resize_with(at + 1, || None);
        }
        sums.early[at] = Some(counted);
        while let Some(counted) = sums.early.front_mut().and_then(Option::take) {
            sums.early.pop_front();
            let entry = &self.entries[sums.done];
            sums.add(entry, counted, self.told);
            if sums.refused.is_some() {
                self.ended.store(true, Ordering::Relaxed);
                return;
            }
            let (done, all) = (sums.done as u64, self.entries.len() as u64);
            sums.progress.tell(done, all);
        }
    }
}

impl Sums<'_> {
    /// Adds the next file.
    fn add(&mut self, entry: &Entry, counted: Counted, told: Told) {
        for (number, adds) in counted.adds.iter().enumerate() {
            let before = self.report.totals();
            let joined = |adds| self.report.add(entry.machine, adds);
            if let Err(refusal) = adds.and_then(joined) {
                let place = before.sections;
                let refusal = Refusal { place, ..refusal };
                let alone = |_| Some(ALONE.to_string());
                let found = adds.map_or_else(alone, |adds| passing(before, adds));
                let several = counted.adds.len() > 1;
                let found = found.map(|found| match several {
                    true => format!("map {number}: {found}"),
                    false => found,
                });
                self.refused = Some(Trouble::refused(&entry.path, refusal, found));
                return;
            }
        }
        self.done += 1;
        for trouble in [&entry.trouble, &counted.said].into_iter().flatten() {
            let status = trouble.tell(told.voice);
            // A refused section is counted, and is no fault of the report.
            if matches!(trouble, Trouble::File(_)) {
                self.worst = self.worst.max(status);
            }
        }
    }
}

/// What is found of a section whose own sums pass.
const ALONE: &str = "the known stack sizes of this section alone pass it";
