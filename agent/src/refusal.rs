//! What a refused call says.

use std::error::Error;
use std::fmt;

/// Why an input was refused, and where.
///
/// The number names the cause. What the place counts depends on the cause: mostly it is a byte of
/// the section, of the listing or of the trace, a pair of a statepoint, a frame of a thread, a section
/// of a report, or a record, counted from 0, and it is 0 where none of them is to blame.
#[derive(Clone, Copy, Debug, PartialEq, Eq, Hash)]
pub struct Refusal {
    number: u64,
    place: u64,
}

/// The cause of each refusal; the first is number 1.
const CAUSES: [&str; 41] = [
    "section under 16 or over 16,777,216 bytes, or listing over 33,554,432 bytes",
    "version neither 1 nor 3",
    "a byte required to be zero isn't",
    "a function, constant or record isn't wholly inside",
    "record counts, added exactly, differ from NumRecords",
    "location kind not 1 to 5",
    "ConstIndex offset negative or not below NumConstants",
    "record address over 2^64 - 1",
    "bytes after the last record",
    "no record of that number or address, or no such function or offset",
    "no location or live-out of that number",
    "not a statepoint",
    "image over 1,048,576 bytes, or first address + length over 2^64 - 1",
    "lists unequal, over 65,536 entries, old starts not strictly rising, or a 0 in either",
    "more than one record at the address or offset",
    "stack size unknown, or extent not inside the image",
    "over 256 pointers",
    "pair of wrong form",
    "a slot not wholly inside the extent",
    "collision",
    "base neither 0 nor an old start",
    "listing breaks its grammar",
    "over 65,535 locations or live-outs in a record",
    "output shorter than the whole result",
    "list of frames odd or over 4,096 frames, or not 32 registers a frame",
    "extent shares a byte with that of an earlier frame",
    "question by address of version 1, or by function and offset of version 3",
    "version 1 listing with a record count not 0 or a size over 255",
    "index isn't exactly the entries that the section yields",
    "64 editions are live",
    "edition unknown or retired",
    "new edition's number over 2^32 - 1",
    "version or machine not allowed",
    "a total of the report would pass 2^64 - 1",
    "trace breaks its grammar",
    "flat section under 32 or over 16,777,216 bytes",
    "version not 2",
    "an offset or the end isn't the earliest aligned place",
    "an index plus count is past its array",
    "a padding or reserved bit is set",
    "no record of any frame is at the address",
];

/// The causes from number 50 on: the bench controller's profile, and the settings of an edition.
const LAST_CAUSES: [&str; 2] = [
    "outside the bench controller's profile",
    "pointer count not 1 to 256, machine unknown, or no version allowed",
];

/// The cause at this number in a table that begins with the number `first`.
fn cause_from(causes: &[&'static str], first: u64, number: u64) -> Option<&'static str> {
    let index = usize::try_from(number.checked_sub(first)?).ok()?;
    causes.get(index).copied()
}

impl Refusal {
    /// The refusal of this number, which is not 0, at this place.
    pub(crate) fn new(number: u64, place: u64) -> Refusal {
        Refusal { number, place }
    }

    /// The number of the cause, from 1.
    pub fn number(&self) -> u64 {
        self.number
    }

    /// Where the fault is: the byte that [`check`](crate::check) names for a section and
    /// [`to_section`](crate::to_section()) for a listing, the pair that
    /// [`relocate`](crate::relocate()) names for a frame, the frame that
    /// [`relocate_thread`](crate::relocate_thread) names for a thread, and the section that
    /// [`Totals::add`](crate::report::Totals::add) names for a report.
    pub fn place(&self) -> u64 {
        self.place
    }

    /// The cause in words.
    pub fn cause(&self) -> &'static str {
        cause_from(&CAUSES, 1, self.number)
            .or_else(|| cause_from(&LAST_CAUSES, 50, self.number))
            .unwrap_or("a cause that this version has no words for")
    }
}

impl fmt::Display for Refusal {
    fn fmt(&self, f: &mut fmt::Formatter<'_>) -> fmt::Result {
        write!(
            f,
            "refused {} at {}: {}",
            self.number,
            self.place,
            self.cause()
        )
    }
}

impl Error for Refusal {}

#[cfg(test)]
mod tests {
    use super::*;

    #[test]
    fn each_number_has_words_of_its_own() {
        let numbers = (1..).zip(CAUSES).chain((50..).zip(LAST_CAUSES));
        let mut met: Vec<&str> = vec![];
        for (number, cause) in numbers {
            assert_eq!(Refusal::new(number, 0).cause(), cause);
            assert!(!cause.is_empty());
            assert!(!met.contains(&cause), "{cause}");
            met.push(cause);
        }
    }

    #[test]
    fn words_stand_beside_their_own_number() {
        let words = [
            (2, "neither 1 nor 3"),
            (10, "no record"),
            (13, "image"),
            (17, "256 pointers"),
            (20, "collision"),
            (22, "grammar"),
            (23, "65,535"),
            (24, "output"),
            (25, "32 registers a frame"),
            (26, "earlier frame"),
            (27, "question by address"),
            (28, "version 1 listing"),
            (29, "index isn't exactly"),
            (30, "64 editions"),
            (31, "unknown or retired"),
            (32, "2^32 - 1"),
            (33, "not allowed"),
            (34, "total of the report"),
            (35, "trace"),
            (36, "under 32"),
            (37, "version not 2"),
            (38, "aligned place"),
            (39, "index plus count"),
            (40, "reserved bit"),
            (41, "no record of any frame"),
            (50, "profile"),
            (51, "pointer count"),
        ];
        for (number, start) in words {
            let refusal = Refusal::new(number, 3);
            assert!(refusal.cause().contains(start), "{refusal}");
            assert!(refusal
                .to_string()
                .starts_with(&format!("refused {number} at 3: ")));
        }
    }

    #[test]
    fn numbers_beyond_the_table_still_print() {
        for number in [0, 42, 49, 52, u64::MAX] {
            let text = Refusal::new(number, 4).to_string();
            assert!(
                text.starts_with(&format!("refused {number} at 4: a cause")),
                "{text}"
            );
        }
    }
}
