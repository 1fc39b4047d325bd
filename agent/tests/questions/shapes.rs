//! What the questions of a run must show between them.

use generator::questions::Answer::{self, Found, LiveOut, Location, Record, Refused};
use generator::questions::Question;
use generator::{Section, Version};

/// One thing that must be seen: its name, and whether a question on a whole section shows it.
type Shape = (&'static str, fn(&Section, Question, Answer) -> bool);

/// All of them.
pub const SHAPES: [Shape; 46] = [
    ("found at address 0", |_, q, a| {
        matches!((q, a), (Question::Find(0), Found { .. }))
    }),
    ("found at address 2^64 - 1", |_, q, a| {
        matches!((q, a), (Question::Find(u64::MAX), Found { .. }))
    }),
    ("not found at address 0", |_, q, a| {
        matches!((q, a), (Question::Find(0), Refused { .. }))
    }),
    ("not found at address 2^64 - 1", |_, q, a| {
        matches!((q, a), (Question::Find(u64::MAX), Refused { .. }))
    }),
    ("an address of one record", |_, q, a| {
        matches!((q, a), (Question::Find(_), Found { sharing: 1, .. }))
    }),
    ("an address of several records", |_, q, a| {
        matches!((q, a), (Question::Find(_), Found { sharing: 3.., .. }))
    }),
    ("an offset of one record", |_, q, a| {
        matches!((q, a), (Question::FindIn(..), Found { sharing: 1, .. }))
    }),
    ("an offset of several records", |_, q, a| {
        matches!((q, a), (Question::FindIn(..), Found { sharing: 3.., .. }))
    }),
    ("an offset in a function after the first", |_, q, a| {
        matches!((q, a), (Question::FindIn(1.., _), Found { .. }))
    }),
    ("found at offset 0", |_, q, a| {
        matches!((q, a), (Question::FindIn(_, 0), Found { .. }))
    }),
    ("found at offset 2^32 - 1", |_, q, a| {
        matches!((q, a), (Question::FindIn(_, 0xffff_ffff), Found { .. }))
    }),
    (
        "the function after the last, at an offset of a record",
        |s, q, a| {
            a == NO_RECORD
                && matches!(q, Question::FindIn(n, at) if is_count(n, &s.functions) && has(s, at))
        },
    ),
    (
        "a function that is there in 32 bits, at an offset of a record",
        |s, q, a| {
            let there = |n: u64| n > u64::from(u32::MAX) && (n as u32 as usize) < s.functions.len();
            a == NO_RECORD && matches!(q, Question::FindIn(n, at) if there(n) && has(s, at))
        },
    ),
    (
        "a function that is there, at an offset of a record in 32 bits",
        |s, q, a| {
            let cut = |at: u64| at > u64::from(u32::MAX) && has(s, u64::from(at as u32));
            a == NO_RECORD
                && matches!(q, Question::FindIn(n, at) if (n as usize) < s.functions.len() && cut(at))
        },
    ),
    ("by address on version 1", |s, q, a| {
        a == OTHER_VERSION && s.version == Version::One && matches!(q, Question::Find(_))
    }),
    (
        "by function and offset on version 3, where both are there",
        |s, q, a| {
            let there = |n: u64| (n as usize) < s.functions.len();
            a == OTHER_VERSION && matches!(q, Question::FindIn(n, at) if there(n) && has(s, at))
        },
    ),
    ("a location of version 1 of size 0", |s, _, a| {
        s.version == Version::One && matches!(a, Location { size: 0, .. })
    }),
    ("a location of version 1 of size 255", |s, _, a| {
        s.version == Version::One && matches!(a, Location { size: 255, .. })
    }),
    (
        "a live-out of version 1 after locations in odd number",
        |s, q, a| {
            let odd = |n: u64| {
                s.records
                    .get(n as usize)
                    .is_some_and(|r| r.locations.len() % 2 == 1)
            };
            let first = s.version == Version::One && matches!(a, LiveOut { .. });
            first && matches!(q, Question::LiveOut(n, _) if odd(n))
        },
    ),
    ("a function after one without records", after_an_empty_one),
    ("the first record", |_, q, a| {
        matches!((q, a), (Question::Record(0), Record { .. }))
    }),
    (
        "the last of several records",
        |s, q, a| matches!((q, a), (Question::Record(n @ 1..), Record { .. }) if is_count(n + 1, &s.records)),
    ),
    (
        "one past the last record",
        |s, q, _| matches!(q, Question::Record(n) if is_count(n, &s.records)),
    ),
    ("record 2^32", |_, q, _| {
        matches!(q, Question::Record(0x1_0000_0000))
    }),
    ("record 2^64 - 1", |_, q, _| {
        matches!(q, Question::Record(u64::MAX))
    }),
    ("location 2^32 of a record", |_, q, a| {
        matches!((q, a), (Question::Location(_, 0x1_0000_0000), NO_ENTRY))
    }),
    ("location 2^64 - 1 of a record", |_, q, a| {
        matches!((q, a), (Question::Location(_, u64::MAX), NO_ENTRY))
    }),
    ("live-out 2^32 of a record", |_, q, a| {
        matches!((q, a), (Question::LiveOut(_, 0x1_0000_0000), NO_ENTRY))
    }),
    ("live-out 2^64 - 1 of a record", |_, q, a| {
        matches!((q, a), (Question::LiveOut(_, u64::MAX), NO_ENTRY))
    }),
    ("a live-out", |_, _, a| matches!(a, LiveOut { .. })),
    ("a live-out after others", |_, q, a| {
        matches!((q, a), (Question::LiveOut(_, 1..), LiveOut { .. }))
    }),
    ("kind 1, offset below 0", |_, _, a| below_0(a, 1)),
    ("kind 1, offset above 0", |_, _, a| above_0(a, 1)),
    ("kind 2, offset below 0", |_, _, a| below_0(a, 2)),
    ("kind 2, offset above 0", |_, _, a| above_0(a, 2)),
    ("kind 3, offset below 0", |_, _, a| below_0(a, 3)),
    ("kind 3, offset above 0", |_, _, a| above_0(a, 3)),
    ("kind 4, constant below 0", |_, _, a| below_0(a, 4)),
    ("kind 4, constant above 0", |_, _, a| above_0(a, 4)),
    ("kind 5, not the first of the pool", |_, _, a| above_0(a, 5)),
    ("nowhere, version 1", |s, _, a| held_1(s, a, 0)),
    ("in a register, version 1", |s, _, a| held_1(s, a, 1)),
    ("in memory, version 1", |s, _, a| held_1(s, a, 2)),
    ("nowhere, version 3", |s, _, a| held_3(s, a, 0)),
    ("in a register, version 3", |s, _, a| held_3(s, a, 1)),
    ("in memory, version 3", |s, _, a| held_3(s, a, 2)),
];

/// The refusal of a record or function that isn't there.
const NO_RECORD: Answer = Refused {
    number: 10,
    place: 0,
};

/// The refusal of a question that the other version has.
const OTHER_VERSION: Answer = Refused {
    number: 27,
    place: 0,
};

/// The refusal of a location or live-out that isn't there.
const NO_ENTRY: Answer = Refused {
    number: 11,
    place: 0,
};

fn is_count<T>(number: u64, items: &[T]) -> bool {
    number == items.len() as u64
}

/// Whether some record has this offset.
fn has(section: &Section, offset: u64) -> bool {
    let mut offsets = section
        .records
        .iter()
        .map(|record| u64::from(record.offset));
    offsets.any(|own| own == offset)
}

fn below_0(answer: Answer, of: u8) -> bool {
    matches!(answer, Location { kind, offset: ..=-1, .. } if kind == of)
}

fn above_0(answer: Answer, of: u8) -> bool {
    matches!(answer, Location { kind, offset: 1.., .. } if kind == of)
}

/// A location of version 1 whose content place has this number.
fn held_1(section: &Section, answer: Answer, at: u8) -> bool {
    section.version == Version::One && matches!(answer, Location { content, .. } if content == at)
}

/// One of version 3.
fn held_3(section: &Section, answer: Answer, at: u8) -> bool {
    section.version == Version::Three && matches!(answer, Location { content, .. } if content == at)
}

/// The record that was found by its address belongs to a function, and the one before it has no
/// records.
fn after_an_empty_one(section: &Section, question: Question, answer: Answer) -> bool {
    match answer {
        Found {
            function: function @ 1..,
            ..
        } if matches!(question, Question::Find(_)) => {
            section.functions[function as usize - 1].record_count == 0
        }
        _ => false,
    }
}
