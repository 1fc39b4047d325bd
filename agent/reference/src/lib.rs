//! A second implementation of the stack map library, written from the papers
//! alone and compared with the proved one.
//!
//! It reads sections in the stack map layouts of versions 1 and 3, answers
//! questions on them, also through an address index, turns them into listings
//! and back, relocates the pointers of one stopped frame or of a whole thread,
//! on the stack and in registers, says what lists of such moves leave
//! ([`moves`]), and holds what the small program writes. It also reads and
//! looks up the flat proposal's sections, which have a layout of their own
//! ([`flat`]), and keeps settings by edition ([`editions`], and [`history`] for
//! the same calls answered from a list of events). [`report`] adds up what many
//! sections hold.
//!
//! A restore names an edition ([`restore`]); recorded ones are replayed
//! ([`replay`]), and the bench controller takes those of one product
//! ([`mod@bench`]). [`explain`] says why a slot of a frame is set or left as it is.
//! [`linked`] takes the maps of several objects as a linker puts them into one
//! section, and [`split`] a stack that stands in several pieces.
//!
//! Every function answers every input: with a result, or with a [`Refusal`]
//! that has a fixed number and place. A refused call changes no byte of what
//! it was lent.

#![forbid(unsafe_code)]
#![deny(missing_docs)]

pub mod bench;
mod bytes;
pub mod editions;
pub mod explain;
pub mod flat;
pub mod history;
pub mod index;
pub mod linked;
pub mod listing;
mod machine;
pub mod moves;
mod pieces;
pub mod program;
pub mod questions;
pub mod relocate;
pub mod replay;
pub mod report;
pub mod restore;
pub mod section;
pub mod split;
pub mod thread;

#[cfg(test)]
mod fixtures;

pub use index::{all_by_index, by_index, fill_index};
pub use listing::{to_listing, to_section};
pub use program::run;
pub use questions::{by_address, by_function, live_out, location, record};
pub use questions::{Content, Found, LocationAnswer};
pub use relocate::{extent, relocate, Frame};
pub use section::{check, encode, encode_version_1, read};
pub use section::{Function, LiveOut, Location, Record, RecordData, Section, Version};
pub use thread::{thread, thread_by_index};

/// Why a call was refused: the number of the line in the refusal table, and
/// the place that line names.
#[derive(Clone, Copy, Debug, PartialEq, Eq)]
pub struct Refusal {
    /// The refusal's number, 1 to 29, and of a move also 33; of a restore that
    /// names an edition also 31, and on the bench 50; of a call on editions 30
    /// to 32 or 51; of a report 34; of a trace 35; of a flat section 36 to 41.
    pub number: u64,
    /// The refusal's place: a byte, a pair, a record, a frame's or a section's
    /// position in a list, or 0 where its line has none.
    pub place: u64,
}

impl Refusal {
    /// The refusal `number` at a place counted in bytes, pairs or frames.
    pub(crate) fn at(number: u64, place: usize) -> Refusal {
        Refusal {
            number,
            place: place as u64,
        }
    }
}
