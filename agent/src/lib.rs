//! LLVM stack map sections, versions 3 and 1: a safe interface to a library whose every function is
//! proved.
//!
//! [`check`] says whether a section keeps the layout, and of one that doesn't, which rule it breaks
//! and at which byte. The questions read a section without decoding it: [`find`] a record by its
//! address, [`record()`] its bytes, [`location()`] and [`live_out`] what they say. An [`Index`] of a
//! section is for many addresses at a time. [`to_listing`] writes a section as a plain row of items,
//! and [`to_section`] writes the section again.
//! [`relocate()`] moves the pointers of one stopped frame in a copy of its stack and of its [`Registers`],
//! and [`relocate_thread`] those of a whole thread, all of its frames or none, on either [`Machine`];
//! [`explain()`] tells why a [`Slot`] of a frame moves or does not, and [`join()`] makes one move table of
//! two. Every slice of bytes gets an answer; none makes a function panic, read or write beyond its slices or
//! run without end.
//!
//! A section's first byte is its version. Version 1 doesn't say which function has a record: there
//! [`find_in_function`] takes the place of [`find`], and a [`Frame`] tells its function. All else is
//! asked of both versions alike. [`flat`] has the same kinds of calls for the flat proposal of a
//! version 2. [`linked`] is for the maps of several objects in one section, as a linker leaves them.
//!
//! [`editions`] keeps what a site sets for its moves, in a store of 64 editions. A restore that names an
//! [`Edition`](editions::Edition) is kept to it; such a restore is explained as a whole, a frame or a thread at
//! a time, and [replayed](editions::Edition::replay) from a [`trace`]. The [`controller`] serves one product.
//! [`report`] counts over many sections.
//!
//! ```
//! // A section of no functions, no constants and no records: version 3 and fifteen zeros.
//! let mut section = vec![3];
//! section.resize(16, 0);
//! assert_eq!(treskibben::check(&section), Ok(()));
//!
//! // One byte more is one too many, and the refusal says where it is.
//! section.push(0);
//! let refusal = treskibben::check(&section).unwrap_err();
//! assert_eq!((refusal.number(), refusal.place()), (9, 16));
//! assert_eq!(refusal.to_string(), "refused 9 at 16: bytes after the last record");
//! ```

#![deny(missing_docs, unsafe_code)]

mod answers;
pub mod controller;
mod conversions;
pub mod editions;
mod explain;
mod explained;
#[allow(unsafe_code)]
mod ffi;
pub mod flat;
mod index;
mod join;
pub mod linked;
mod machine;
mod questions;
mod refusal;
mod relocate;
pub mod report;
mod thread;
pub mod trace;

pub use answers::{ContentPlace, Found, LiveOut, Location, LocationKind};
pub use conversions::{listing_of, section_of, to_listing, to_section};
pub use explain::{explain, Reason, Slot};
pub use explained::{ExplainedPointer, ExplainedSlot};
pub use index::{fill_index, Index};
pub use join::join;
pub use machine::{Machine, Registers, REGISTERS};
pub use questions::{find, find_in_function, live_out, location, record};
pub use refusal::Refusal;
pub use relocate::{relocate, Frame, MoveTable};
pub use thread::{relocate_thread, Frames, ThreadRefusal};
pub use trace::{Difference, Recorded};

/// The version of the library's interface that this crate is written for.
///
/// A library of another version is refused: by the build, or else by the linker, as
/// it lacks a name that the crate refers to.
pub const VERSION: u32 = 3;

/// The version of the library that is linked, as it tells itself; it is [`VERSION`].
///
/// ```
/// assert_eq!(treskibben::version(), treskibben::VERSION);
/// ```
pub fn version() -> u32 {
    ffi::version()
}

/// Checks that `section` is a whole stack map section, of version 3 or 1, and nothing else.
///
/// # Errors
///
/// The first of these faults, in the order of the check: the length and the header, the functions
/// and constants, then record after record, and last the end. 5 and 8 are of version 3 alone.
///
/// | Number | Cause | Place |
/// |---|---|---|
/// | 1 | section under 16 or over 16,777,216 bytes | 0 |
/// | 2 | version neither 1 nor 3 | 0 |
/// | 3 | a byte required to be zero isn't | that byte |
/// | 4 | a function, constant or record isn't wholly inside | its first byte |
/// | 5 | record counts, added exactly, differ from NumRecords | 12 |
/// | 6 | location kind not 1 to 5 | that byte |
/// | 7 | ConstIndex offset negative or not below NumConstants | the location's first byte |
/// | 8 | record address over 2^64 - 1 | the record's first byte |
/// | 9 | bytes after the last record | the first such byte |
///
/// # Examples
///
/// ```
/// // 15 bytes are fewer than a header has.
/// let refusal = treskibben::check(&[3; 15]).unwrap_err();
/// assert_eq!((refusal.number(), refusal.place()), (1, 0));
///
/// // A header of version 1, and one of version 2.
/// assert_eq!(treskibben::check(&[1, 0, 0, 0, 0, 0, 0, 0, 0, 0, 0, 0, 0, 0, 0, 0]), Ok(()));
/// let refusal = treskibben::check(&[2, 0, 0, 0, 0, 0, 0, 0, 0, 0, 0, 0, 0, 0, 0, 0]).unwrap_err();
/// assert_eq!(refusal.to_string(), "refused 2 at 0: version neither 1 nor 3");
/// ```
pub fn check(section: &[u8]) -> Result<(), Refusal> {
    ffi::check(section).outcome().map(|_| ())
}
