//! Questions on a section.
//!
//! Each walks the section once, and first gives the section's own refusal, if there is one.

use crate::answers::{ContentPlace, Found, LiveOut, Location, LocationKind};
use crate::{ffi, Refusal};

/// The first record with this address, in section order.
///
/// A record's address is its function's address plus its instruction offset. Several records may
/// have the same; the answer says how many. The question is for version 3: version 1 doesn't say which
/// function has a record, and has [`find_in_function`] instead. Many addresses are asked for at a time
/// through an [`Index`](crate::Index).
///
/// # Errors
///
/// The refusal of [`check`](crate::check) if the section has a fault, 27 if it is of version 1, and 10
/// exactly if no record has the address.
///
/// # Examples
///
/// ```
/// # fn main() -> Result<(), Box<dyn std::error::Error>> {
/// // A function at 0x1000 that has one record, at offset 0x20.
/// let section = std::fs::read("../samples/h-statepoint.section")?;
///
/// let found = treskibben::find(&section, 0x1020)?;
/// assert_eq!((found.record, found.function, found.sharing), (0, 0, 1));
///
/// let refusal = treskibben::find(&section, 0x1021).unwrap_err();
/// assert_eq!((refusal.number(), refusal.place()), (10, 0));
/// # Ok(())
/// # }
/// ```
pub fn find(section: &[u8], address: u64) -> Result<Found, Refusal> {
    found(ffi::find(section, address))
}

/// The first record at this instruction offset, in section order, asked for by the number of a
/// function.
///
/// The question is for version 1, which doesn't say which function has a record: every function of the
/// section finds the same records. Several records may be at the offset; the answer says how many.
/// Functions are numbered from 0.
///
/// # Errors
///
/// The refusal of [`check`](crate::check) if the section has a fault, 27 if it is of version 3, and 10
/// exactly if there is no such function or no record at the offset.
///
/// # Examples
///
/// ```
/// # fn main() -> Result<(), Box<dyn std::error::Error>> {
/// // One function and one record, at offset 0x20.
/// let section = std::fs::read("../samples/h-version-1.section")?;
///
/// let found = treskibben::find_in_function(&section, 0, 0x20)?;
/// assert_eq!((found.record, found.function, found.sharing), (0, 0, 1));
///
/// for (function, offset) in [(1, 0x20), (0, 0x21)] {
///     let refusal = treskibben::find_in_function(&section, function, offset).unwrap_err();
///     assert_eq!((refusal.number(), refusal.place()), (10, 0));
/// }
///
/// // Each version has its own question.
/// assert_eq!(treskibben::find(&section, 0x1020).unwrap_err().number(), 27);
/// let newer = std::fs::read("../samples/h-statepoint.section")?;
/// assert_eq!(treskibben::find_in_function(&newer, 0, 0x20).unwrap_err().number(), 27);
/// # Ok(())
/// # }
/// ```
pub fn find_in_function(section: &[u8], function: u64, offset: u64) -> Result<Found, Refusal> {
    found(ffi::find_in_function(section, function, offset))
}

/// The bytes of the record with this number, from its ID to its last padding byte: a part of
/// `section` itself.
///
/// Records are numbered from 0 through the whole section. No record is empty.
///
/// # Errors
///
/// The refusal of [`check`](crate::check) if the section has a fault, and 10 if there is no such
/// record.
///
/// # Examples
///
/// ```
/// # fn main() -> Result<(), Box<dyn std::error::Error>> {
/// // A header of 16 bytes, one function of 24, no constants, and one record with ID 7.
/// let section = std::fs::read("../samples/h-statepoint.section")?;
///
/// let record = treskibben::record(&section, 0)?;
/// assert!(std::ptr::eq(record, &section[40..]));
/// assert_eq!(record[..8], 7u64.to_le_bytes());
///
/// assert_eq!(treskibben::record(&section, 1).unwrap_err().number(), 10);
/// # Ok(())
/// # }
/// ```
pub fn record(section: &[u8], number: u64) -> Result<&[u8], Refusal> {
    let answer = ffi::record(section, number);
    answer.verdict.accepted()?;
    Ok(part(section, answer.first, answer.length))
}

/// The location with this number in the record with that one.
///
/// Records are numbered from 0 through the whole section, and locations from 0 in each record.
///
/// # Errors
///
/// The refusal of [`check`](crate::check) if the section has a fault, 10 if there is no such
/// record, and 11 if the record has no such location.
///
/// # Examples
///
/// ```
/// use treskibben::{ContentPlace, LocationKind};
/// # fn main() -> Result<(), Box<dyn std::error::Error>> {
/// // A record of seven locations: three constants, then four slots in the frame.
/// let section = std::fs::read("../samples/h-statepoint.section")?;
///
/// let constant = treskibben::location(&section, 0, 2)?;
/// assert_eq!((constant.kind, constant.constant), (LocationKind::Constant, 0));
/// assert_eq!(constant.content, ContentPlace::Nowhere);
///
/// // The last slot: 8 bytes in memory at register 7 (RSP) plus 16.
/// let slot = treskibben::location(&section, 0, 6)?;
/// assert_eq!((slot.kind, slot.size), (LocationKind::Indirect, 8));
/// assert_eq!((slot.register, slot.offset), (7, 16));
/// assert_eq!(slot.content, ContentPlace::Memory);
///
/// assert_eq!(treskibben::location(&section, 0, 7).unwrap_err().number(), 11);
/// # Ok(())
/// # }
/// ```
pub fn location(section: &[u8], record: u64, number: u64) -> Result<Location, Refusal> {
    let answer = ffi::location(section, record, number);
    answer.verdict.accepted()?;
    Ok(Location {
        kind: kind(answer.kind),
        size: answer.size,
        register: answer.register,
        offset: answer.offset,
        constant: answer.constant,
        content: content(answer.content),
    })
}

/// The live-out with this number in the record with that one.
///
/// Records are numbered from 0 through the whole section, and live-outs from 0 in each record.
///
/// # Errors
///
/// The refusal of [`check`](crate::check) if the section has a fault, 10 if there is no such
/// record, and 11 if the record has no such live-out.
///
/// # Examples
///
/// ```
/// # fn main() -> Result<(), Box<dyn std::error::Error>> {
/// let mut section = std::fs::read("../samples/h-statepoint.section")?;
///
/// // Its record has no live-outs.
/// let refusal = treskibben::live_out(&section, 0, 0).unwrap_err();
/// assert_eq!(refusal.to_string(), "refused 11 at 0: no location or live-out of that number");
///
/// // The last 6 bytes are the number of live-outs and padding. Now there is one: 8 bytes of
/// // register 3.
/// section[146..].copy_from_slice(&[1, 0, 3, 0, 0, 8]);
/// let live_out = treskibben::live_out(&section, 0, 0)?;
/// assert_eq!((live_out.register, live_out.size), (3, 8));
/// # Ok(())
/// # }
/// ```
pub fn live_out(section: &[u8], record: u64, number: u64) -> Result<LiveOut, Refusal> {
    let answer = ffi::live_out(section, record, number);
    answer.verdict.accepted()?;
    Ok(LiveOut {
        register: answer.register,
        size: answer.size,
    })
}

/// The answer of a search, or its refusal.
pub(crate) fn found(answer: ffi::Found) -> Result<Found, Refusal> {
    answer.verdict.accepted()?;
    Ok(Found {
        record: answer.index,
        function: answer.function,
        sharing: answer.sharing,
    })
}

/// The `length` bytes of the section from `first`. The library is proved to answer no others; one
/// that does is not that library, and nothing it says can be used.
fn part(section: &[u8], first: u64, length: u64) -> &[u8] {
    let bytes = usize::try_from(first)
        .ok()
        .and_then(|first| section.get(first..))
        .zip(usize::try_from(length).ok())
        .and_then(|(rest, length)| rest.get(..length));
    match bytes {
        Some(bytes) => bytes,
        None => panic!(
            "libtreskibben answers a record of {length} bytes from byte {first}, outside the \
             section of {} bytes",
            section.len()
        ),
    }
}

/// The kind of this number. The library is proved to answer 1 to 5 only.
fn kind(number: u8) -> LocationKind {
    match LocationKind::of(number) {
        Some(kind) => kind,
        None => panic!("libtreskibben answers a location of kind {number}, and kinds are 1 to 5"),
    }
}

/// The content place of this number. The library is proved to answer 0 to 2 only.
fn content(number: u8) -> ContentPlace {
    match ContentPlace::of(number) {
        Some(place) => place,
        None => panic!("libtreskibben answers the content place {number}, and these are 0 to 2"),
    }
}

#[cfg(test)]
mod tests {
    use super::*;
    use std::panic::catch_unwind;

    /// What the panic says that `action` ends with.
    fn panic_of<T>(action: impl Fn() -> T + std::panic::UnwindSafe) -> String {
        let payload = catch_unwind(action).err().expect("a panic");
        *payload.downcast().expect("a panic with a text")
    }

    #[test]
    fn a_part_inside_is_the_sections_own() {
        let section: Vec<u8> = (0..10).collect();
        for (first, length) in [(0, 10), (3, 4), (9, 1), (10, 0), (0, 0)] {
            let expected = &section[first..first + length];
            assert!(std::ptr::eq(
                part(&section, first as u64, length as u64),
                expected
            ));
        }
    }

    #[test]
    fn a_part_outside_is_a_panic_that_says_so() {
        const MAX: u64 = u64::MAX;
        for (first, length) in [
            (0, 11),
            (10, 1),
            (11, 0),
            (5, 6),
            (MAX, 0),
            (0, MAX),
            (1, MAX),
            (MAX, MAX),
        ] {
            let text = panic_of(|| part(&[0; 10], first, length).len());
            let start = format!("libtreskibben answers a record of {length} bytes from byte {first}, outside the section of 10 ");
            assert!(text.starts_with(&start), "{text}");
        }
    }

    #[test]
    fn a_kind_beyond_the_five_is_a_panic_that_says_so() {
        assert_eq!(kind(5), LocationKind::ConstIndex);
        for number in [0, 6, 255] {
            let text = panic_of(|| kind(number));
            assert!(text.contains(&format!("of kind {number}, ")), "{text}");
        }
    }

    #[test]
    fn a_content_place_beyond_the_three_is_a_panic_that_says_so() {
        assert_eq!(content(2), ContentPlace::Memory);
        for number in [3, 255] {
            let text = panic_of(|| content(number));
            assert!(text.contains(&format!("place {number}, ")), "{text}");
        }
    }
}
