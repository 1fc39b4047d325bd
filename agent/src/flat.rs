//! Flat sections: the proposal of a version 2 in which every entry has a fixed length.
//!
//! A flat section has six arrays: constants, frames, frame registers, records, locations and
//! live-outs. A [`Frame`] names its frame registers and its records, and a [`Record`] its locations
//! and its live-outs, by an index and a count; entries may be shared. Entries are numbered from 0
//! through their whole array. `docs/FLAT.md` has the layout and a section worked out byte by byte.
//!
//! [`check`] judges a section, [`find`] looks up an address, and the other functions read one entry
//! each. Nothing writes a flat section, and no frame is moved by one; [`treskibben::check`] gives it 2.
//!
//! [`treskibben::check`]: crate::check()
//!
//! # Errors
//!
//! All places are 0. Each function first gives the first of 36 to 40 that holds.
//!
//! | Number | Cause |
//! |---|---|
//! | 36 | flat section under 32 or over 16,777,216 bytes |
//! | 37 | version not 2 |
//! | 38 | an offset or the end isn't the earliest aligned place |
//! | 39 | an index plus count is past its array |
//! | 40 | a padding or reserved bit is set |
//! | 41 | no record of any frame is at the address |
//! | 10 | no frame or record of that number |
//! | 11 | no constant, frame register, location or live-out of that number |

pub use crate::answers::LiveOut;

use crate::ffi::flat as ffi;
use crate::Refusal;
use std::ops::Range;

/// The answer to the lookup, [`find`].
#[derive(Clone, Copy, Debug, PartialEq, Eq, Hash)]
pub struct Found {
    /// The number of the first frame that has a record at the address.
    pub frame: u64,
    /// The number of the first such record of that frame, in the whole array.
    pub record: u64,
}

/// What the frames of a function look like.
#[derive(Clone, Copy, Debug, PartialEq, Eq, Hash)]
pub struct Frame {
    /// The function's address.
    pub address: u64,
    /// The function's size in bytes.
    pub function_size: u32,
    /// The stack size in bytes.
    pub stack_size: u32,
    /// The flags; only the lowest four bits can be set.
    pub flags: u16,
    /// The DWARF number of the frame base register.
    pub base_register: u16,
    /// How many frame registers it has.
    pub num_registers: u16,
    /// The number of the first of them.
    pub register_index: u16,
    /// How many records it has.
    pub num_records: u16,
    /// The number of the first of them.
    pub record_index: u16,
}

impl Frame {
    /// Whether the function has a frame: flag 1.
    pub fn has_frame(&self) -> bool {
        self.flags & 1 != 0
    }

    /// Whether it has an alloca of variable size: flag 2.
    pub fn has_variable_size_alloca(&self) -> bool {
        self.flags & 2 != 0
    }

    /// Whether it has stack realignment: flag 4.
    pub fn has_stack_realignment(&self) -> bool {
        self.flags & 4 != 0
    }

    /// Whether it has live-out information: flag 8.
    pub fn has_live_out_info(&self) -> bool {
        self.flags & 8 != 0
    }

    /// The numbers of its frame registers.
    pub fn registers(&self) -> Range<u64> {
        numbers(self.register_index, self.num_registers)
    }

    /// The numbers of its records.
    pub fn records(&self) -> Range<u64> {
        numbers(self.record_index, self.num_records)
    }
}

/// A register of a frame.
#[derive(Clone, Copy, Debug, PartialEq, Eq, Hash)]
pub struct FrameRegister {
    /// The register's DWARF number.
    pub register: u16,
    /// The signed offset.
    pub offset: i16,
    /// The size in bytes.
    pub size: u8,
    /// The flags; only the lowest bit can be set.
    pub flags: u8,
}

impl FrameRegister {
    /// Whether the register is spilled: flag 1.
    pub fn is_spilled(&self) -> bool {
        self.flags & 1 != 0
    }
}

/// A record.
#[derive(Clone, Copy, Debug, PartialEq, Eq, Hash)]
pub struct Record {
    /// The record's ID.
    pub id: u64,
    /// The instruction offset in the function of the frame that names the record.
    pub offset: u32,
    /// The size of the call in bytes.
    pub call_size: u8,
    /// The flags; only the lowest bit can be set.
    pub flags: u8,
    /// How many locations it has.
    pub num_locations: u16,
    /// The number of the first of them.
    pub location_index: u16,
    /// How many live-outs it has.
    pub num_live_outs: u16,
    /// The number of the first of them.
    pub live_out_index: u16,
}

impl Record {
    /// Whether it has live-out information: flag 1.
    pub fn has_live_out_info(&self) -> bool {
        self.flags & 1 != 0
    }

    /// The numbers of its locations.
    pub fn locations(&self) -> Range<u64> {
        numbers(self.location_index, self.num_locations)
    }

    /// The numbers of its live-outs.
    pub fn live_outs(&self) -> Range<u64> {
        numbers(self.live_out_index, self.num_live_outs)
    }
}

/// A location. None of its fields is judged by the check.
#[derive(Clone, Copy, Debug, PartialEq, Eq, Hash)]
pub struct Location {
    /// The number of its kind: of those that [`LocationKind`](crate::LocationKind) has, or any other.
    pub kind: u8,
    /// The register's DWARF number.
    pub register: u16,
    /// The signed offset, the small constant of kind 4, or the number of a constant of kind 5.
    pub offset: i32,
}

/// The `count` numbers from `index` on.
fn numbers(index: u16, count: u16) -> Range<u64> {
    let first = u64::from(index);
    first..first + u64::from(count)
}

/// Checks that `section` is a whole flat section and nothing else.
///
/// # Errors
///
/// The first of 36 to 40 that holds.
///
/// # Examples
///
/// ```
/// use treskibben::flat;
/// # fn main() -> Result<(), Box<dyn std::error::Error>> {
/// let mut section = std::fs::read("../samples/worked.flat")?;
/// assert_eq!(flat::check(&section), Ok(()));
///
/// // The versions of LLVM are 1 and 3.
/// assert_eq!(treskibben::check(&section).unwrap_err().number(), 2);
///
/// // A byte that is reserved.
/// section[3] = 1;
/// let refusal = flat::check(&section).unwrap_err();
/// assert_eq!(refusal.to_string(), "refused 40 at 0: a padding or reserved bit is set");
/// # Ok(())
/// # }
/// ```
pub fn check(section: &[u8]) -> Result<(), Refusal> {
    ffi::check(section).outcome().map(|_| ())
}

/// The first record at this address: in frame order, and in a frame in record order.
///
/// A record's address is the function address of a frame that names it plus its instruction offset, a
/// sum that doesn't wrap.
///
/// # Errors
///
/// 36 to 40 as [`check`], and 41 exactly if no record of any frame is there.
///
/// # Examples
///
/// ```
/// use treskibben::flat;
/// # fn main() -> Result<(), Box<dyn std::error::Error>> {
/// // Two frames, at 0x401000 and 0x402000, that share record 1, at offset 0x20.
/// let section = std::fs::read("../samples/worked.flat")?;
///
/// let found = flat::find(&section, 0x402020)?;
/// assert_eq!((found.frame, found.record), (1, 1));
/// assert_eq!(flat::find(&section, 0x402021).unwrap_err().number(), 41);
///
/// // What the record says, and where it says its values are.
/// let record = flat::record(&section, found.record)?;
/// assert_eq!((record.id, record.locations()), (8, 3..5));
/// for number in record.locations() {
///     println!("{:?}", flat::location(&section, number)?);
/// }
/// # Ok(())
/// # }
/// ```
pub fn find(section: &[u8], address: u64) -> Result<Found, Refusal> {
    let answer = ffi::find(section, address);
    answer.verdict.accepted()?;
    Ok(Found {
        frame: answer.frame,
        record: answer.record,
    })
}

/// The constant with this number.
///
/// # Errors
///
/// 36 to 40 as [`check`], and 11 if there is no such constant.
///
/// # Examples
///
/// ```
/// use treskibben::flat;
/// # fn main() -> Result<(), Box<dyn std::error::Error>> {
/// let section = std::fs::read("../samples/worked.flat")?;
/// assert_eq!(flat::constant(&section, 0)?, 0xfedc_ba98_7654_3210);
/// assert_eq!(flat::constant(&section, 1).unwrap_err().number(), 11);
/// # Ok(())
/// # }
/// ```
pub fn constant(section: &[u8], number: u64) -> Result<u64, Refusal> {
    ffi::constant(section, number).outcome()
}

/// The frame with this number.
///
/// # Errors
///
/// 36 to 40 as [`check`], and 10 if there is no such frame.
///
/// # Examples
///
/// ```
/// use treskibben::flat;
/// # fn main() -> Result<(), Box<dyn std::error::Error>> {
/// let section = std::fs::read("../samples/worked.flat")?;
/// let frame = flat::frame(&section, 1)?;
/// assert_eq!((frame.address, frame.stack_size), (0x402000, 56));
/// assert_eq!((frame.registers(), frame.records()), (1..3, 1..3));
/// assert!(frame.has_stack_realignment() && !frame.has_frame());
/// assert_eq!(flat::frame(&section, 2).unwrap_err().number(), 10);
/// # Ok(())
/// # }
/// ```
pub fn frame(section: &[u8], number: u64) -> Result<Frame, Refusal> {
    let answer = ffi::frame(section, number);
    answer.verdict.accepted()?;
    Ok(Frame {
        address: answer.address,
        function_size: answer.function_size,
        stack_size: answer.stack_size,
        flags: answer.flags,
        base_register: answer.base_register,
        num_registers: answer.num_registers,
        register_index: answer.register_index,
        num_records: answer.num_records,
        record_index: answer.record_index,
    })
}

/// The frame register with this number.
///
/// # Errors
///
/// 36 to 40 as [`check`], and 11 if there is no such frame register.
///
/// # Examples
///
/// ```
/// use treskibben::flat;
/// # fn main() -> Result<(), Box<dyn std::error::Error>> {
/// let section = std::fs::read("../samples/worked.flat")?;
/// let register = flat::frame_register(&section, 0)?;
/// assert_eq!((register.register, register.offset, register.size), (6, -16, 8));
/// assert!(register.is_spilled());
/// assert_eq!(flat::frame_register(&section, 3).unwrap_err().number(), 11);
/// # Ok(())
/// # }
/// ```
pub fn frame_register(section: &[u8], number: u64) -> Result<FrameRegister, Refusal> {
    let answer = ffi::frame_register(section, number);
    answer.verdict.accepted()?;
    Ok(FrameRegister {
        register: answer.register,
        offset: answer.offset,
        size: answer.size,
        flags: answer.flags,
    })
}

/// The record with this number.
///
/// # Errors
///
/// 36 to 40 as [`check`], and 10 if there is no such record.
///
/// # Examples
///
/// ```
/// use treskibben::flat;
/// # fn main() -> Result<(), Box<dyn std::error::Error>> {
/// let section = std::fs::read("../samples/worked.flat")?;
/// let record = flat::record(&section, 0)?;
/// assert_eq!((record.id, record.offset, record.call_size), (7, 0x10, 5));
/// assert_eq!((record.locations(), record.live_outs()), (0..3, 0..2));
/// assert_eq!(flat::record(&section, 3).unwrap_err().number(), 10);
/// # Ok(())
/// # }
/// ```
pub fn record(section: &[u8], number: u64) -> Result<Record, Refusal> {
    let answer = ffi::record(section, number);
    answer.verdict.accepted()?;
    Ok(Record {
        id: answer.id,
        offset: answer.offset,
        call_size: answer.call_size,
        flags: answer.flags,
        num_locations: answer.num_locations,
        location_index: answer.location_index,
        num_live_outs: answer.num_live_outs,
        live_out_index: answer.live_out_index,
    })
}

/// The location with this number.
///
/// # Errors
///
/// 36 to 40 as [`check`], and 11 if there is no such location.
///
/// # Examples
///
/// ```
/// use treskibben::flat;
/// # fn main() -> Result<(), Box<dyn std::error::Error>> {
/// let section = std::fs::read("../samples/worked.flat")?;
/// let location = flat::location(&section, 2)?;
/// assert_eq!((location.kind, location.register, location.offset), (3, 6, -8));
/// assert_eq!(flat::location(&section, 5).unwrap_err().number(), 11);
/// # Ok(())
/// # }
/// ```
pub fn location(section: &[u8], number: u64) -> Result<Location, Refusal> {
    let answer = ffi::location(section, number);
    answer.verdict.accepted()?;
    Ok(Location {
        kind: answer.kind,
        register: answer.register,
        offset: answer.offset,
    })
}

/// The live-out with this number.
///
/// # Errors
///
/// 36 to 40 as [`check`], and 11 if there is no such live-out.
///
/// # Examples
///
/// ```
/// use treskibben::flat;
/// # fn main() -> Result<(), Box<dyn std::error::Error>> {
/// let section = std::fs::read("../samples/worked.flat")?;
/// let live_out = flat::live_out(&section, 1)?;
/// assert_eq!((live_out.register, live_out.size), (17, 16));
/// assert_eq!(flat::live_out(&section, 2).unwrap_err().number(), 11);
/// # Ok(())
/// # }
/// ```
pub fn live_out(section: &[u8], number: u64) -> Result<LiveOut, Refusal> {
    let answer = ffi::live_out(section, number);
    answer.verdict.accepted()?;
    Ok(LiveOut {
        register: answer.register,
        size: answer.size,
    })
}
