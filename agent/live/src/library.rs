//! All that is asked of the library, and nothing else.
//!
//! The check, the questions and the moves are the proved ones. The second implementation's move of a
//! thread stands beside them for the mover `second`.

use crate::heap::Table;
use crate::image::Image;
use treskibben::{Frame, Frames, MoveTable};

/// The machine that a program runs on.
pub use treskibben::Machine;

/// The registers of a stopped frame, by DWARF number.
pub use treskibben::Registers;

/// A refusal: its number and its place.
pub type Refusal = (u64, u64);

/// The record that has an address, and its function.
#[derive(Clone, Copy, Debug)]
pub struct Found {
    /// The record's number in its map.
    pub record: u64,
    /// The function's number in its map.
    pub function: u64,
    /// How many records have the address.
    pub sharing: u64,
}

/// A location of a record.
#[derive(Clone, Copy, Debug)]
pub struct Location {
    /// The kind, 1 to 5.
    pub kind: u8,
    /// The size in bytes.
    pub size: u16,
    /// The register's DWARF number.
    pub register: u16,
    /// The offset.
    pub offset: i32,
    /// The constant of kinds 4 and 5, else 0.
    pub constant: u64,
}

/// The check of a map. The second implementation has to say the same.
pub fn check(map: &[u8]) -> Result<(), Refusal> {
    let proved = treskibben::check(map).map_err(plain);
    let second = reference::check(map).map_err(second_plain);
    assert_eq!(proved, second, "the two checks");
    proved
}

/// The question by address.
pub fn find(map: &[u8], address: u64) -> Result<Found, Refusal> {
    let found = treskibben::find(map, address).map_err(plain)?;
    Ok(Found {
        record: found.record,
        function: found.function,
        sharing: found.sharing,
    })
}

/// The question by record number: the record's bytes.
pub fn record(map: &[u8], number: u64) -> Result<&[u8], Refusal> {
    treskibben::record(map, number).map_err(plain)
}

/// The question by record and location number.
pub fn location(map: &[u8], record: u64, number: u64) -> Result<Location, Refusal> {
    let answer = treskibben::location(map, record, number).map_err(plain)?;
    Ok(Location {
        kind: answer.kind.number(),
        size: answer.size,
        register: answer.register,
        offset: answer.offset,
        constant: answer.constant,
    })
}

/// The library's move of one frame, by its address and its registers: its number of pointers.
pub fn relocate(
    map: &[u8],
    image: &mut Image,
    table: &Table,
    machine: Machine,
    address: u64,
    registers: &mut Registers,
) -> Result<u64, Refusal> {
    let Image { first, bytes } = image;
    let table = MoveTable::new(&table.old, &table.new);
    let frame = Frame::new(address);
    let moved = treskibben::relocate(map, bytes, *first, table, machine, frame, registers);
    let pointers = moved.map_err(plain)?;
    Ok(pointers as u64)
}

/// The library's move of all frames of a list, or none: the sum of their pointers.
pub fn thread(
    map: &[u8],
    image: &mut Image,
    table: &Table,
    machine: Machine,
    addresses: &[u64],
    registers: &mut [Registers],
) -> Result<u64, Refusal> {
    let Image { first, bytes } = image;
    let table = MoveTable::new(&table.old, &table.new);
    let (list, registers) = (frames(addresses), registers.as_flattened_mut());
    let moved = treskibben::relocate_thread(map, bytes, *first, table, machine, &list, registers);
    let pointers = moved.map_err(|refusal| plain(refusal.into()))?;
    Ok(pointers as u64)
}

/// The second implementation's move of all frames of a list.
pub fn second_thread(
    map: &[u8],
    image: &mut Image,
    table: &Table,
    machine: Machine,
    addresses: &[u64],
    registers: &mut [Registers],
) -> Result<u64, Refusal> {
    let Image { first, bytes } = image;
    let Table { old, new } = table;
    let (frames, registers) = (frames(addresses), registers.as_flattened_mut());
    let list = Frames::new(&frames).numbers();
    let machine = machine.number();
    let moved = reference::thread(map, bytes, *first, old, new, machine, list, registers);
    moved.map_err(second_plain)
}

/// Frames at these addresses. The maps are of version 3, which reads no function of a frame.
fn frames(addresses: &[u64]) -> Vec<Frame> {
    addresses.iter().copied().map(Frame::new).collect()
}

fn plain(refusal: treskibben::Refusal) -> Refusal {
    (refusal.number(), refusal.place())
}

fn second_plain(refusal: reference::Refusal) -> Refusal {
    (refusal.number, refusal.place)
}
