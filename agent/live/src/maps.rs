//! The maps of a linked section, and what they say of a return address.

use crate::library::{self, Location};

/// The bytes of a section's header and of a function in it, and where its stack size stands.
const HEADER: u64 = 16;
const FUNCTION: u64 = 24;
const STACK_SIZE: u64 = 8;

/// The bytes of a pointer.
const POINTER: u16 = 8;

/// The maps that a linker put one after the other into one section.
pub struct Maps {
    maps: Vec<&'static [u8]>,
}

/// Where one side of a pair is.
#[derive(Clone, Copy, Debug, PartialEq, Eq)]
pub enum Place {
    /// A constant, of kind 4 or 5.
    Constant(u64),
    /// The memory at a register (DWARF number) plus an offset, and how many pointers are there, one
    /// after another.
    Memory(u16, i32, u16),
    /// A register (DWARF number) that holds one pointer itself.
    Register(u16),
    /// Anything else, which a move refuses.
    Other,
}

/// What the maps say of one return address.
#[derive(Clone, Debug)]
pub struct Site {
    /// The number of the map, and its bytes.
    pub map: usize,
    /// The map's bytes.
    pub bytes: &'static [u8],
    /// The record's ID, which says whose statepoint it is.
    pub id: u64,
    /// The address of the function's first instruction.
    pub function: u64,
    /// The function's stack size.
    pub stack_size: u64,
    /// How many values stand before the pairs.
    pub deopt: u64,
    /// The pairs, base first.
    pub pairs: Vec<[Place; 2]>,
}

impl Maps {
    /// Cuts a section into its maps: the check refuses it by 9 at the place where the second map
    /// begins, and the first part is then accepted by itself.
    pub fn cut(section: &'static [u8]) -> Maps {
        let mut maps = Vec::new();
        let mut rest = section;
        loop {
            match library::check(rest) {
                Ok(()) => {
                    maps.push(rest);
                    return Maps { maps };
                }
                Err((9, place)) => {
                    let (map, after) = rest.split_at(place as usize);
                    assert_eq!(library::check(map), Ok(()), "the map before the cut");
                    maps.push(map);
                    rest = after;
                }
                Err((number, place)) => panic!("the section is refused by {number} at {place}"),
            }
        }
    }

    /// How many maps there are.
    pub fn count(&self) -> usize {
        self.maps.len()
    }

    /// What stands at a return address, in the one map that has it; nothing if none has.
    pub fn find(&self, address: u64) -> Option<Site> {
        let mut sites = self.maps.iter().enumerate().filter_map(|(number, &map)| {
            let found = library::find(map, address).ok()?;
            assert_eq!(found.sharing, 1, "records at {address:#x}");
            Some(site(number, map, found))
        });
        let site = sites.next();
        assert!(sites.next().is_none(), "two maps have {address:#x}");
        site
    }
}

fn site(number: usize, map: &'static [u8], found: library::Found) -> Site {
    let function = HEADER + FUNCTION * found.function;
    let record = library::record(map, found.record).expect("the record was found");
    let deopt = location(map, found.record, 2)
        .expect("a statepoint has three locations")
        .constant;
    let mut pairs = Vec::new();
    let mut at = 3 + deopt;
    while let Some(base) = location(map, found.record, at) {
        let derived = location(map, found.record, at + 1).expect("pairs have two locations");
        pairs.push([place(base), place(derived)]);
        at += 2;
    }
    Site {
        map: number,
        bytes: map,
        id: word(record, 0),
        function: word(map, function),
        stack_size: word(map, function + STACK_SIZE),
        deopt,
        pairs,
    }
}

/// A location of a record; nothing where the record has no more.
fn location(map: &[u8], record: u64, number: u64) -> Option<Location> {
    match library::location(map, record, number) {
        Ok(location) => Some(location),
        Err((11, _)) => None,
        Err((number, place)) => panic!("a location is refused by {number} at {place}"),
    }
}

fn place(location: Location) -> Place {
    match (location.kind, location.size) {
        (4 | 5, _) => Place::Constant(location.constant),
        (1, POINTER) if location.offset == 0 => Place::Register(location.register),
        (3, size) if size > 0 && size % POINTER == 0 => {
            Place::Memory(location.register, location.offset, size / POINTER)
        }
        _ => Place::Other,
    }
}

/// The eight bytes from a place on.
fn word(bytes: &[u8], at: u64) -> u64 {
    let from = bytes.get(at as usize..).and_then(|rest| rest.first_chunk());
    u64::from_le_bytes(*from.expect("the bytes are long enough"))
}
