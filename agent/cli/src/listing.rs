//! A listing as data. Its bytes come from the library, which writes none that break the grammar.

/// A function.
#[derive(Clone, Copy, Debug, PartialEq, Eq)]
pub struct Function {
    pub address: u64,
    pub stack_size: u64,
    pub record_count: u64,
}

/// A record with all that belongs to it.
#[derive(Clone, Debug, Default, PartialEq, Eq)]
pub struct Record {
    pub id: u64,
    pub offset: u32,
    pub locations: Vec<Location>,
    pub live_outs: Vec<LiveOut>,
}

/// A location.
#[derive(Clone, Copy, Debug, PartialEq, Eq)]
pub struct Location {
    pub kind: u8,
    pub size: u16,
    pub register: u16,
    pub offset: i32,
}

/// A live-out.
#[derive(Clone, Copy, Debug, PartialEq, Eq)]
pub struct LiveOut {
    pub register: u16,
    pub size: u8,
}

/// The functions of a section, as far as they stand in its bytes: address and stack size.
pub fn functions(section: &[u8]) -> impl Iterator<Item = (u64, u64)> + use<'_> {
    let number = section.get(4..8).map_or(0, |bytes| {
        u32::from_le_bytes(bytes.try_into().unwrap_or_default())
    });
    let size = if section.first() == Some(&1) { 16 } else { 24 };
    let bodies = section.get(16..).unwrap_or_default().chunks_exact(size);
    let word = |bytes: &[u8]| u64::from_le_bytes(bytes.try_into().unwrap_or_default());
    let read = move |body: &[u8]| (word(&body[..8]), word(&body[8..16]));
    bodies.take(number as usize).map(read)
}

/// The stack size of the function with this number, in a section of version 1.
pub fn stack_size(section: &[u8], function: u64) -> Option<u64> {
    let at = usize::try_from(function).ok()?.checked_mul(16)?;
    let size = section.get(at.checked_add(24)?..)?.first_chunk()?;
    Some(u64::from_le_bytes(*size))
}

/// Whether sections of version 3 have functions, and all of them at address 0: so it is until a linker or a
/// loader has put in where they are.
pub fn all_at_zero<'a>(sections: impl IntoIterator<Item = &'a [u8]>) -> bool {
    let mut addresses = sections
        .into_iter()
        .filter(|section| section.first() == Some(&3))
        .flat_map(functions)
        .map(|(address, _)| address)
        .peekable();
    addresses.peek().is_some() && addresses.all(|address| address == 0)
}

/// A listing: its tables read, its records still bytes.
pub struct Listing<'a> {
    /// Whether it is of version 1, which doesn't say which function has a record.
    pub version_1: bool,
    pub functions: Vec<Function>,
    pub constants: Vec<u64>,
    records: Items<'a>,
}

impl<'a> Listing<'a> {
    /// Reads the tables of a listing.
    pub fn read(bytes: &'a [u8]) -> Listing<'a> {
        let mut items = Items(bytes);
        let version_1 = items.next_of::<1>(7).is_some();
        let mut functions = Vec::new();
        while let Some(body) = items.next_of::<24>(1) {
            functions.push(Function {
                address: u64::from_le_bytes(part(body, 0)),
                stack_size: u64::from_le_bytes(part(body, 8)),
                record_count: u64::from_le_bytes(part(body, 16)),
            });
        }
        let mut constants = Vec::new();
        while let Some(body) = items.next_of::<8>(2) {
            constants.push(u64::from_le_bytes(*body));
        }
        Listing {
            version_1,
            functions,
            constants,
            records: items,
        }
    }

    /// The records in order, each with the number of its function; of version 1, whose functions count no
    /// records, without.
    pub fn records(&self) -> impl Iterator<Item = (Option<usize>, Record)> + use<'a, '_> {
        let mut owners = self
            .functions
            .iter()
            .enumerate()
            .flat_map(|(number, function)| (0..function.record_count).map(move |_| number));
        let mut items = Items(self.records.0);
        std::iter::from_fn(move || {
            let record = items.record()?;
            Some((owners.next(), record))
        })
    }

    /// How many pointers a pair holds: of version 3 as many as its two equal sizes have room for, 1 to 256,
    /// where both locations are Indirect. Of version 1 it is not said here: a pair is one pointer there.
    pub fn pointers(&self, pair: &[Location]) -> Option<u64> {
        let size = pair.first()?.size;
        let equal = pair.iter().all(|one| one.kind == 3 && one.size == size);
        let right = size.is_multiple_of(8) && (8..=2_048).contains(&size);
        (equal && right && !self.version_1).then_some(u64::from(size / 8))
    }

    /// The 64-bit constant of a location that is one, of kind 4 or 5.
    pub fn constant(&self, location: &Location) -> Option<u64> {
        match location.kind {
            4 => Some(i64::from(location.offset) as u64),
            5 => {
                let index = usize::try_from(location.offset).ok()?;
                self.constants.get(index).copied()
            }
            _ => None,
        }
    }
}

/// The items that are left of a listing.
struct Items<'a>(&'a [u8]);

impl<'a> Items<'a> {
    /// The body of the next item, if that is of this kind.
    fn next_of<const N: usize>(&mut self, kind: u8) -> Option<&'a [u8; N]> {
        let (first, rest) = self.0.split_first()?;
        let (body, rest) = rest.split_first_chunk().filter(|_| *first == kind)?;
        self.0 = rest;
        Some(body)
    }

    /// The next record, if there is one.
    fn record(&mut self) -> Option<Record> {
        let head = self.next_of::<12>(3)?;
        let mut record = Record {
            id: u64::from_le_bytes(part(head, 0)),
            offset: u32::from_le_bytes(part(head, 8)),
            ..Record::default()
        };
        while let Some(body) = self.next_of::<9>(4) {
            record.locations.push(Location {
                kind: body[0],
                size: u16::from_le_bytes(part(body, 1)),
                register: u16::from_le_bytes(part(body, 3)),
                offset: i32::from_le_bytes(part(body, 5)),
            });
        }
        while let Some(body) = self.next_of::<3>(5) {
            record.live_outs.push(LiveOut {
                register: u16::from_le_bytes(part(body, 0)),
                size: body[2],
            });
        }
        Some(record)
    }
}

/// The `N` bytes of a body from a place on. The bodies are long enough for all their fields.
fn part<const N: usize, const M: usize>(body: &[u8; M], at: usize) -> [u8; N] {
    std::array::from_fn(|index| body[at + index])
}

/// What a location of a statepoint is for.
#[derive(Clone, Copy, Debug, PartialEq, Eq)]
pub enum Role {
    /// The first two, which say how the call was made.
    Call,
    /// The third: how many locations are for deoptimization.
    DeoptCount,
    /// One of those.
    Deopt,
    /// The base of the pair with this number.
    Base(usize),
    /// The derived pointer of the pair with this number.
    Derived(usize),
}

impl Record {
    /// The number of deopt locations, if the record is a statepoint: at least three locations, the
    /// first three constants, the third not negative and not more than there are, an even number
    /// left, and no live-outs.
    pub fn deopt_count(&self) -> Option<usize> {
        let (constants, rest) = self.locations.split_first_chunk::<3>()?;
        let deopt = usize::try_from(constants[2].offset).ok()?;
        let left = rest.len().checked_sub(deopt)?;
        let constant = constants.iter().all(|location| location.kind == 4);
        (constant && left % 2 == 0 && self.live_outs.is_empty()).then_some(deopt)
    }

    /// The two locations of a pair, in a statepoint with so many deopt locations.
    pub fn pair(&self, number: usize, deopt: usize) -> &[Location] {
        &self.locations[3 + deopt + 2 * number..][..2]
    }

    /// The number of pairs, if the record is a statepoint.
    pub fn pairs(&self) -> Option<usize> {
        let deopt = self.deopt_count()?;
        Some((self.locations.len() - 3 - deopt) / 2)
    }
}

/// What the location of this number is for, in a statepoint with so many deopt locations.
pub fn role(number: usize, deopt: usize) -> Role {
    match number.checked_sub(3 + deopt) {
        Some(after) if after % 2 == 0 => Role::Base(after / 2),
        Some(after) => Role::Derived(after / 2),
        None if number < 2 => Role::Call,
        None if number == 2 => Role::DeoptCount,
        None => Role::Deopt,
    }
}
