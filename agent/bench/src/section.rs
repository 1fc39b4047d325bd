//! A large accepted section with many short records, the same in every run: mostly statepoints with up to six pairs,
//! some with deoptimisation values, and here and there a plain stack map or a patch point with live-outs.

/// The registers of a frame by their DWARF numbers: frame pointer and stack pointer.
const RBP: u16 = 6;
const RSP: u16 = 7;

/// Entries of the pool, one for every so many functions.
const FUNCTIONS_PER_CONSTANT: u64 = 16;

/// A section as long as fits in `limit` bytes.
pub fn build(limit: usize) -> Vec<u8> {
    let mut parts = Parts {
        numbers: Numbers(1),
        ..Parts::default()
    };
    while parts.add_function(limit, Parts::add_record) {}
    parts.bytes()
}

/// Statepoints of one kind, as LLVM emits them: three constants and up to six pairs.
#[derive(Clone, Copy, Default)]
pub struct Statepoints {
    /// Any number of slots up to twelve, so that the locations are odd or even in number.
    pub parity_mixed: bool,
    /// Of a hundred records, those with one to six live-outs.
    pub live_outs: u64,
    /// Of a hundred records, those with one location that is a ConstIndex.
    pub const_index: u64,
}

/// A section of statepoints as long as fits in `limit` bytes.
pub fn statepoints(limit: usize, kind: Statepoints) -> Vec<u8> {
    let mut parts = Parts {
        numbers: Numbers(1),
        ..Parts::default()
    };
    while parts.add_function(limit, |parts, number| parts.add_of_kind(kind, number)) {}
    parts.bytes()
}

/// The three lists of a section as bytes, and how many records there are.
#[derive(Default)]
struct Parts {
    numbers: Numbers,
    functions: Vec<u8>,
    constants: Vec<u8>,
    records: Vec<u8>,
    record_count: u32,
}

impl Parts {
    /// Adds a function with one to eight records, unless the section would be too long.
    fn add_function(&mut self, limit: usize, mut add_record: impl FnMut(&mut Parts, u32)) -> bool {
        let (function_count, constant_count) = (
            self.functions.len() as u64 / 24,
            self.constants.len() as u64 / 8,
        );
        if constant_count * FUNCTIONS_PER_CONSTANT <= function_count {
            self.constants
                .extend((1 << 32 | self.numbers.next()).to_le_bytes());
        }
        let (start, count) = (self.records.len(), 1 + self.numbers.below(8));
        for number in 0..count {
            add_record(self, number as u32);
        }
        if 16 + self.functions.len() + 24 + self.constants.len() + self.records.len() > limit {
            self.records.truncate(start);
            return false;
        }
        let stack_size = 8 * (3 + self.numbers.below(64));
        for field in [0x40_0000 + 0x400 * function_count, stack_size, count] {
            self.functions.extend(field.to_le_bytes());
        }
        self.record_count += count as u32;
        true
    }

    /// The number-th record of its function. One in eight is no statepoint, and half of those have live-outs.
    fn add_record(&mut self, number: u32) {
        let mut locations = Vec::new();
        let mut live_outs = 0;
        match self.numbers.below(16) {
            0 => self.add_plain(&mut locations),
            1 => {
                self.add_plain(&mut locations);
                live_outs = 1 + self.numbers.below(6) as u16;
            }
            _ => self.add_statepoint(&mut locations),
        }
        self.write_record(number, &locations, live_outs);
    }

    /// The number-th record of its function, a statepoint of that kind.
    fn add_of_kind(&mut self, kind: Statepoints, number: u32) {
        let mut locations = vec![constant(0); 3];
        let slots = if kind.parity_mixed {
            self.numbers.below(13)
        } else {
            2 * self.numbers.below(7)
        };
        for _ in 0..slots {
            let slot = self.slot();
            locations.push(slot);
        }
        if self.numbers.below(100) < kind.const_index {
            let at = self.numbers.below(locations.len() as u64) as usize;
            locations[at] = self.const_index();
        }
        let some = self.numbers.below(100) < kind.live_outs;
        let live_outs = if some {
            1 + self.numbers.below(6) as u16
        } else {
            0
        };
        self.write_record(number, &locations, live_outs);
    }

    /// Up to six values of any kind.
    fn add_plain(&mut self, locations: &mut Vec<Location>) {
        for _ in 0..self.numbers.below(7) {
            let value = self.value();
            locations.push(value);
        }
    }

    /// Three constants, sometimes deoptimisation values, and up to six pairs: the first object is its own base, and
    /// each other pointer is derived from it or is an object of its own.
    fn add_statepoint(&mut self, locations: &mut Vec<Location>) {
        let deopt = if self.numbers.below(8) == 0 {
            self.numbers.below(4)
        } else {
            0
        };
        locations.extend([constant(0), constant(0), constant(deopt as i32)]);
        for _ in 0..deopt {
            let value = self.value();
            locations.push(value);
        }
        let object = self.slot();
        for pair in 0..self.numbers.below(7) {
            let derived = if pair == 0 { object } else { self.slot() };
            let base = if self.numbers.below(2) == 0 {
                object
            } else {
                derived
            };
            locations.extend([base, derived]);
        }
    }

    fn slot(&mut self) -> Location {
        (3, 8, RSP, 8 * self.numbers.below(64) as i32)
    }

    fn value(&mut self) -> Location {
        match self.numbers.below(5) {
            0 => (1, 8, self.numbers.below(16) as u16, 0),
            1 => (2, 8, RBP, -8 * self.numbers.below(64) as i32),
            2 => self.slot(),
            3 => constant(self.numbers.below(1000) as i32 - 500),
            _ => self.const_index(),
        }
    }

    fn const_index(&mut self) -> Location {
        (
            5,
            8,
            0,
            self.numbers.below(self.constants.len() as u64 / 8) as i32,
        )
    }

    fn write_record(&mut self, number: u32, locations: &[Location], live_outs: u16) {
        let id = self.numbers.next();
        let out = &mut self.records;
        out.extend(id.to_le_bytes());
        out.extend((16 + 24 * number).to_le_bytes());
        out.extend([0, 0]);
        out.extend((locations.len() as u16).to_le_bytes());
        for &(kind, size, register, offset) in locations {
            out.extend([kind, 0]);
            out.extend(size.to_le_bytes());
            out.extend(register.to_le_bytes());
            out.extend([0, 0]);
            out.extend(offset.to_le_bytes());
        }
        out.resize(out.len() + 4 * (locations.len() % 2), 0);
        out.extend([0, 0]);
        out.extend(live_outs.to_le_bytes());
        for register in 0..live_outs {
            out.extend(register.to_le_bytes());
            out.extend([0, 8]);
        }
        out.resize(out.len() + 4 * (1 - usize::from(live_outs) % 2), 0);
    }

    /// The whole section.
    fn bytes(self) -> Vec<u8> {
        let counts = [
            self.functions.len() as u32 / 24,
            self.constants.len() as u32 / 8,
            self.record_count,
        ];
        let header = [3, 0, 0, 0]
            .into_iter()
            .chain(counts.into_iter().flat_map(u32::to_le_bytes));
        header
            .chain(self.functions)
            .chain(self.constants)
            .chain(self.records)
            .collect()
    }
}

/// The address of the record of `statepoint_with_pairs`.
pub const STATEPOINT: u64 = 0x40_0010;

/// A section of one statepoint, at `STATEPOINT`, with so many pairs of slots: RSP + 16 n, which is its own base and that
/// of the slot behind it, in turn.
pub fn statepoint_with_pairs(pairs: usize) -> Vec<u8> {
    let mut parts = Parts::default();
    let mut locations = vec![constant(0); 3];
    for pair in 0..pairs as i32 {
        let base = (3, 8, RSP, 8 * (pair & !1));
        locations.extend([base, (3, 8, RSP, 8 * pair)]);
    }
    parts.write_record(0, &locations, 0);
    for field in [0x40_0000, 8 * pairs as u64, 1] {
        parts.functions.extend(field.to_le_bytes());
    }
    parts.record_count = 1;
    parts.bytes()
}

/// A section that the bench controller takes, as large as it may be: 64 statepoints of one function, the first at `STATEPOINT`, with 16
/// pairs each, as those of `statepoint_with_pairs`.
pub fn profile() -> Vec<u8> {
    let mut parts = Parts::default();
    let mut locations = vec![constant(0); 3];
    for pair in 0..16 {
        let base = (3, 8, RSP, 8 * (pair & !1));
        locations.extend([base, (3, 8, RSP, 8 * pair)]);
    }
    for number in 0..64 {
        parts.write_record(number, &locations, 0);
    }
    for field in [0x40_0000, 128, 64] {
        parts.functions.extend(u64::to_le_bytes(field));
    }
    parts.record_count = 64;
    parts.bytes()
}

/// A section of one statepoint, at `STATEPOINT`, whose slots from RSP on are each their own base: `pointers` of them, so many to a pair.
pub fn statepoint_of_selves(pointers: usize, to_a_pair: usize) -> Vec<u8> {
    let mut parts = Parts::default();
    let mut locations = vec![constant(0); 3];
    for pair in 0..pointers / to_a_pair {
        let slots = (3, 8 * to_a_pair as u16, RSP, (8 * to_a_pair * pair) as i32);
        locations.extend([slots, slots]);
    }
    parts.write_record(0, &locations, 0);
    for field in [0x40_0000, 8 * pointers as u64, 1] {
        parts.functions.extend(field.to_le_bytes());
    }
    parts.record_count = 1;
    parts.bytes()
}

/// A section as long as fits in `limit` bytes, mostly of records as short as can be, 24 bytes. Each of so many functions
/// begins with a statepoint of two pairs, and the short records are shared out evenly among them.
pub fn short_records(limit: usize, functions: usize) -> Vec<u8> {
    const SHORT: usize = 24;
    let slots = [8, 8, 8, 16].map(|offset| (3, 8, RSP, offset));
    let statepoint = [&[constant(0); 3][..], &slots[..]].concat();
    let mut parts = Parts {
        numbers: Numbers(1),
        ..Parts::default()
    };
    parts.write_record(0, &statepoint, 0);
    let long = parts.records.len();
    parts.records.clear();
    let short = (limit - 16 - functions * (24 + long)) / (functions * SHORT);
    for function in 0..functions as u64 {
        parts.write_record(0, &statepoint, 0);
        for number in 1..=short as u32 {
            parts.write_record(number, &[], 0);
        }
        for field in [0x40_0000 + 0x10_0000 * function, 24, 1 + short as u64] {
            parts.functions.extend(field.to_le_bytes());
        }
        parts.record_count += 1 + short as u32;
    }
    parts.bytes()
}

/// Kind, size, register, offset.
type Location = (u8, u16, u16, i32);

fn constant(value: i32) -> Location {
    (4, 8, 0, value)
}

/// A sequence of numbers that look random and are the same in every run (SplitMix64).
#[derive(Default)]
pub struct Numbers(pub u64);

impl Numbers {
    fn next(&mut self) -> u64 {
        self.0 = self.0.wrapping_add(0x9e37_79b9_7f4a_7c15);
        let mixed = (self.0 ^ self.0 >> 30).wrapping_mul(0xbf58_476d_1ce4_e5b9);
        let mixed = (mixed ^ mixed >> 27).wrapping_mul(0x94d0_49bb_1331_11eb);
        mixed ^ mixed >> 31
    }

    /// A number from 0 up to, not including, the limit.
    pub fn below(&mut self, limit: u64) -> u64 {
        self.next() % limit
    }
}
