//! Sections, frames and random numbers that the tests share.

use crate::editions::AMD64;
use crate::machine::Machine;
use crate::relocate::{extent, relocate, Frame, REGISTERS};
use crate::section::{encode, write, Function, LiveOut, Location, Record, RecordData, Version};
use crate::Refusal;

/// The bytes that a text of two-digit hexadecimal numbers names.
pub(crate) fn hex(text: &str) -> Vec<u8> {
    let byte = |digits: &str| {
        assert_eq!(digits.len(), 2, "{text}");
        u8::from_str_radix(digits, 16).unwrap()
    };
    text.split_whitespace().map(byte).collect()
}

/// Row C: a section that holds nothing.
pub(crate) fn row_c() -> Vec<u8> {
    hex("03 00 00 00  00 00 00 00  00 00 00 00  00 00 00 00")
}

/// Row H, 152 bytes. The record is at 40, its locations at 56, 68, 80, 92,
/// 104, 116 and 128, their padding at 140, NumLiveOuts at 146 and the last
/// padding at 148.
pub(crate) fn row_h() -> Vec<u8> {
    hex("03 00 00 00  01 00 00 00  00 00 00 00  01 00 00 00
         00 10 00 00 00 00 00 00  18 00 00 00 00 00 00 00  01 00 00 00 00 00 00 00
         07 00 00 00 00 00 00 00  20 00 00 00  00 00  07 00
         04 00 08 00 00 00 00 00 00 00 00 00
         04 00 08 00 00 00 00 00 00 00 00 00
         04 00 08 00 00 00 00 00 00 00 00 00
         03 00 08 00 07 00 00 00 08 00 00 00
         03 00 08 00 07 00 00 00 08 00 00 00
         03 00 08 00 07 00 00 00 08 00 00 00
         03 00 08 00 07 00 00 00 10 00 00 00
         00 00 00 00
         00 00  00 00
         00 00 00 00")
}

/// The record of row H as it is read.
pub(crate) fn row_h_record() -> Record {
    Record {
        id: 7,
        offset: 0x20,
        locations: vec![
            small(0),
            small(0),
            small(0),
            rsp(8),
            rsp(8),
            rsp(8),
            rsp(16),
        ],
        live_outs: vec![],
        first: 40,
        length: 112,
        function: 0,
        address: 0x1020,
    }
}

/// The listing of row H, 109 bytes.
pub(crate) fn row_h_listing() -> Vec<u8> {
    hex(
        "01 00 10 00 00 00 00 00 00 18 00 00 00 00 00 00 00 01 00 00 00 00 00 00 00
         03 07 00 00 00 00 00 00 00 20 00 00 00
         04 04 08 00 00 00 00 00 00 00
         04 04 08 00 00 00 00 00 00 00
         04 04 08 00 00 00 00 00 00 00
         04 03 08 00 07 00 08 00 00 00
         04 03 08 00 07 00 08 00 00 00
         04 03 08 00 07 00 08 00 00 00
         04 03 08 00 07 00 10 00 00 00
         06",
    )
}

/// Row H as version 1 has it, 112 bytes. The record is at 32, its locations at
/// 48, 56, 64, 72, 80, 88 and 96, NumLiveOuts at 106 and the last padding at
/// 108.
pub(crate) fn row_h_1() -> Vec<u8> {
    hex("01 00 00 00  01 00 00 00  00 00 00 00  01 00 00 00
         00 10 00 00 00 00 00 00  18 00 00 00 00 00 00 00
         07 00 00 00 00 00 00 00  20 00 00 00  00 00  07 00
         04 08 00 00 00 00 00 00
         04 08 00 00 00 00 00 00
         04 08 00 00 00 00 00 00
         03 08 07 00 08 00 00 00
         03 08 07 00 08 00 00 00
         03 08 07 00 08 00 00 00
         03 08 07 00 10 00 00 00
         00 00  00 00
         00 00 00 00")
}

/// The listing of row H as version 1 has it, 111 bytes: item 7 before all
/// others, and a record count of 0.
pub(crate) fn row_h_1_listing() -> Vec<u8> {
    [hex("07 01"), with(row_h_listing(), 17, 0)].concat()
}

/// The same bytes with one of them set.
pub(crate) fn with(mut bytes: Vec<u8>, at: usize, byte: u8) -> Vec<u8> {
    bytes[at] = byte;
    bytes
}

pub(crate) fn refusal<T>(number: u64, place: u64) -> Result<T, Refusal> {
    Err(Refusal { number, place })
}

pub(crate) fn function(address: u64, stack_size: u64, record_count: u64) -> Function {
    Function {
        address,
        stack_size,
        record_count,
    }
}

pub(crate) fn location(kind: u8, size: u16, register: u16, offset: i32) -> Location {
    Location {
        kind,
        size,
        register,
        offset,
    }
}

/// A slot at RSP plus `offset`.
pub(crate) fn rsp(offset: i32) -> Location {
    location(3, 8, 7, offset)
}

/// A slot at RBP plus `offset`.
pub(crate) fn rbp(offset: i32) -> Location {
    location(3, 8, 6, offset)
}

/// A register of this number.
pub(crate) fn register(number: u16) -> Location {
    location(1, 8, number, 0)
}

/// Registers of which each holds something else, and no address that a test
/// uses.
pub(crate) fn noise() -> Vec<u64> {
    (0..REGISTERS as u64).map(|nth| 0xBAD_0000 + nth).collect()
}

/// A constant of kind 4.
pub(crate) fn small(value: i32) -> Location {
    location(4, 8, 0, value)
}

pub(crate) fn live_out(register: u16, size: u8) -> LiveOut {
    LiveOut { register, size }
}

pub(crate) fn record(offset: u32, locations: Vec<Location>, live_outs: Vec<LiveOut>) -> RecordData {
    RecordData {
        id: 7,
        offset,
        locations,
        live_outs,
    }
}

/// A statepoint with no deopt locations.
pub(crate) fn statepoint(offset: u32, pairs: &[(Location, Location)]) -> RecordData {
    let mut locations = vec![small(0), small(0), small(0)];
    for (base, derived) in pairs {
        locations.extend([base.clone(), derived.clone()]);
    }
    record(offset, locations, vec![])
}

/// One function at 0x1000 with all the records.
pub(crate) fn one_function(stack_size: u64, constants: &[u64], records: &[RecordData]) -> Vec<u8> {
    encode(
        &[function(0x1000, stack_size, records.len() as u64)],
        constants,
        records,
    )
}

/// All that a frame move is given.
#[derive(Clone)]
pub(crate) struct Move {
    pub(crate) section: Vec<u8>,
    pub(crate) image: Vec<u8>,
    pub(crate) first: u64,
    pub(crate) old_starts: Vec<u64>,
    pub(crate) new_starts: Vec<u64>,
    pub(crate) machine: u64,
    pub(crate) frame: Frame,
    pub(crate) registers: Vec<u64>,
}

impl Move {
    /// Row I.
    pub(crate) fn row_i() -> Move {
        let mut row = Move {
            section: row_h(),
            image: vec![0xEE; 24],
            first: 0x7000,
            old_starts: vec![0x50000],
            new_starts: vec![0x90000],
            machine: AMD64,
            frame: Frame {
                address: 0x1020,
                function: 0,
            },
            registers: noise(),
        };
        row.set_pointers(0, 0x7000);
        row.set(8, 0x50000);
        row.set(16, 0x54E20);
        row
    }

    /// Row I on row H as version 1 has it: its offset in place of the address.
    pub(crate) fn row_i_1() -> Move {
        let mut row = Move::row_i();
        row.section = row_h_1();
        row.frame.address = 0x20;
        row
    }

    /// Row I with other pairs in a stack frame of `slots` slots, all of them 0.
    pub(crate) fn of_pairs(slots: usize, pairs: &[(Location, Location)]) -> Move {
        let section = one_function(8 * slots as u64, &[], &[statepoint(0x20, pairs)]);
        Move {
            section,
            image: vec![0; 8 * slots],
            ..Move::row_i()
        }
    }

    /// Puts this frame on another machine: its two pointers hold what this
    /// one's did, which hold something else from then on.
    pub(crate) fn on(mut self, machine: u64) -> Move {
        let [frame_pointer, stack_pointer] = self.pointers().map(|own| self.registers[own]);
        for own in self.pointers() {
            self.registers[own] = 0xBAD_0000 + own as u64;
        }
        self.machine = machine;
        self.set_pointers(frame_pointer, stack_pointer);
        self
    }

    /// The numbers of the machine's frame pointer and stack pointer.
    fn pointers(&self) -> [usize; 2] {
        let machine = Machine::of_number(self.machine).unwrap();
        [machine.frame_pointer(), machine.stack_pointer()].map(usize::from)
    }

    /// Sets the machine's frame pointer and stack pointer.
    pub(crate) fn set_pointers(&mut self, frame_pointer: u64, stack_pointer: u64) {
        let [of_frame, of_stack] = self.pointers();
        self.registers[of_frame] = frame_pointer;
        self.registers[of_stack] = stack_pointer;
    }

    /// Sets the machine's frame pointer.
    pub(crate) fn set_frame_pointer(&mut self, content: u64) {
        let [of_frame, _] = self.pointers();
        self.registers[of_frame] = content;
    }

    /// Sets the machine's stack pointer.
    pub(crate) fn set_stack_pointer(&mut self, content: u64) {
        let [_, of_stack] = self.pointers();
        self.registers[of_stack] = content;
    }

    /// The frame's extent.
    pub(crate) fn extent(&self) -> Option<(u128, u128)> {
        extent(&self.section, self.machine, self.frame, &self.registers)
    }

    /// Sets the slot at a byte of the image.
    pub(crate) fn set(&mut self, at: usize, content: u64) {
        self.image[at..at + 8].copy_from_slice(&content.to_le_bytes());
    }

    /// The content of the slot at a byte of the image.
    pub(crate) fn slot(&self, at: usize) -> u64 {
        u64::from_le_bytes(self.image[at..at + 8].try_into().unwrap())
    }

    /// Moves the frame; a refused move must leave image and registers as they
    /// were.
    pub(crate) fn run(&mut self) -> Result<u64, Refusal> {
        let before = (self.image.clone(), self.registers.clone());
        let (old_starts, new_starts) = (&self.old_starts, &self.new_starts);
        let answer = relocate(
            &self.section,
            &mut self.image,
            self.first,
            old_starts,
            new_starts,
            self.machine,
            self.frame,
            &mut self.registers,
        );
        let same = (&self.image, &self.registers) == (&before.0, &before.1);
        assert!(answer.is_ok() || same);
        answer
    }
}

/// The two lists of a thread on a machine: its frames, which are given as
/// address, frame pointer, stack pointer and function number, and their
/// registers.
pub(crate) fn lists(machine: u64, frames: &[[u64; 4]]) -> (Vec<u64>, Vec<u64>) {
    let (mut list, mut registers) = (vec![], vec![]);
    for &[address, frame_pointer, stack_pointer, function] in frames {
        let mut frame = Move::row_i().on(machine);
        frame.set_pointers(frame_pointer, stack_pointer);
        list.extend([address, function]);
        registers.extend(frame.registers);
    }
    (list, registers)
}

/// Random numbers, the same in every run.
pub(crate) struct Random(pub(crate) u64);

impl Random {
    pub(crate) fn next(&mut self) -> u64 {
        self.0 ^= self.0 << 13;
        self.0 ^= self.0 >> 7;
        self.0 ^= self.0 << 17;
        self.0.wrapping_mul(0x2545_F491_4F6C_DD1D) >> 16
    }

    /// A number below `limit`.
    pub(crate) fn below(&mut self, limit: u64) -> u64 {
        self.next() % limit
    }

    /// An accepted section with a few functions, constants and records, of
    /// either version.
    pub(crate) fn section(&mut self) -> Vec<u8> {
        let version = [Version::One, Version::Three][self.below(2) as usize];
        let constants: Vec<u64> = (0..self.below(4)).map(|_| self.next()).collect();
        let (mut functions, mut records) = (vec![], vec![]);
        for _ in 0..self.below(4) {
            let count = self.below(4);
            functions.push(function(self.below(8) * 0x1000, 8 * self.below(9), count));
            for _ in 0..count {
                let (num_locations, num_live_outs) = (self.below(6), self.below(4));
                let num_constants = constants.len();
                let locations = (0..num_locations)
                    .map(|_| self.location(num_constants))
                    .collect();
                let live_outs = (0..num_live_outs).map(|_| self.live_out()).collect();
                records.push(record(self.below(64) as u32, locations, live_outs));
            }
        }
        write(version, &functions, &constants, &records)
    }

    fn live_out(&mut self) -> LiveOut {
        live_out(self.next() as u16, self.next() as u8)
    }

    fn location(&mut self, num_constants: usize) -> Location {
        let kinds = if num_constants == 0 { 4 } else { 5 };
        let kind = 1 + self.below(kinds) as u8;
        let offset = match kind {
            5 => self.below(num_constants as u64) as i32,
            _ => self.next() as i32,
        };
        location(kind, self.next() as u16, self.next() as u16, offset)
    }
}
