//! A flat section as data, and its bytes. The layout is written here once more, by itself: the
//! encoder shares no code with the programs that it tests. It writes one array after another and
//! notes in the header where each begins.

pub use crate::layout::{LiveOut, LARGEST};

/// The number that a flat section begins with.
pub const VERSION: u8 = 2;
/// The length of the least section.
pub const LEAST: usize = 32;
/// The most entries that an index and a count of 16 bits can reach.
pub const REACH: usize = 2 * 65_535;

/// The arrays, in their order.
pub const CONSTANTS: usize = 0;
pub const FRAMES: usize = 1;
pub const REGISTERS: usize = 2;
pub const RECORDS: usize = 3;
pub const LOCATIONS: usize = 4;
pub const LIVE_OUTS: usize = 5;

/// Where the offset of each array stands in the header.
pub const OFFSETS: [usize; 6] = [4, 8, 12, 16, 20, 24];
/// What each array's first byte is a multiple of.
pub const ALIGNMENTS: [usize; 6] = [8, 8, 4, 8, 4, 2];
/// Bytes of an entry of each array.
pub const STRIDES: [usize; 6] = [8, 28, 6, 22, 8, 4];

/// Entries of an array: `count` of them, from number `index` on.
#[derive(Clone, Copy, Debug, Default, PartialEq, Eq)]
pub struct Range {
    pub index: u16,
    pub count: u16,
}

impl Range {
    /// The number after the last one.
    pub fn end(self) -> usize {
        usize::from(self.index) + usize::from(self.count)
    }

    /// The numbers.
    pub fn numbers(self) -> std::ops::Range<usize> {
        usize::from(self.index)..self.end()
    }
}

/// What the stack frames of a function look like.
#[derive(Clone, Debug, Default, PartialEq, Eq)]
pub struct Frame {
    pub address: u64,
    pub size: u32,
    pub stack_size: u32,
    /// The lowest four bits may be set.
    pub flags: u16,
    pub base_register: u16,
    pub registers: Range,
    pub records: Range,
}

/// Where a function keeps a register.
#[derive(Clone, Debug, Default, PartialEq, Eq)]
pub struct FrameRegister {
    pub register: u16,
    pub offset: i16,
    pub size: u8,
    /// The lowest bit may be set.
    pub flags: u8,
}

/// What holds at one instruction.
#[derive(Clone, Debug, Default, PartialEq, Eq)]
pub struct Record {
    pub id: u64,
    pub offset: u32,
    pub call_size: u8,
    /// The lowest bit may be set.
    pub flags: u8,
    pub locations: Range,
    pub live_outs: Range,
}

/// Where a value is.
#[derive(Clone, Debug, Default, PartialEq, Eq)]
pub struct Location {
    pub kind: u8,
    pub register: u16,
    pub offset: i32,
}

/// A flat section. It is whole if there are as many frame registers as the frames' ranges reach,
/// and no other range reaches past its array.
#[derive(Clone, Debug, Default)]
pub struct Flat {
    pub constants: Vec<u64>,
    pub frames: Vec<Frame>,
    pub registers: Vec<FrameRegister>,
    pub records: Vec<Record>,
    pub locations: Vec<Location>,
    pub live_outs: Vec<LiveOut>,
}

/// A section's bytes, and where everything stands that a damage may aim at.
#[derive(Clone, Debug, Default)]
pub struct Built {
    pub bytes: Vec<u8>,
    /// The first byte of each array.
    pub starts: [usize; 6],
    /// Whether the lists below are kept: they are a multiple of the bytes.
    marked: bool,
    /// Each byte with bits that must be zero, and those bits.
    pub reserved: Vec<(usize, u8)>,
    /// Each number: its first byte and its width.
    pub numbers: Vec<(usize, usize)>,
}

impl Built {
    /// Writes a number of `width` bytes over what stands there, where all of it is inside.
    pub fn set(&mut self, place: usize, width: usize, value: u64) {
        if let Some(bytes) = self.bytes.get_mut(place..place + width) {
            bytes.copy_from_slice(&value.to_le_bytes()[..width]);
        }
    }

    /// The first byte of an entry.
    pub fn entry(&self, array: usize, number: usize) -> usize {
        self.starts[array] + STRIDES[array] * number
    }

    fn number(&mut self, width: usize, value: u64) {
        if self.marked {
            self.numbers.push((self.bytes.len(), width));
        }
        self.bytes.extend_from_slice(&value.to_le_bytes()[..width]);
    }

    fn zeros(&mut self, count: usize) {
        let start = self.bytes.len();
        if self.marked {
            let zeros = start..start + count;
            self.reserved.extend(zeros.map(|place| (place, 0xff)));
        }
        self.bytes.resize(start + count, 0);
    }

    /// Flags of which the lowest `used` are in use.
    fn flags(&mut self, width: usize, used: usize, value: u64) {
        let start = self.bytes.len();
        self.number(width, value);
        if self.marked {
            let masks = (!0u64 << used).to_le_bytes();
            let reserved = masks[..width].iter().enumerate();
            self.reserved
                .extend(reserved.map(|(nth, mask)| (start + nth, *mask)));
        }
    }

    /// A count and an index, which is the order that they have in every entry.
    fn range(&mut self, range: Range) {
        self.number(2, range.count.into());
        self.number(2, range.index.into());
    }

    /// Pads up to the next array and notes in the header that it begins here.
    fn begin(&mut self, array: usize) {
        while !self.bytes.len().is_multiple_of(ALIGNMENTS[array]) {
            self.zeros(1);
        }
        let start = self.bytes.len();
        self.starts[array] = start;
        self.set(OFFSETS[array], 4, start as u64);
    }

    fn frame(&mut self, frame: &Frame) {
        self.number(8, frame.address);
        self.number(4, frame.size.into());
        self.number(4, frame.stack_size.into());
        self.flags(2, 4, frame.flags.into());
        self.number(2, frame.base_register.into());
        self.range(frame.registers);
        self.range(frame.records);
    }

    fn register(&mut self, register: &FrameRegister) {
        self.number(2, register.register.into());
        self.number(2, register.offset as u64);
        self.number(1, register.size.into());
        self.flags(1, 1, register.flags.into());
    }

    fn record(&mut self, record: &Record) {
        self.number(8, record.id);
        self.number(4, record.offset.into());
        self.number(1, record.call_size.into());
        self.flags(1, 1, record.flags.into());
        self.range(record.locations);
        self.range(record.live_outs);
    }

    fn location(&mut self, location: &Location) {
        self.number(1, location.kind.into());
        self.zeros(1);
        self.number(2, location.register.into());
        self.number(4, location.offset as u64);
    }

    fn live_out(&mut self, out: &LiveOut) {
        self.number(2, out.register.into());
        self.zeros(1);
        self.number(1, out.size.into());
    }
}

impl Flat {
    /// The number of entries of each array.
    pub fn counts(&self) -> [usize; 6] {
        [
            self.constants.len(),
            self.frames.len(),
            self.registers.len(),
            self.records.len(),
            self.locations.len(),
            self.live_outs.len(),
        ]
    }

    /// The section's bytes and where its parts stand.
    pub fn build(&self) -> Built {
        self.written(true)
    }

    /// The section's bytes.
    pub fn encode(&self) -> Vec<u8> {
        self.written(false).bytes
    }

    fn written(&self, marked: bool) -> Built {
        let mut built = Built {
            marked,
            ..Built::default()
        };
        built.number(1, VERSION.into());
        built.zeros(3);
        OFFSETS.iter().for_each(|_| built.number(4, 0));
        built.begin(CONSTANTS);
        self.constants.iter().for_each(|c| built.number(8, *c));
        built.begin(FRAMES);
        self.frames.iter().for_each(|f| built.frame(f));
        built.begin(REGISTERS);
        self.registers.iter().for_each(|r| built.register(r));
        built.begin(RECORDS);
        self.records.iter().for_each(|r| built.record(r));
        built.begin(LOCATIONS);
        self.locations.iter().for_each(|l| built.location(l));
        built.begin(LIVE_OUTS);
        self.live_outs.iter().for_each(|out| built.live_out(out));
        built
    }
}
