//! A section as data, and its bytes. The layout is written here once more, by itself: the encoder
//! shares no code with the programs that it tests.

/// Bytes of the header.
pub const HEADER: usize = 16;
/// Bytes of a constant.
pub const CONSTANT: usize = 8;
/// The length of the largest section that is accepted.
pub const LARGEST: usize = 16_777_216;
/// Where NumFunctions, NumConstants and NumRecords stand.
pub const COUNTS: [usize; 3] = [4, 8, 12];

/// Which layout a section has.
#[derive(Clone, Copy, Debug, Default, PartialEq, Eq)]
pub enum Version {
    One,
    #[default]
    Three,
}

impl Version {
    /// Both of them.
    pub const ALL: [Version; 2] = [Version::One, Version::Three];

    /// The number that a section begins with.
    pub fn number(self) -> u8 {
        match self {
            Version::One => 1,
            Version::Three => 3,
        }
    }

    /// Bytes of a function. Version 1 has no record count.
    pub fn function(self) -> usize {
        match self {
            Version::One => 16,
            Version::Three => 24,
        }
    }

    /// Bytes of a location.
    pub fn location(self) -> usize {
        match self {
            Version::One => 8,
            Version::Three => 12,
        }
    }

    /// Bytes of padding after so many locations. Version 1 has none.
    pub fn padding(self, locations: usize) -> usize {
        match self {
            Version::One => 0,
            Version::Three => 4 * (locations % 2),
        }
    }

    /// Where a location's offset stands in it.
    pub fn offset(self) -> usize {
        self.location() - 4
    }
}

/// A function and how many of the records are its own, which version 1 doesn't say: there it is 0.
#[derive(Clone, Debug)]
pub struct Function {
    pub address: u64,
    pub stack_size: u64,
    pub record_count: u64,
}

/// Where a value is. The offset is a signed number, but for ConstIndex a pool entry's number. In
/// version 1 the size is at most 255.
#[derive(Clone, Debug)]
pub struct Location {
    pub kind: u8,
    pub size: u16,
    pub register: u16,
    pub offset: u32,
}

/// A register that is live after the record's instruction.
#[derive(Clone, Debug)]
pub struct LiveOut {
    pub register: u16,
    pub size: u8,
}

/// What holds at one instruction.
#[derive(Clone, Debug)]
pub struct Record {
    pub id: u64,
    pub offset: u32,
    pub locations: Vec<Location>,
    pub live_outs: Vec<LiveOut>,
}

impl Record {
    /// The number of bytes that the record takes in a section of this version.
    pub fn length(&self, version: Version) -> usize {
        let (locations, outs) = (self.locations.len(), self.live_outs.len());
        let padded = version.location() * locations + version.padding(locations);
        16 + padded + 4 + 4 * outs + 4 * (1 - outs % 2)
    }
}

/// A section.
#[derive(Clone, Debug, Default)]
pub struct Section {
    pub version: Version,
    pub functions: Vec<Function>,
    pub constants: Vec<u64>,
    pub records: Vec<Record>,
}

/// Where the parts of a record stand.
#[derive(Clone, Debug)]
pub struct Spot {
    /// The record's first byte.
    pub start: usize,
    /// NumLiveOuts.
    pub out_count: usize,
}

/// A section's bytes, and where everything stands that a damage may aim at.
#[derive(Clone, Debug, Default)]
pub struct Built {
    pub version: Version,
    pub bytes: Vec<u8>,
    /// Whether the lists below are kept: they are a multiple of the bytes.
    marked: bool,
    /// Each byte that must be zero.
    pub zeros: Vec<usize>,
    /// Each number: its first byte and its width.
    pub numbers: Vec<(usize, usize)>,
    /// The first byte of each function.
    pub functions: Vec<usize>,
    /// Each record.
    pub records: Vec<Spot>,
    /// The first byte of each location.
    pub locations: Vec<usize>,
}

impl Built {
    /// Writes a number of `width` bytes over what stands there, where all of it is inside.
    pub fn set(&mut self, place: usize, width: usize, value: u64) {
        if let Some(bytes) = self.bytes.get_mut(place..place + width) {
            bytes.copy_from_slice(&value.to_le_bytes()[..width]);
        }
    }

    fn number(&mut self, width: usize, value: u64) {
        if self.marked {
            self.numbers.push((self.bytes.len(), width));
        }
        self.bytes.extend_from_slice(&value.to_le_bytes()[..width]);
    }

    fn zeros(&mut self, count: usize) {
        let start = self.bytes.len();
        if self.marked {
            self.zeros.extend(start..start + count);
        }
        self.bytes.resize(start + count, 0);
    }

    fn location(&mut self, location: &Location) {
        if self.marked {
            self.locations.push(self.bytes.len());
        }
        self.number(1, location.kind.into());
        match self.version {
            Version::One => {
                self.number(1, location.size.into());
                self.number(2, location.register.into());
            }
            Version::Three => {
                self.zeros(1);
                self.number(2, location.size.into());
                self.number(2, location.register.into());
                self.zeros(2);
            }
        }
        self.number(4, location.offset.into());
    }

    fn function(&mut self, function: &Function) {
        if self.marked {
            self.functions.push(self.bytes.len());
        }
        self.number(8, function.address);
        self.number(8, function.stack_size);
        if self.version == Version::Three {
            self.number(8, function.record_count);
        }
    }

    fn record(&mut self, record: &Record) {
        let start = self.bytes.len();
        self.number(8, record.id);
        self.number(4, record.offset.into());
        self.zeros(2);
        self.number(2, record.locations.len() as u64);
        record.locations.iter().for_each(|l| self.location(l));
        self.zeros(self.version.padding(record.locations.len()) + 2);
        let out_count = self.bytes.len();
        self.number(2, record.live_outs.len() as u64);
        for out in &record.live_outs {
            self.number(2, out.register.into());
            self.zeros(1);
            self.number(1, out.size.into());
        }
        self.zeros(4 * (1 - record.live_outs.len() % 2));
        if self.marked {
            self.records.push(Spot { start, out_count });
        }
    }
}

impl Section {
    /// The number of bytes that the section takes.
    pub fn length(&self) -> usize {
        let records = self.records.iter().map(|r| r.length(self.version));
        self.records_at() + records.sum::<usize>()
    }

    /// Where the constants begin.
    pub fn constants_at(&self) -> usize {
        HEADER + self.version.function() * self.functions.len()
    }

    /// Where the records begin.
    pub fn records_at(&self) -> usize {
        self.constants_at() + CONSTANT * self.constants.len()
    }

    /// The section's bytes and where its parts stand.
    pub fn build(&self) -> Built {
        self.written(true)
    }

    /// The section's bytes.
    pub fn encode(&self) -> Vec<u8> {
        self.written(false).bytes
    }

    fn written(&self, marked: bool) -> Built {
        let mut built = Built {
            version: self.version,
            marked,
            ..Built::default()
        };
        built.bytes.reserve_exact(self.length());
        built.number(1, self.version.number().into());
        built.zeros(3);
        built.number(4, self.functions.len() as u64);
        built.number(4, self.constants.len() as u64);
        built.number(4, self.records.len() as u64);
        self.functions.iter().for_each(|f| built.function(f));
        self.constants.iter().for_each(|c| built.number(8, *c));
        self.records.iter().for_each(|r| built.record(r));
        built
    }
}
