//! Conversions by the library and by the second implementation, into outputs that stand between
//! guards and are filled with random bytes, so that every byte which is written or left is seen.

use crate::common::differ;
use generator::{Case, Rng};

/// Which conversion.
#[derive(Clone, Copy, Debug, PartialEq, Eq)]
pub enum Way {
    ToListing,
    ToSection,
}

/// The length written, or number and place of the refusal.
pub type Answer = Result<usize, (u64, u64)>;

/// The refusal of an output that is too short.
const SHORT: Answer = Err((24, 0));

impl Way {
    fn back(self) -> Way {
        match self {
            Way::ToListing => Way::ToSection,
            Way::ToSection => Way::ToListing,
        }
    }

    fn by_library(self, input: &[u8], output: &mut [u8]) -> Answer {
        let answer = match self {
            Way::ToListing => treskibben::to_listing(input, output),
            Way::ToSection => treskibben::to_section(input, output),
        };
        answer.map_err(|refusal| (refusal.number(), refusal.place()))
    }

    fn by_second(self, input: &[u8], output: &mut [u8]) -> Answer {
        let answer = match self {
            Way::ToListing => reference::to_listing(input, output),
            Way::ToSection => reference::to_section(input, output),
        };
        answer.map_err(|refusal| (refusal.number, refusal.place))
    }

    /// The library's conversion that makes its own output.
    fn owned(self, input: &[u8]) -> Result<Vec<u8>, (u64, u64)> {
        let answer = match self {
            Way::ToListing => treskibben::listing_of(input),
            Way::ToSection => treskibben::section_of(input),
        };
        answer.map_err(|refusal| (refusal.number(), refusal.place()))
    }
}

/// Bytes before and after an output.
const GUARD: usize = 32;

/// How many fills there are.
const FILLS: usize = 251;

/// The outputs, which are used again for every conversion.
pub struct Outputs {
    rng: Rng,
    /// Random bytes that outputs are filled with, from one of the first few on.
    fill: Vec<u8>,
    start: usize,
    library: Vec<u8>,
    second: Vec<u8>,
}

impl Outputs {
    /// Outputs that are filled with bytes of this source.
    pub fn new(rng: &mut Rng) -> Outputs {
        let mut rng = Rng::new(rng.word());
        Outputs {
            fill: (0..4_096).map(|_| rng.byte()).collect(),
            start: 0,
            library: Vec::new(),
            second: Vec::new(),
            rng,
        }
    }

    /// What an accepted conversion wrote last.
    fn written(&self, length: usize) -> &[u8] {
        &self.library[GUARD..GUARD + length]
    }

    /// Converts by the library into an output of `room` bytes, and compares the bytes that must be
    /// left: those beyond what is written, and on a refusal all.
    pub fn by_library(&mut self, way: Way, name: &str, input: &[u8], room: usize) -> Answer {
        let length = GUARD + room + GUARD;
        while self.fill.len() < FILLS + length {
            self.fill.extend_from_within(..);
        }
        self.start = self.rng.below(FILLS);
        let before = &self.fill[self.start..][..length];
        self.library.clear();
        self.library.extend_from_slice(before);
        let answer = way.by_library(input, &mut self.library[GUARD..GUARD + room]);
        let end = GUARD + answer.unwrap_or(0);
        let left = self.library[..GUARD] == before[..GUARD] && self.library[end..] == before[end..];
        if !left {
            let answers = format!("{way:?} with room for {room}: {answer:?}, other bytes changed");
            differ(name, input, &answers);
        }
        answer
    }

    /// Converts by both into outputs of `room` bytes, and compares answers and outputs.
    pub fn convert(&mut self, way: Way, name: &str, input: &[u8], room: usize) -> Answer {
        let library = self.by_library(way, name, input, room);
        let before = &self.fill[self.start..][..self.library.len()];
        self.second.clear();
        self.second.extend_from_slice(before);
        let second = way.by_second(input, &mut self.second[GUARD..GUARD + room]);
        let equal = self.library == self.second;
        if library != second || !equal {
            let outputs = if equal { "equal" } else { "different" };
            let answers = format!(
                "{way:?} with room for {room}: by the library {library:?}, by the second \
                 implementation {second:?}, outputs {outputs}"
            );
            differ(name, input, &answers);
        }
        library
    }

    /// Converts with room to spare, and compares with what is known beforehand: the case's answer,
    /// and where it is accepted, `result`.
    pub fn known(&mut self, way: Way, case: &Case, result: Option<&[u8]>) -> Answer {
        let room = 2 * case.bytes.len() + 16 + self.rng.below(64);
        let answer = self.convert(way, case.name, &case.bytes, room);
        let refusal = answer.err().unwrap_or((0, 0));
        if case.answer.is_some_and(|known| known != refusal) {
            let answers = format!("{way:?}: {answer:?}, known beforehand {:?}", case.answer);
            differ(case.name, &case.bytes, &answers);
        }
        if let (Ok(length), Some((0, 0)), Some(result)) = (answer, case.answer, result) {
            self.assert(
                way,
                case,
                "the known result",
                self.written(length) == result,
            );
        }
        answer
    }

    /// The same; then with outputs of other lengths and, where it is accepted, back again. Gives the
    /// number of the answer.
    pub fn explore(&mut self, way: Way, case: &Case, result: Option<&[u8]>) -> u64 {
        let answer = self.known(way, case, result);
        let (name, input) = (case.name, &case.bytes[..]);
        match answer {
            Err(refusal) => {
                let room = self.rng.pick(&[0, 0, 1, 15, 16, 100]);
                let again = self.convert(way, name, input, room);
                self.assert(way, case, "the refusal in another output", again == answer);
                self.assert(way, case, "a new output", way.owned(input) == Err(refusal));
            }
            Ok(length) => {
                let written = self.written(length).to_vec();
                let own = way.owned(input).as_ref() == Ok(&written);
                self.assert(way, case, "a new output", own);
                self.rooms(way, case, length);
                self.back(way, case, &written);
            }
        }
        answer.err().map_or(0, |(number, _)| number)
    }

    /// Outputs of exactly the right length, one byte too short, and too short by more.
    fn rooms(&mut self, way: Way, case: &Case, length: usize) {
        for room in [length, length - 1, self.rng.below(length)] {
            let answer = self.convert(way, case.name, &case.bytes, room);
            let expected = if room == length { Ok(length) } else { SHORT };
            self.assert(way, case, "the length of the output", answer == expected);
        }
    }

    /// The way back, into an output of exactly the right length.
    fn back(&mut self, way: Way, case: &Case, written: &[u8]) {
        let room = case.bytes.len();
        let answer = self.convert(way.back(), case.name, written, room);
        self.assert(
            way,
            case,
            "the round trip",
            answer == Ok(room) && self.written(room) == case.bytes,
        );
    }

    fn assert(&self, way: Way, case: &Case, what: &str, holds: bool) {
        if !holds {
            differ(case.name, &case.bytes, &format!("{way:?}: {what} is wrong"));
        }
    }
}
