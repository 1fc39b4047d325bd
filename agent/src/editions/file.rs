//! A store of editions as bytes, for a file.
//!
//! | Bytes | What |
//! |---|---|
//! | 0 to 7 | `EDITIONS` |
//! | 8 to 11 | the number of this format, 1 |
//! | 12 to 15 | the length of the whole, 2,588 |
//! | 16 to 23 | the greatest number ever used |
//! | 24 to 2583 | the 64 places, 40 bytes each: number, pointer count, machine, version 1, version 3 |
//! | 2584 to 2587 | the CRC-32 of all bytes before it, as zlib has it |
//!
//! All numbers are little-endian, those of the places of 64 bits. From 16 on it is the struct
//! `treskibben_editions` of `treskibben.h`. A free place is 40 zero bytes.

use super::{edition, ffi, Editions};
use std::error::Error;
use std::fmt;

const MAGIC: &[u8; 8] = b"EDITIONS";
const FORMAT: u32 = 1;
/// Where the store begins and how long it is, and where its checksum is.
const STORE: usize = 16;
const WORDS: usize = 1 + 5 * ffi::PLACES;
const CHECKSUM: usize = STORE + 8 * WORDS;
const LENGTH: usize = CHECKSUM + 4;

/// What is wrong with the bytes of a store. The first that holds is given, in this order.
#[derive(Clone, Copy, Debug, PartialEq, Eq, Hash)]
pub enum Damage {
    /// They don't begin with `EDITIONS`: it is no store of editions.
    Magic,
    /// They are of another format, which has this number.
    Format(u32),
    /// There are so many of them, or the length in them says so; a store has 2,588.
    Length(u64),
    /// The checksum isn't that of the bytes before it.
    Checksum,
    /// The greatest number ever used is over 2^32 - 1.
    Greatest,
    /// The place of this number, from 0, has what no call leaves there: an edition whose number is over the
    /// greatest ever used or stands in an earlier place too, settings that can't be, or a free place that
    /// isn't all zeros.
    Place(usize),
    /// All places are taken, and none by the greatest number ever used, which took one when it was made.
    Full,
}

impl fmt::Display for Damage {
    fn fmt(&self, f: &mut fmt::Formatter<'_>) -> fmt::Result {
        match self {
            Damage::Magic => f.write_str("it doesn't begin with 'EDITIONS'"),
            Damage::Format(number) => write!(f, "it is of format {number}, and not of format 1"),
            Damage::Length(bytes) => write!(f, "its length is {bytes}, and not 2588"),
            Damage::Checksum => f.write_str("its checksum is wrong"),
            Damage::Greatest => f.write_str("its greatest number is over 2^32 - 1"),
            Damage::Place(place) => write!(f, "its place {place} has what no call leaves there"),
            Damage::Full => f.write_str("it is full without its greatest number"),
        }
    }
}

impl Error for Damage {}

impl Editions {
    /// How many bytes a store has in a file.
    pub const BYTES: usize = LENGTH;

    /// The store as bytes, for a file: 2,588 of them. They begin with `EDITIONS`, the number of the format
    /// and their length, then come the numbers of the struct `treskibben_editions`, and a CRC-32 of all.
    pub fn to_bytes(&self) -> Vec<u8> {
        let mut bytes = Vec::with_capacity(LENGTH);
        bytes.extend(MAGIC);
        bytes.extend(FORMAT.to_le_bytes());
        bytes.extend((LENGTH as u32).to_le_bytes());
        let numbers = self.store.places.iter().flat_map(numbers);
        for number in [self.store.greatest].into_iter().chain(numbers) {
            bytes.extend(number.to_le_bytes());
        }
        bytes.extend(crc_32(&bytes).to_le_bytes());
        bytes
    }

    /// The store that such bytes say.
    ///
    /// # Errors
    ///
    /// [`Damage`] where a byte is wrong, missing or too many, or where calls from an empty store leave no
    /// such store.
    pub fn from_bytes(bytes: &[u8]) -> Result<Editions, Damage> {
        let store = decode(bytes)?;
        sound(&store)?;
        Ok(Editions { store })
    }
}

/// The numbers of a place, in the order of the struct.
fn numbers(place: &ffi::Place) -> [u64; 5] {
    let own = place.settings;
    [
        place.number,
        own.most,
        own.machine,
        own.version_1,
        own.version_3,
    ]
}

/// The numbers of a store, whatever they are, where all around them is right.
fn decode(bytes: &[u8]) -> Result<ffi::Store, Damage> {
    let rest = bytes.strip_prefix(MAGIC).ok_or(Damage::Magic)?;
    let wrong_length = Damage::Length(bytes.len() as u64);
    let (format, rest) = rest.split_first_chunk().ok_or(wrong_length)?;
    match u32::from_le_bytes(*format) {
        FORMAT => {}
        other => return Err(Damage::Format(other)),
    }
    let (length, _) = rest.split_first_chunk().ok_or(wrong_length)?;
    let told = u32::from_le_bytes(*length);
    if told as usize != LENGTH {
        return Err(Damage::Length(told.into()));
    }
    let (before, checksum) = bytes.split_last_chunk().ok_or(wrong_length)?;
    if before.len() != CHECKSUM {
        return Err(wrong_length);
    }
    if u32::from_le_bytes(*checksum) != crc_32(before) {
        return Err(Damage::Checksum);
    }
    let (words, _) = before[STORE..].as_chunks();
    let mut words = words.iter().map(|word| u64::from_le_bytes(*word));
    let mut next = || words.next().unwrap_or(0);
    Ok(ffi::Store {
        greatest: next(),
        places: std::array::from_fn(|_| ffi::Place {
            number: next(),
            settings: ffi::Settings {
                most: next(),
                machine: next(),
                version_1: next(),
                version_3: next(),
            },
        }),
    })
}

/// Whether calls from an empty store leave such a store.
fn sound(store: &ffi::Store) -> Result<(), Damage> {
    if store.greatest > Editions::LAST {
        return Err(Damage::Greatest);
    }
    for (nth, place) in store.places.iter().enumerate() {
        let first = |number| store.places[..nth].iter().all(|own| own.number != number);
        let right = match edition(place) {
            Some(own) => own.number <= store.greatest && first(own.number),
            None => *place == ffi::Place::default(),
        };
        if !right {
            return Err(Damage::Place(nth));
        }
    }
    let has = |number| store.places.iter().any(|place| place.number == number);
    if !has(0) && !has(store.greatest) {
        return Err(Damage::Full);
    }
    Ok(())
}

/// CRC-32, as zlib and PNG have it: polynomial 0x04C11DB7, bits reflected.
fn crc_32(bytes: &[u8]) -> u32 {
    let step = |crc: u32| (crc >> 1) ^ (0xEDB8_8320 & (crc & 1).wrapping_neg());
    let add = |crc: u32, byte: &u8| (0..8).fold(crc ^ u32::from(*byte), |crc, _| step(crc));
    !bytes.iter().fold(!0, add)
}

#[cfg(test)]
mod tests {
    /// The answers by which implementations of it are told apart.
    #[test]
    fn crc_32_of_the_check_string() {
        assert_eq!(super::crc_32(b"123456789"), 0xCBF4_3926);
        assert_eq!(super::crc_32(b""), 0);
    }
}
