//! What the questions on a section answer.

/// The answer to the question by address, [`find`](crate::find), and to the one by function and offset,
/// [`find_in_function`](crate::find_in_function).
#[derive(Clone, Copy, Debug, PartialEq, Eq, Hash)]
pub struct Found {
    /// The number of the first record with the address or at the offset, in section order.
    pub record: u64,
    /// The number of that record's function; of version 1, the one that was asked for.
    pub function: u64,
    /// How many records have the address or are at the offset, the first one included.
    pub sharing: u64,
}

/// What a [`Location`] stands for.
#[derive(Clone, Copy, Debug, PartialEq, Eq, Hash)]
pub enum LocationKind {
    /// The value is in the register.
    Register,
    /// The value is the register plus the offset.
    Direct,
    /// The value is in memory at the register plus the offset.
    Indirect,
    /// The value is the offset, sign-extended.
    Constant,
    /// The value is the entry of the section's constants whose number is the offset.
    ConstIndex,
}

/// The kinds; the first is number 1.
const KINDS: [LocationKind; 5] = [
    LocationKind::Register,
    LocationKind::Direct,
    LocationKind::Indirect,
    LocationKind::Constant,
    LocationKind::ConstIndex,
];

impl LocationKind {
    /// The kind of this number, if there is one.
    pub(crate) fn of(number: u8) -> Option<LocationKind> {
        KINDS.into_iter().find(|kind| kind.number() == number)
    }

    /// The number that the section has for the kind, 1 to 5.
    pub fn number(self) -> u8 {
        match self {
            LocationKind::Register => 1,
            LocationKind::Direct => 2,
            LocationKind::Indirect => 3,
            LocationKind::Constant => 4,
            LocationKind::ConstIndex => 5,
        }
    }
}

/// Where the value of a [`Location`] is held. It follows from the kind alone.
#[derive(Clone, Copy, Debug, PartialEq, Eq, Hash)]
pub enum ContentPlace {
    /// In no place: the location says the value itself, or how to work it out.
    Nowhere,
    /// In the register ([`LocationKind::Register`]).
    Register,
    /// In memory at the register plus the offset ([`LocationKind::Indirect`]).
    Memory,
}

/// The content places; the first is number 0.
const PLACES: [ContentPlace; 3] = [
    ContentPlace::Nowhere,
    ContentPlace::Register,
    ContentPlace::Memory,
];

impl ContentPlace {
    /// The content place of this number, if there is one.
    pub(crate) fn of(number: u8) -> Option<ContentPlace> {
        PLACES.into_iter().find(|place| place.number() == number)
    }

    /// The number that the C interface has for the content place, 0 to 2.
    pub fn number(self) -> u8 {
        match self {
            ContentPlace::Nowhere => 0,
            ContentPlace::Register => 1,
            ContentPlace::Memory => 2,
        }
    }
}

/// The answer to the question by record and location number, [`location`](crate::location()): where
/// a value is.
#[derive(Clone, Copy, Debug, PartialEq, Eq, Hash)]
pub struct Location {
    /// What the location stands for.
    pub kind: LocationKind,
    /// The value's size in bytes. Of version 1, the location's second byte, which may hold any number.
    pub size: u16,
    /// The register's DWARF number; constants don't use it.
    pub register: u16,
    /// The signed offset, as it stands in the section for every kind.
    pub offset: i32,
    /// The 64-bit constant of the last two kinds, and 0 for the others.
    pub constant: u64,
    /// Where the value is held.
    pub content: ContentPlace,
}

/// The answer to the question by record and live-out number, [`live_out`](crate::live_out): a
/// register that is in use after the record's instruction.
#[derive(Clone, Copy, Debug, PartialEq, Eq, Hash)]
pub struct LiveOut {
    /// The register's DWARF number.
    pub register: u16,
    /// How many of its bytes are in use.
    pub size: u8,
}

#[cfg(test)]
mod tests {
    use super::*;

    #[test]
    fn each_kind_has_its_number_and_no_other_number_has_one() {
        for number in 0..=u8::MAX {
            let kind = LocationKind::of(number);
            assert_eq!(kind.is_some(), (1..=5).contains(&number), "{number}");
            assert!(kind.is_none_or(|kind| kind.number() == number), "{number}");
        }
        assert_eq!(LocationKind::of(1), Some(LocationKind::Register));
        assert_eq!(LocationKind::of(2), Some(LocationKind::Direct));
        assert_eq!(LocationKind::of(3), Some(LocationKind::Indirect));
        assert_eq!(LocationKind::of(4), Some(LocationKind::Constant));
        assert_eq!(LocationKind::of(5), Some(LocationKind::ConstIndex));
    }

    #[test]
    fn each_content_place_has_its_number_and_no_other_number_has_one() {
        assert_eq!(ContentPlace::of(0), Some(ContentPlace::Nowhere));
        assert_eq!(ContentPlace::of(1), Some(ContentPlace::Register));
        assert_eq!(ContentPlace::of(2), Some(ContentPlace::Memory));
        assert!((3..=u8::MAX).all(|number| ContentPlace::of(number).is_none()));
    }
}
