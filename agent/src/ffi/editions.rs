//! The calls on a store of editions, as C sees them, and a safe function over each.

use super::Verdict;
use std::mem::offset_of;

/// How many places a store has.
pub(crate) const PLACES: usize = 64;

/// The settings of an edition: the struct `treskibben_settings`.
#[derive(Clone, Copy, Debug, Default, PartialEq, Eq, Hash)]
#[repr(C)]
pub(crate) struct Settings {
    pub(crate) most: u64,
    pub(crate) machine: u64,
    pub(crate) version_1: u64,
    pub(crate) version_3: u64,
}

/// A place of a store: the struct `treskibben_edition`.
#[derive(Clone, Copy, Debug, Default, PartialEq, Eq, Hash)]
#[repr(C)]
pub(crate) struct Place {
    pub(crate) number: u64,
    pub(crate) settings: Settings,
}

/// A store: the struct `treskibben_editions`.
#[derive(Clone, Debug, PartialEq, Eq, Hash)]
#[repr(C)]
pub(crate) struct Store {
    pub(crate) greatest: u64,
    pub(crate) places: [Place; PLACES],
}

/// What make answers: the struct `treskibben_edition_make_answer`.
#[repr(C)]
pub(crate) struct Made {
    pub(crate) verdict: Verdict,
    pub(crate) edition: u64,
    pub(crate) store: Store,
}

/// What retire answers: the struct `treskibben_edition_retire_answer`.
#[repr(C)]
pub(crate) struct Retired {
    pub(crate) verdict: Verdict,
    pub(crate) store: Store,
}

/// What read answers: the struct `treskibben_edition_read_answer`.
#[repr(C)]
pub(crate) struct Read {
    pub(crate) verdict: Verdict,
    pub(crate) settings: Settings,
}

// The structs lie in memory as those of `treskibben.h` do, whose numbers `ctest/editions.c` asserts.
const _: () = {
    assert!(size_of::<Settings>() == 32 && offset_of!(Settings, most) == 0);
    assert!(offset_of!(Settings, machine) == 8 && offset_of!(Settings, version_1) == 16);
    assert!(offset_of!(Settings, version_3) == 24);
    assert!(size_of::<Place>() == 40 && offset_of!(Place, number) == 0);
    assert!(offset_of!(Place, settings) == 8);
    assert!(size_of::<Store>() == 2_568 && offset_of!(Store, greatest) == 0);
    assert!(offset_of!(Store, places) == 8);
    assert!(size_of::<Made>() == 2_592 && offset_of!(Made, edition) == 16);
    assert!(offset_of!(Made, store) == 24);
    assert!(size_of::<Retired>() == 2_584 && offset_of!(Retired, store) == 16);
    assert!(size_of::<Read>() == 48 && offset_of!(Read, settings) == 16);
};

extern "C" {
    fn treskibben_editions_empty() -> Store;
    fn treskibben_edition_make(store: Store, settings: Settings) -> Made;
    fn treskibben_edition_retire(store: Store, edition: u64) -> Retired;
    fn treskibben_edition_read(store: Store, edition: u64) -> Read;
}

/// The empty store.
pub(crate) fn empty() -> Store {
    // SAFETY: the function takes nothing and answers a struct of numbers, for which all bits will do. Its
    // declaration above is that of `treskibben.h`.
    unsafe { treskibben_editions_empty() }
}

/// A new edition.
pub(crate) fn make(store: &Store, settings: Settings) -> Made {
    // SAFETY: as in `empty`. Store and settings, structs of `treskibben.h`, are handed over by value; every
    // content of them may be. The function reads and writes no other memory but its answer.
    unsafe { treskibben_edition_make(store.clone(), settings) }
}

/// The retirement of an edition.
pub(crate) fn retire(store: &Store, edition: u64) -> Retired {
    // SAFETY: as in `make`. Every number may be named.
    unsafe { treskibben_edition_retire(store.clone(), edition) }
}

/// The settings of an edition.
pub(crate) fn read(store: &Store, edition: u64) -> Read {
    // SAFETY: as in `make`. Every number may be asked for.
    unsafe { treskibben_edition_read(store.clone(), edition) }
}
