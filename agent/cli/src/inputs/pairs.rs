//! What was found at the pair that a frame is refused by: the slots, what they hold, and what they should. The
//! library tells the number and the pair; this is wording, and decides nothing.

use super::slots::{Pair, Place, Slot};
use super::{slots, Inputs};
use crate::frames::Line;
use crate::listing::Listing;
use crate::numbers::count;
use crate::text;

/// The pairs of the record that a frame stands at, and the pairs' locations in words.
struct Listed {
    pairs: Vec<Pair>,
    words: Vec<[String; 2]>,
    /// How many pairs there are, null ones too.
    all: u64,
}

/// A pointer of a pair: its two slots, base first, and how the record names them.
#[derive(Clone, Copy)]
struct Pointer {
    pair: u64,
    slots: [Slot; 2],
    places: [Place; 2],
}

/// What the two slots of a pointer are called.
const NAMES: [&str; 2] = ["base", "derived"];

impl Inputs<'_> {
    /// What was found where a frame is refused by 17 to 21; the pair is that of 18 to 21.
    pub fn at_pair(
        &self,
        number: u64,
        line: &Line,
        pair: Option<u64>,
        image: &[u8],
    ) -> Option<String> {
        let mut listed = self.at_frames(|at| self.listed(at));
        let listed = listed.remove(&line.frame.address).flatten()?;
        if number == 17 {
            return Some(self.too_many(&listed));
        }
        let pair = pair?;
        let all = listed.pointers(line);
        let own: Vec<&Pointer> = all.iter().filter(|own| own.pair == pair).collect();
        let found = match number {
            18 => {
                let [base, derived] = listed.words.get(pair as usize)?;
                Some(format!("base {base}; derived {derived}"))
            }
            19 => self.outside(line, &own),
            20 => self.collision(line, &all, &own, image),
            21 => self.no_old_start(line, &own, image),
            _ => None,
        };
        let found = found.map(|found| format!(": {found}")).unwrap_or_default();
        let joined = match number {
            21 if self.moves.are_joined() => ", by the joined table",
            _ => "",
        };
        Some(format!("pair {pair}{joined}{found}"))
    }

    fn listed(&self, at: &slots::At) -> Listed {
        let (listing, record): (&Listing, _) = (at.listing, at.record);
        let (deopt, all) = (record.deopt_count(), record.pairs().unwrap_or_default());
        let words = (0..all).map(|number| {
            let pair = record.pair(number, deopt.unwrap_or_default());
            let words = |nth: usize| {
                let location = &pair[nth];
                let place = text::place(listing, location, self.machine);
                format!("{place}, size {}", location.size)
            };
            [words(0), words(1)]
        });
        Listed {
            pairs: slots::pairs(at),
            words: words.collect(),
            all: all as u64,
        }
    }

    /// What 17 found: how many pointers there are, of version 1 pairs, and how many may be.
    fn too_many(&self, listed: &Listed) -> String {
        let slots = listed.pairs.iter().map(|pair| u64::from(pair.pointers));
        let null = listed.all - listed.pairs.len() as u64;
        let pointers = count(slots.sum::<u64>() + null, "pointer");
        format!("{pointers}; {}", self.chosen.words())
    }

    /// What 19 found: the slot, and the extent.
    fn outside(&self, line: &Line, own: &[&Pointer]) -> Option<String> {
        let (from, to) = self.sizes().extent(line)?;
        let (from, to) = (i128::try_from(from).ok()?, i128::try_from(to).ok()?);
        let slots = own
            .iter()
            .flat_map(|pointer| (0..2).map(move |nth| (*pointer, nth)));
        let outside = |(pointer, nth): &(&Pointer, usize)| match pointer.slots[*nth] {
            Slot::Memory(first) => first < from || first + 8 > to,
            Slot::Register(_) => false,
        };
        let (pointer, nth) = slots.clone().find(outside)?;
        let slot = self.slot_words(pointer, nth);
        Some(format!(
            "its {slot} is not inside the extent {from:#x} to {to:#x}"
        ))
    }

    /// What 20 found: the two slots.
    fn collision(
        &self,
        line: &Line,
        all: &[Pointer],
        own: &[&Pointer],
        image: &[u8],
    ) -> Option<String> {
        let pair = own.first()?.pair;
        let earlier = || all.iter().filter(|other| other.pair <= pair);
        for pointer in own {
            for other in earlier() {
                for (nth, its) in [(0, 0), (0, 1), (1, 0), (1, 1)] {
                    if overlap(pointer.slots[nth], other.slots[its]) {
                        let one = self.slot_words(pointer, nth);
                        let two = self.slot_words(other, its);
                        let whose = of_pair(other, pair);
                        return Some(format!("its {one} shares bytes with the {two}{whose}"));
                    }
                }
                let bases = [*pointer, other].map(|own| self.content(line, own.slots[0], image));
                if pointer.slots[1] == other.slots[1] && bases[0] != bases[1] {
                    let one = self.slot_words(pointer, 1);
                    let [own, its] = bases.map(|base| base.unwrap_or_default());
                    let bases = [*pointer, other].map(|own| self.slot_words(own, 0));
                    let whose = of_pair(other, pair);
                    return Some(format!(
                        "its {one} is derived from two bases: {} holds {own:#x}, and {}{whose} holds {its:#x}",
                        bases[0], bases[1]
                    ));
                }
            }
        }
        None
    }

    /// What 21 found: the base slot, what it holds, and the old start below that.
    fn no_old_start(&self, line: &Line, own: &[&Pointer], image: &[u8]) -> Option<String> {
        let table = &self.moves.table;
        let is_wrong = |content: &u64| *content != 0 && table.old.binary_search(content).is_err();
        let held = own.iter().map(|pointer| {
            let content = self.content(line, pointer.slots[0], image);
            (*pointer, content.filter(is_wrong))
        });
        let (pointer, content) = held.filter_map(|(own, wrong)| Some((own, wrong?))).next()?;
        let slot = self.slot_words(pointer, 0);
        let below = table.old.partition_point(|old| *old < content);
        let near = match below.checked_sub(1).map(|nth| table.old[nth]) {
            Some(old) => {
                let more = content - old;
                format!("the old start below it is {old:#x}, {} before", bytes(more))
            }
            None => "no old start is below it".to_string(),
        };
        Some(format!("its {slot} holds {content:#x}; {near}"))
    }

    /// A slot of a pointer in words.
    fn slot_words(&self, pointer: &Pointer, nth: usize) -> String {
        let (name, place) = (NAMES[nth], pointer.places[nth].words(self.machine));
        match pointer.slots[nth] {
            Slot::Memory(address @ 0..) => format!("{name} slot {place} at {address:#x}"),
            // Below the first address.
            Slot::Memory(address) => {
                format!("{name} slot {place} at -{:#x}", address.unsigned_abs())
            }
            Slot::Register(_) => format!("{name} slot {place}"),
        }
    }

    /// What a slot holds.
    fn content(&self, line: &Line, slot: Slot, image: &[u8]) -> Option<u64> {
        match slot {
            Slot::Register(register) => line.registers.get(usize::from(register)).copied(),
            Slot::Memory(address) => {
                let at = usize::try_from(address - i128::from(self.given.first)).ok()?;
                let bytes = image.get(at..)?.first_chunk()?;
                Some(u64::from_le_bytes(*bytes))
            }
        }
    }
}

impl Listed {
    /// The pointers of all pairs, in a frame with the registers of a line.
    fn pointers(&self, line: &Line) -> Vec<Pointer> {
        let of_pair = |pair: &Pair| {
            let pointers = (0..).zip(pair.slots(line)).map(|(nth, slots)| Pointer {
                pair: pair.number as u64,
                slots,
                places: pair.places(nth),
            });
            pointers.collect::<Vec<Pointer>>()
        };
        self.pairs.iter().flat_map(of_pair).collect()
    }
}

/// Whether two slots share bytes and are not the same.
fn overlap(one: Slot, other: Slot) -> bool {
    match (one, other) {
        (Slot::Memory(one), Slot::Memory(other)) => one != other && one.abs_diff(other) < 8,
        _ => false,
    }
}

/// Whose slot it is, where it is another pair's.
fn of_pair(other: &Pointer, pair: u64) -> String {
    match other.pair == pair {
        true => " of the same pair".to_string(),
        false => format!(" of pair {}", other.pair),
    }
}

/// A distance.
fn bytes(number: u64) -> String {
    match number {
        0..=4_095 => count(number, "byte"),
        _ => format!("{number:#x} bytes"),
    }
}
