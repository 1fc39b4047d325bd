//! Shapes of questions on frames that can be moved, which random ones must have often enough.

use generator::frames::plain::{self, Slot as Own};
use generator::frames::reasons::{MOVED, NULL_BASE, ONLY_BASE, UNLISTED};
use generator::frames::{registers, Scene};
use generator::layout::Location;
use treskibben::Slot;

use crate::asked::Numbers;

/// A question on a frame that can be moved, what it was answered, and the frame's pointers: pair by pair, base
/// first.
pub struct Asked<'a> {
    pub scene: &'a Scene,
    pub slot: Slot,
    pub told: Numbers,
    pairs: Vec<Vec<[Slot; 2]>>,
}

/// A shape: its name, and whether a question has it.
type Shape = (&'static str, fn(&Asked) -> bool);

pub const SHAPES: [Shape; 24] = [
    ("moved, at an address", |it| it.is(MOVED) && it.in_memory()),
    ("moved, a register", |it| it.is(MOVED) && !it.in_memory()),
    ("null base, at an address", |it| {
        it.is(NULL_BASE) && it.in_memory()
    }),
    ("null base, a register", |it| {
        it.is(NULL_BASE) && !it.in_memory()
    }),
    ("only a base, at an address", |it| {
        it.is(ONLY_BASE) && it.in_memory()
    }),
    ("only a base, a register", |it| {
        it.is(ONLY_BASE) && !it.in_memory()
    }),
    ("only a base, of content 0", |it| {
        it.is(ONLY_BASE) && it.content() == Some(0)
    }),
    ("moved, a base too", |it| {
        it.is(MOVED)
            && it
                .pointers()
                .any(|two| two[0] == it.slot && two[1] != it.slot)
    }),
    ("null base, a base too", |it| {
        it.is(NULL_BASE)
            && it
                .pointers()
                .any(|two| two[0] == it.slot && two[1] != it.slot)
    }),
    ("moved, the lowest of several pairs", |it| {
        let derives = |pair: &&Vec<[Slot; 2]>| pair.iter().any(|two| two[1] == it.slot);
        it.is(MOVED) && it.pairs.iter().filter(derives).count() > 1
    }),
    ("moved, a later pointer of its pair", |it| {
        it.is(MOVED) && it.pairs[it.told[3] as usize][0][1] != it.slot
    }),
    ("moved, fewer pairs before it than pointers", |it| {
        let before = || it.pairs[..it.told[3] as usize].iter();
        it.is(MOVED) && before().map(Vec::len).sum::<usize>() > before().count()
    }),
    ("moved, past 0 or past the last number", |it| {
        let sum = |content| i128::from(content) + i128::from(it.told[5]) - i128::from(it.told[4]);
        let beyond = |content| u64::try_from(sum(content)).is_err();
        it.is(MOVED) && it.content().is_some_and(beyond)
    }),
    ("moved, in an image at the top of the addresses", |it| {
        let end = it.scene.first.checked_add(it.scene.image.len() as u64);
        it.is(MOVED) && it.in_memory() && end == Some(u64::MAX)
    }),
    ("unlisted, one byte beside a listed slot", |it| {
        it.is(UNLISTED) && it.near(|distance| distance.abs() == 1)
    }),
    ("unlisted, inside a listed slot", |it| {
        it.is(UNLISTED) && it.near(|distance| (1..8).contains(&distance))
    }),
    ("unlisted, of a deopt location in memory", |it| {
        it.is(UNLISTED) && it.in_memory() && it.of_deopt(3)
    }),
    ("unlisted, of a deopt location in a register", |it| {
        it.is(UNLISTED) && !it.in_memory() && it.of_deopt(1)
    }),
    ("listed, of a deopt location too", |it| {
        !it.is(UNLISTED) && it.of_deopt(if it.in_memory() { 3 } else { 1 })
    }),
    ("unlisted, the register of a null pair", |it| {
        it.is(UNLISTED) && !it.in_memory() && it.of_null_pair()
    }),
    ("unlisted, where a null pair would be in memory", |it| {
        it.is(UNLISTED) && it.in_memory() && it.of_null_pair()
    }),
    ("a register with the number of a listed address", |it| {
        let (Slot::Address(number) | Slot::Register(number)) = it.slot;
        it.is(UNLISTED) && !it.in_memory() && it.listed(Slot::Address(number))
    }),
    ("an address with the number of a listed register", |it| {
        let (Slot::Address(number) | Slot::Register(number)) = it.slot;
        it.is(UNLISTED) && it.in_memory() && it.listed(Slot::Register(number))
    }),
    ("a register that is listed in fewer bits", |it| {
        let (Slot::Address(number) | Slot::Register(number)) = it.slot;
        let cut = [
            number % 32,
            number % 256,
            number & 0xffff,
            number & 0xffff_ffff,
        ];
        let mut cut = cut.into_iter().filter(|cut| *cut != number);
        it.is(UNLISTED) && !it.in_memory() && cut.any(|cut| it.listed(Slot::Register(cut)))
    }),
];

impl<'a> Asked<'a> {
    pub fn of(scene: &'a Scene, slot: Slot, told: Numbers) -> Asked<'a> {
        let own = |own| of_frame(scene, own);
        let pairs = plain::slots(scene, 0).into_iter();
        let pairs = pairs.map(|pair| pair.into_iter().map(|two| two.map(own)).collect());
        Asked {
            scene,
            slot,
            told,
            pairs: pairs.collect(),
        }
    }

    fn is(&self, reason: u64) -> bool {
        self.told[0] == reason
    }

    fn in_memory(&self) -> bool {
        matches!(self.slot, Slot::Address(_))
    }

    fn pointers(&self) -> impl Iterator<Item = [Slot; 2]> + '_ {
        self.pairs.iter().flatten().copied()
    }

    fn listed(&self, slot: Slot) -> bool {
        self.pointers().flatten().any(|own| own == slot)
    }

    /// What the slot holds, where it holds something.
    fn content(&self) -> Option<u64> {
        content(
            self.scene.first,
            &self.scene.image,
            &self.scene.stops[0].registers,
            self.slot,
        )
    }

    /// Whether a slot in memory is listed that begins so far before the one that is asked for.
    fn near(&self, is: impl Fn(i128) -> bool) -> bool {
        let Slot::Address(asked) = self.slot else {
            return false;
        };
        let beside = |own: Slot| match own {
            Slot::Address(own) => is(i128::from(asked) - i128::from(own)),
            Slot::Register(_) => false,
        };
        self.pointers().flatten().any(beside)
    }

    fn locations(&self) -> (&'a [Location], &'a [Location]) {
        let record = &self.scene.section.records[self.scene.stops[0].record];
        let first = plain::first_pair(record).expect("a statepoint");
        (&record.locations[3..first], &record.locations[first..])
    }

    /// Whether the slot is where a location is that is taken for one in a register or in memory.
    fn is_of(&self, location: &Location) -> bool {
        match self.slot {
            Slot::Register(number) => number == u64::from(location.register),
            Slot::Address(address) => {
                let registers = &self.scene.stops[0].registers;
                let own = registers.get(usize::from(location.register));
                own.is_some_and(|own| {
                    own.wrapping_add_signed(i64::from(location.offset as i32)) == address
                })
            }
        }
    }

    /// Whether the slot is that of a deoptimisation value of this kind.
    fn of_deopt(&self, kind: u8) -> bool {
        let (deopt, _) = self.locations();
        deopt.iter().any(|one| one.kind == kind && self.is_of(one))
    }

    /// Whether the slot is named by a location of a null pair, as register or by register and offset.
    fn of_null_pair(&self) -> bool {
        let (_, pairs) = self.locations();
        let pointers = registers(self.scene.machine);
        let null = |one: &&Location| one.kind > 3 && !pointers.contains(&one.register);
        pairs.iter().filter(null).any(|one| self.is_of(one))
    }
}

/// A slot of the scene's only frame, as it is asked for.
pub fn of_frame(scene: &Scene, slot: Own) -> Slot {
    match slot {
        Own::Register(number) => Slot::Register(number as u64),
        Own::Stack(at) => {
            let address = i128::from(scene.stack_pointer(0)) + at;
            Slot::Address(u64::try_from(address).expect("an address"))
        }
    }
}

/// What a slot holds, where it holds something.
pub fn content(first: u64, image: &[u8], registers: &[u64], slot: Slot) -> Option<u64> {
    match slot {
        Slot::Register(number) => registers.get(usize::try_from(number).ok()?).copied(),
        Slot::Address(address) => {
            let at = usize::try_from(address.checked_sub(first)?).ok()?;
            let bytes = image.get(at..at.checked_add(8)?)?;
            Some(u64::from_le_bytes(bytes.try_into().expect("eight bytes")))
        }
    }
}
