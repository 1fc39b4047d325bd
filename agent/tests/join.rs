//! Two moves in a row and one move by the joined table: random frames and threads of both versions and both
//! machines, with and without pairs of a base with itself, and the proved counterexamples by their numbers.
//!
//! Every move is made by the proved library and by the second implementation. The random frames follow from a
//! seed. It is printed; `TRESKIBBEN_SEED` sets it.

mod common;

#[path = "common/calls.rs"]
mod calls;

use calls::{Call, Moves, Outcome};
use common::{assert_often, count_random, say};
use generator::frames::plain::{self, Slot};
use generator::frames::thread::Thread;
use generator::frames::twice::{base_alone, list_bases};
use generator::frames::{Scene, Table};
use generator::layout::{Function, Location, Record, Section};
use generator::{Rng, Version};
use treskibben::{join, Frame, MoveTable};

const PARTS: u64 = 200;
const FRAMES_A_PART: u64 = 400;

/// What is counted, each of which must occur.
const SHAPES: [&str; 12] = [
    "every base with itself, accepted",
    "every base with itself, the first move refused",
    "every base with itself, the second move refused",
    "accepted, of version 1",
    "accepted, a new start is an old start of the same table",
    "accepted, a base in a register",
    "accepted, a pair of several pointers",
    "accepted, several frames",
    "accepted, a base of 0 with itself",
    "a base alone, and the same",
    "a base alone, and the second move alone refused",
    "a base alone, and other bytes",
];

/// The outcomes of two moves in a row, of which the second is made where the first is accepted, and that of
/// one by the joined table.
struct Both {
    first: Outcome,
    second: Option<Outcome>,
    one: Outcome,
}

/// Moves twice, and once by the joined table.
fn both<F: Moves>(call: &Call<F>, second: &Table) -> Both {
    let first = call.compare();
    let next = Call {
        image: &first.image,
        registers: first.registers.clone(),
        olds: &second.olds,
        news: &second.news,
        ..call.clone()
    };
    let second = (first.number == 0).then(|| next.compare());
    let (olds, news) = join(call.table(), next.table()).unwrap();
    let one = Call {
        olds: &olds,
        news: &news,
        ..call.clone()
    };
    assert_eq!(one.table().check(), Ok(()));
    let one = one.compare();
    Both { first, second, one }
}

impl Both {
    /// What the two moves leave, where both are accepted.
    fn two(&self) -> Option<&Outcome> {
        let second = self.second.as_ref();
        second.filter(|second| second.number == 0)
    }

    /// Whether both ways are accepted and leave the same, or neither is.
    fn same(&self) -> bool {
        let what = |outcome: &Outcome| (outcome.image.clone(), outcome.registers.clone());
        let one = (self.one.number == 0).then(|| what(&self.one));
        self.two().map(what) == one
    }
}

/// A random scene of one frame or of several, and whether they are moved as a thread.
fn scene(rng: &mut Rng) -> Scene {
    match rng.below(4) {
        0 => {
            let count = 2 + rng.below(3);
            Scene::many(rng, count)
        }
        1 => Scene::wide(rng),
        _ => Scene::one(rng),
    }
}

fn run(rng: &mut Rng, counts: &mut [u64; SHAPES.len()]) {
    let mut scene = scene(rng);
    if !rng.one_in(3) {
        list_bases(&mut scene);
    }
    let second = scene.table.next(rng);
    let joined = scene.table.joined(&second);
    let tables = [&scene.table, &second].map(|table| MoveTable::new(&table.olds, &table.news));
    let found = join(tables[0], tables[1]);
    assert_eq!(found, Ok((joined.olds, joined.news)));
    let section = scene.section.encode();
    let (both, alone) = match scene.stops.len() {
        1 => (
            both(&Call::of(&scene, &section, 0), &second),
            base_alone(&scene, 0),
        ),
        stops => {
            let thread = Thread::of(scene.clone());
            let (list, registers) = (thread.list(), thread.registers());
            let call = Call::with(&scene, &section, &list[..], registers);
            let alone = (0..stops).find_map(|stop| base_alone(&scene, stop));
            (both(&call, &second), alone)
        }
    };
    if alone.is_none() && !both.same() {
        let call = Call::of(&scene, &section, 0);
        let (first, two, one) = (&both.first, &both.second, &both.one);
        call.fail(&format!(
            "first {first:?}, second {two:?} by {second:?}, and at once {one:?}"
        ));
    }
    count(&scene, &both, alone.is_none(), counts);
}

/// Counts what was seen.
fn count(scene: &Scene, both: &Both, all: bool, counts: &mut [u64; SHAPES.len()]) {
    let accepted = both.two().is_some();
    let good = all && accepted;
    let slots = || {
        (0..scene.stops.len()).flat_map(|stop| {
            let slots = plain::slots(scene, stop).concat().into_iter();
            slots.map(move |slots| (stop, slots))
        })
    };
    let moved_on_itself = |(stop, [base, _]): (usize, [Slot; 2])| {
        let new = scene.table.moved(plain::content(scene, stop, base));
        new.is_some_and(|new| new != 0 && scene.table.olds.contains(&new))
    };
    let null = |(stop, [base, derived]): (usize, [Slot; 2])| {
        base == derived && plain::content(scene, stop, base) == 0
    };
    let wide = (0..scene.stops.len())
        .any(|stop| plain::slots(scene, stop).iter().any(|pair| pair.len() > 1));
    let shown = [
        good,
        all && both.first.number != 0,
        all && both.first.number == 0 && !accepted,
        good && scene.section.version == Version::One,
        good && slots().any(moved_on_itself),
        good && slots().any(|(_, [base, _])| base.in_register().is_some()),
        good && wide,
        good && scene.stops.len() > 1,
        good && slots().any(null),
        !all && both.same(),
        !all && both.first.number == 0 && !accepted && both.one.number == 0,
        !all && accepted && both.one.number == 0 && !both.same(),
    ];
    for (count, shown) in counts.iter_mut().zip(shown) {
        *count += u64::from(shown);
    }
}

#[test]
fn random_frames() {
    let counts = count_random("two moves of random frames", PARTS, FRAMES_A_PART, run);
    say(&format!("shapes: {counts:?}"));
    assert_often(&counts, |nth| SHAPES[nth].to_string());
}

/// The section of crates/relocate_twice/specs/Without.antt with these pairs: a statepoint at 0x1020 in a
/// function of 24 bytes of stack.
fn section(pairs: &[[Location; 2]]) -> Vec<u8> {
    let constant = Location {
        kind: 4,
        size: 8,
        register: 0,
        offset: 0,
    };
    let mut locations = vec![constant; 3];
    locations.extend(pairs.iter().flatten().cloned());
    let record = Record {
        id: 7,
        offset: 0x20,
        locations,
        live_outs: vec![],
    };
    let function = Function {
        address: 0x1000,
        stack_size: 24,
        record_count: 1,
    };
    Section {
        functions: vec![function],
        records: vec![record],
        ..Section::default()
    }
    .encode()
}

fn at(kind: u8, register: u16, offset: u32) -> Location {
    Location {
        kind,
        size: 8,
        register,
        offset,
    }
}

fn image(base: u64, derived: u64) -> Vec<u8> {
    [0, base, derived].map(u64::to_le_bytes).concat()
}

/// Moves the frame of these pairs from 0x50000 to 0x90000, and then by a second table.
fn worked(pairs: &[[Location; 2]], second: &Table) -> Both {
    let mut registers = vec![0; 32];
    (registers[3], registers[7]) = (0x50000, 0x7000);
    let call = Call {
        section: &section(pairs),
        image: &image(0x50000, 0x54E20),
        first: 0x7000,
        olds: &[0x50000],
        news: &[0x90000],
        machine: 0,
        frames: Frame::new(0x1020),
        registers,
    };
    both(&call, second)
}

/// The second tables of Without.antt: the object goes on to 0xA0000, and in the other one another object goes
/// from 0x50000 to 0x70000.
fn second() -> Table {
    Table {
        olds: vec![0x90000],
        news: vec![0xA0000],
    }
}

fn other() -> Table {
    Table {
        olds: vec![0x50000, 0x90000],
        news: vec![0x70000, 0xA0000],
    }
}

/// `WithoutSelfPair`: the base at RSP + 8 is in no derived slot, and keeps the old start.
#[test]
fn without_the_pair_with_itself() {
    let pairs = [[at(3, 7, 8), at(3, 7, 16)]];
    let refused = worked(&pairs, &second());
    assert_eq!(refused.first.answer(), (0, 0, 1));
    assert_eq!(refused.first.image, image(0x50000, 0x94E20));
    assert_eq!(refused.second.unwrap().answer(), (21, 0, 0));
    assert_eq!(refused.one.answer(), (0, 0, 1));

    let differ = worked(&pairs, &other());
    let two = differ.second.as_ref().unwrap();
    assert_eq!(
        (differ.first.answer(), two.answer()),
        ((0, 0, 1), (0, 0, 1))
    );
    assert_eq!(differ.one.answer(), (0, 0, 1));
    assert_eq!(two.image, image(0x50000, 0xB4E20));
    assert_eq!(differ.one.image, image(0x50000, 0xA4E20));
}

/// The same with the base in RBX.
#[test]
fn without_the_pair_of_a_register_with_itself() {
    let pairs = [[at(1, 3, 0), at(3, 7, 16)]];
    let refused = worked(&pairs, &second());
    assert_eq!(refused.second.unwrap().answer(), (21, 0, 0));
    assert_eq!(refused.one.answer(), (0, 0, 1));
    let differ = worked(&pairs, &other());
    assert_eq!(
        differ.second.as_ref().unwrap().image,
        image(0x50000, 0xB4E20)
    );
    assert_eq!(differ.one.image, image(0x50000, 0xA4E20));
    assert_eq!(differ.one.registers[3], 0x50000);
}

/// With the pair one move is the two, in memory and in a register.
#[test]
fn with_the_pair_with_itself() {
    for base in [at(3, 7, 8), at(1, 3, 0)] {
        let pairs = [[base.clone(), at(3, 7, 16)], [base.clone(), base.clone()]];
        for table in [second(), other()] {
            let both = worked(&pairs, &table);
            assert!(both.same());
            let in_register = base.kind == 1;
            let slots = match in_register {
                true => image(0x50000, 0xA4E20),
                false => image(0xA0000, 0xA4E20),
            };
            assert_eq!((both.one.answer(), both.one.image), ((0, 0, 2), slots));
            let rbx = if in_register { 0xA0000 } else { 0x50000 };
            assert_eq!(both.one.registers[3], rbx);
        }
    }
}
