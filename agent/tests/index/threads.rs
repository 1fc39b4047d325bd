//! Threads that are handed an index, beside the same threads without one.

use crate::calls::{raw, Call, Moves, Outcome};
use crate::common::{assert_often, count_random, say};
use generator::frames::faults::aim;
use generator::frames::thread::Thread;
use generator::indexes::{self, right};
use generator::{aimed, damage, section_in, Rng, Version};
use treskibben::{Frames, Index};

/// Lists in a run, made in parts that each have a source of random numbers.
const PARTS: u64 = 1_000;
const LISTS_A_PART: u64 = 300;

/// The numbers of a thread that is handed an index.
const NUMBERS: usize = 34;
const DUE: [usize; 24] = [
    0, 1, 2, 3, 4, 5, 6, 7, 8, 9, 10, 12, 13, 14, 15, 16, 17, 18, 19, 20, 21, 25, 26, 33,
];

/// How often each number was the answer; how often 27 was that of a list which is refused without an index
/// too, and 29 that of one which is 25.
type Counts = [u64; NUMBERS + 2];

/// The frames of a thread, and the index that is handed in.
#[derive(Clone, Copy, Debug)]
struct Indexed<'a> {
    frames: &'a [u64],
    index: &'a [u64],
}

impl Moves for Indexed<'_> {
    fn by_library(
        call: &Call<Self>,
        image: &mut [u8],
        registers: &mut [u64],
    ) -> Result<u64, (u64, u64)> {
        let Indexed { frames, index } = call.frames;
        let Some(machine) = call.machine() else {
            return raw::thread_by_index(call, frames, index, image, registers);
        };
        let index = Index::from_entries(call.section, index.to_vec());
        let (table, frames) = (call.table(), Frames::of_numbers(frames));
        let moved = index.relocate_thread(image, call.first, table, machine, frames, registers);
        let moved = moved.map(|pointers| pointers as u64);
        moved.map_err(|refusal| (refusal.number(), refusal.place()))
    }

    fn by_second(
        call: &Call<Self>,
        image: &mut [u8],
        registers: &mut [u64],
    ) -> Result<u64, (u64, u64)> {
        let Call {
            section,
            first,
            olds,
            news,
            machine,
            ..
        } = *call;
        let Indexed { frames, index } = call.frames;
        let moved = reference::thread_by_index(
            section, image, first, olds, news, machine, frames, registers, index,
        );
        moved.map_err(|refusal| (refusal.number, refusal.place))
    }
}

/// A list, the bytes of its section, an index, and what is known: number and place.
struct Case {
    thread: Thread,
    section: Vec<u8>,
    index: Vec<u64>,
    known: Option<(u64, u64)>,
}

/// An index of the list's section, mostly the right one, and the answer where nothing else is wrong.
fn index(rng: &mut Rng, thread: &Thread) -> (Vec<u64>, (u64, u64)) {
    let section = &thread.scene.section;
    let index = match rng.below(3) {
        0 => indexes::any(rng, section),
        _ => right(section),
    };
    let known = match section.version {
        Version::One => (27, 0),
        Version::Three if index != right(section) => (29, 0),
        Version::Three => thread.answer(),
    };
    (index, known)
}

/// A random one.
fn case(rng: &mut Rng) -> Case {
    let mut thread = Thread::any(rng);
    // Version 1 is only ever 27: most are of version 3.
    while thread.scene.section.version == Version::One && !rng.one_in(8) {
        thread = Thread::any(rng);
    }
    let (index, known) = index(rng, &thread);
    let mut known = Some(known);
    for number in [14, 13, 33] {
        if rng.one_in(24) && aim(rng, number, &mut thread.scene, 0).is_some() {
            known = Some((number, 0));
        }
    }
    let section = &thread.scene.section;
    let mut built = section.build();
    match rng.below(8) {
        0 => {
            let number = rng.pick(aimed::numbers(section.version));
            let place = aimed::aim(rng, number, section, &mut built);
            known = place.map_or(known, |place| Some((number, place as u64)));
        }
        1 => {
            let other = section_in(rng, Version::Three).encode();
            damage::damage(rng, &mut built, &other);
            known = None;
        }
        _ => {}
    }
    Case {
        thread,
        section: built.bytes,
        index,
        known,
    }
}

/// Moves a random list with an index, and compares all that is known of it.
fn run(rng: &mut Rng, counts: &mut Counts) {
    let Case {
        thread,
        section,
        index,
        known,
    } = case(rng);
    let list = thread.list();
    let frames = Indexed {
        frames: &list,
        index: &index,
    };
    let call = Call::with(&thread.scene, &section, frames, thread.registers());
    let outcome = call.compare();
    counts[outcome.number as usize] += 1;
    if let Some(known) = known.filter(|known| (outcome.number, outcome.place) != *known) {
        call.fail(&format!("{outcome:?}, known beforehand {known:?}"));
    }
    let plain = Call::with(&thread.scene, &section, &list[..], thread.registers()).by_library();
    expect_as_without(&call, &outcome, &plain);
    if known.is_some() {
        counts[NUMBERS] += u64::from(outcome.number == 27 && plain.number != 0);
        counts[NUMBERS + 1] += u64::from(outcome.number == 29 && plain.number == 25);
    }
}

/// With the right index the answer, the image and the registers are those without one; and what comes before
/// 27 and 29 is no answer without one.
fn expect_as_without(call: &Call<Indexed>, outcome: &Outcome, plain: &Outcome) {
    let as_without = match outcome.number {
        27 | 29 => ![1, 2, 3, 4, 5, 6, 7, 8, 9, 13, 14, 33].contains(&plain.number),
        _ => outcome == plain,
    };
    if !as_without {
        call.fail(&format!("{outcome:?}, and without an index {plain:?}"));
    }
}

#[test]
fn random_threads_with_an_index() {
    let counts = count_random("threads with an index", PARTS, LISTS_A_PART, run);
    let (numbers, both) = counts.split_at(NUMBERS);
    let lists = numbers.iter().sum::<u64>();
    say(&format!(
        "{lists} lists with an index, {} accepted",
        numbers[0]
    ));
    say(&format!("refused by 1 to 33: {:?}", &numbers[1..]));
    for (number, count) in numbers.iter().enumerate() {
        match DUE.contains(&number) || [27, 29].contains(&number) {
            true => assert_often(&[*count], |_| format!("answers {number}")),
            false => assert_eq!(*count, 0, "{number} is no answer of a thread"),
        }
    }
    say(&format!(
        "27 and 29 of a list that is refused too: {both:?}"
    ));
    assert_often(both, |nth| {
        ["27 of a refused list", "29 before 25"][nth].to_string()
    });
}
