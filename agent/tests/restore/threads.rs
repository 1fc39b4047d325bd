//! Threads under editions, with an index and without one.

use crate::calls::{Call, Moves, Outcome};
use crate::common::{assert_often, count_random, say};
use crate::store;
use crate::thread_cases::case;
use crate::under::stores::Stored;
use crate::under::{known_under, Indexed, Under};
use generator::frames::thread::Thread;
use generator::indexes::{self, right};
use generator::{Rng, Version};

/// Lists in a run, made in parts that each have a source of random numbers.
const PARTS: u64 = 1_000;
const LISTS_A_PART: u64 = 260;

/// The numbers of a thread, and those that only an index adds.
const NUMBERS: usize = 34;
const DUE: [usize; 25] = [
    0, 1, 2, 3, 4, 5, 6, 7, 8, 9, 10, 12, 13, 14, 15, 16, 17, 18, 19, 20, 21, 25, 26, 31, 33,
];
const OF_INDEX: [usize; 2] = [27, 29];

/// How often each of them must occur: with an index less, as half of the lists are 27 then.
const LEAST: [u64; 2] = [1_000, 300];

/// How often each number was the answer without an index and with one; how often 17 was by the edition's
/// count; and how often 33 stood before 27, before 29 and before 25.
type Counts = [u64; 2 * NUMBERS + 4];

/// Compares an answer with what is known of it.
fn expect<F: Moves>(call: &Call<F>, known: Option<(u64, u64)>) -> Outcome {
    let outcome = call.compare();
    if let Some(known) = known.filter(|known| (outcome.number, outcome.place) != *known) {
        call.fail(&format!("{outcome:?}, known beforehand {known:?}"));
    }
    outcome
}

/// A random list, and what is known of what its frames share.
struct Case {
    thread: Thread,
    section: Vec<u8>,
    stored: Stored,
    known: Option<(u64, u64)>,
}

/// Moves a list without an index, and compares all that is known of it.
fn without_index(case: &Case, counts: &mut Counts) -> Outcome {
    let Case {
        thread,
        section,
        stored,
        known,
    } = case;
    let (scene, list) = (&thread.scene, thread.list());
    let frames = &list[..];
    let call = Call::with(scene, section, Under { stored, frames }, thread.registers());
    let answer = |most| thread.answer_under(most);
    let outcome = expect(&call, known_under(stored, scene, *known, answer));
    counts[outcome.number as usize] += 1;
    if known.is_some() && outcome.number == 0 {
        let lent = outcome.image == thread.moved() && outcome.registers == thread.moved_registers();
        if outcome.count != thread.pointers() || !lent {
            call.fail(&format!("{outcome:?}, worked out otherwise beforehand"));
        }
    }
    let by_count = known.is_some() && outcome.number == 17 && thread.answer().0 != 17;
    counts[2 * NUMBERS] += u64::from(by_count);
    outcome
}

/// Moves a list with this index, which has this refusal of its own or none, and compares all that is known of it:
/// also the outcome without an index.
fn with_index(
    case: &Case,
    index: &[u64],
    own: Option<(u64, u64)>,
    plain: &Outcome,
    counts: &mut Counts,
) {
    let Case {
        thread,
        section,
        stored,
        known,
    } = case;
    let (scene, list) = (&thread.scene, thread.list());
    let answer = |most| own.unwrap_or_else(|| thread.answer_under(most));
    let frames = Indexed {
        frames: &list,
        index,
    };
    let call = Call::with(scene, section, Under { stored, frames }, thread.registers());
    let indexed = expect(&call, known_under(stored, scene, *known, answer));
    counts[NUMBERS + indexed.number as usize] += 1;
    if known.is_some() && own.is_none() && indexed != *plain {
        call.fail(&format!("{indexed:?}, and without an index {plain:?}"));
    }
    if *known == Some((0, 0)) && indexed.number == 33 {
        let counts = &mut counts[2 * NUMBERS + 1..];
        counts[0] += u64::from(own == Some((27, 0)));
        counts[1] += u64::from(own == Some((29, 0)));
        counts[2] += u64::from(thread.answer().0 == 25);
    }
}

/// Moves a random list under a random edition, without an index and with one.
fn run(rng: &mut Rng, counts: &mut Counts) {
    let (thread, section, known) = case(rng);
    let (stored, _) = store(rng, &thread.scene);
    let index = match rng.below(3) {
        0 => indexes::any(rng, &thread.scene.section),
        _ => right(&thread.scene.section),
    };
    let own = match thread.scene.section.version {
        Version::One => Some((27, 0)),
        Version::Three if index != right(&thread.scene.section) => Some((29, 0)),
        Version::Three => None,
    };
    let case = Case {
        thread,
        section,
        stored,
        known,
    };
    let plain = without_index(&case, counts);
    with_index(&case, &index, own, &plain, counts);
}

#[test]
fn random_threads() {
    let counts = count_random("random threads under editions", PARTS, LISTS_A_PART, run);
    let (numbers, others) = counts.split_at(2 * NUMBERS);
    for (indexed, numbers) in [false, true].into_iter().zip(numbers.chunks(NUMBERS)) {
        let how = ["without an index", "with one"][usize::from(indexed)];
        let lists = numbers.iter().sum::<u64>();
        say(&format!("{lists} lists {how}, {} accepted", numbers[0]));
        say(&format!("refused by 1 to 33: {:?}", &numbers[1..]));
        for (number, count) in numbers.iter().enumerate() {
            match DUE.contains(&number) || indexed && OF_INDEX.contains(&number) {
                true => {
                    let least = LEAST[usize::from(indexed)];
                    assert!(
                        *count >= least,
                        "answers {number} {how}: only {count} times"
                    );
                }
                false => assert_eq!(*count, 0, "{number} is no answer of a thread {how}"),
            }
        }
    }
    let names = [
        "17 by the edition's count",
        "33 before 27",
        "33 before 29",
        "33 before 25",
    ];
    say(&format!("{names:?}: {others:?}"));
    assert_often(&others[..3], |nth| names[nth].to_string());
    // Few lists are of a wrong length.
    assert!(others[3] >= 100, "{}: {}", names[3], others[3]);
}
