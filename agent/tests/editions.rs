//! The store of editions by the safe crate: against the second implementation, its plain history and what
//! the generator knows, with the store written to bytes and read back in between. The bytes of a store with
//! a past are made here, by this test's own reading of the format.
//!
//! The random sequences follow from a seed. It is printed; `TRESKIBBEN_SEED` sets it.

mod common;

use common::{assert_often, count_random, differ};
use generator::editions::{self as made, Answer, Call, Sequence};
use generator::Rng;
use reference::editions::{self as second, Edition};
use reference::history::History;
use treskibben::editions::{
    Damage, Editions, Machine, MakeRefusal, Settings, UnknownEdition, Versions,
};
use treskibben::Refusal;

/// Sequences in a run, of 300 calls on average, made in parts that each have a source of random numbers.
const PARTS: u64 = 50;
const SEQUENCES_A_PART: u64 = 10;

/// What is counted: all calls, and each answer.
const NAMES: [&str; 8] = ["calls", "made", "retired", "read", "30", "31", "32", "51"];

/// The checksum, by a table.
fn crc_32(bytes: &[u8]) -> u32 {
    let table: Vec<u32> = (0..256)
        .map(|nth| {
            (0..8).fold(nth, |own: u32, _| match own % 2 {
                0 => own / 2,
                _ => (own / 2) ^ 0xEDB8_8320,
            })
        })
        .collect();
    let crc = bytes.iter().fold(u32::MAX, |crc, byte| {
        table[usize::from(crc as u8 ^ byte)] ^ (crc >> 8)
    });
    crc ^ u32::MAX
}

/// The bytes of the store that a sequence begins on.
fn start(sequence: &Sequence) -> Vec<u8> {
    let mut bytes = b"EDITIONS\x01\0\0\0\x1c\x0a\0\0".to_vec();
    bytes.extend(sequence.greatest.to_le_bytes());
    for &(number, settings) in &sequence.live {
        let versions = [settings.version_1.into(), settings.version_3.into()];
        let numbers = [number, settings.largest_count, settings.machine];
        for number in numbers.into_iter().chain(versions) {
            bytes.extend(number.to_le_bytes());
        }
    }
    bytes.resize(16 + 8 + 64 * 40, 0);
    bytes.extend(crc_32(&bytes).to_le_bytes());
    bytes
}

/// The settings as the safe crate has them. Of those that it has no words for, an unknown machine or no
/// version, the pointer count is made wrong instead, so that they are refused by the same number.
fn settings(own: made::Settings) -> Settings {
    let (machine, known) = match own.machine {
        0 => (Machine::Amd64, true),
        1 => (Machine::Aarch64, true),
        _ => (Machine::Amd64, false),
    };
    let (versions, some) = match (own.version_1, own.version_3) {
        (true, false) => (Versions::One, true),
        (false, true) => (Versions::Three, true),
        (true, true) => (Versions::Both, true),
        (false, false) => (Versions::Both, false),
    };
    let right = known && some;
    Settings {
        pointers: if right { own.largest_count } else { 0 },
        machine,
        versions,
    }
}

/// Settings as the generator has them.
fn told(own: Settings) -> made::Settings {
    made::Settings {
        largest_count: own.pointers,
        machine: match own.machine {
            Machine::Amd64 => 0,
            Machine::Aarch64 => 1,
        },
        version_1: own.versions.one(),
        version_3: own.versions.three(),
    }
}

/// A refusal, whose type says its number.
fn refused(refusal: impl Into<Refusal> + std::error::Error) -> Answer {
    let text = refusal.to_string();
    let refusal = refusal.into();
    assert_eq!((refusal.place(), refusal.to_string()), (0, text));
    Answer::Refused(refusal.number())
}

/// What the safe crate answers.
fn of_crate(editions: &mut Editions, call: Call) -> Answer {
    match call {
        Call::Make(own) => editions
            .make(settings(own))
            .map_or_else(refused, Answer::Made),
        Call::Retire(number) => editions
            .retire(number)
            .map_or_else(refused, |()| Answer::Retired),
        Call::Read(number) => editions
            .read(number)
            .map_or_else(refused, |own| Answer::Read(told(own))),
    }
}

fn as_second(own: made::Settings) -> second::Settings {
    second::Settings {
        largest_count: own.largest_count,
        machine: own.machine,
        version_1: own.version_1,
        version_3: own.version_3,
    }
}

/// What the plain history answers.
fn of_history(history: &mut History, call: Call) -> Answer {
    let refused = |refusal: reference::Refusal| Answer::Refused(refusal.number);
    let has = |own: second::Settings| {
        Answer::Read(made::Settings {
            largest_count: own.largest_count,
            machine: own.machine,
            version_1: own.version_1,
            version_3: own.version_3,
        })
    };
    match call {
        Call::Make(own) => history
            .make(as_second(own))
            .map_or_else(refused, Answer::Made),
        Call::Retire(number) => history
            .retire(number)
            .map_or_else(refused, |()| Answer::Retired),
        Call::Read(number) => history.read(number).map_or_else(refused, has),
    }
}

/// The live editions as the second implementation has them.
fn live(editions: &Editions) -> Vec<Edition> {
    let own = editions.iter().map(|own| Edition {
        number: own.number,
        settings: as_second(told(own.settings)),
    });
    own.collect()
}

fn nth(answer: Answer) -> usize {
    match answer {
        Answer::Made(_) => 1,
        Answer::Retired => 2,
        Answer::Read(_) => 3,
        Answer::Refused(number) => {
            let name = number.to_string();
            let found = NAMES.iter().position(|own| *own == name);
            found.expect("a refusal of these calls")
        }
    }
}

/// A whole sequence, with the store written and read back now and then.
fn run(rng: &mut Rng, counts: &mut [u64; NAMES.len()]) {
    let sequence = made::sequence(rng);
    let bytes = start(&sequence);
    let mut editions = Editions::from_bytes(&bytes).expect("calls leave such a store");
    assert_eq!(editions.to_bytes(), bytes, "{sequence:?}");
    let editions_before = sequence.live.iter().map(|&(number, own)| Edition {
        number,
        settings: as_second(own),
    });
    let before: Vec<Edition> = editions_before.collect();
    let mut store = second::Store::set_up(sequence.greatest, &before).unwrap();
    let mut history = History::that_leaves(&store);
    for &(call, known) in &sequence.calls {
        let answer = of_crate(&mut editions, call);
        let plain = of_history(&mut history, call);
        if answer != known || answer != plain {
            let answers = format!(
                "{call:?}: {answer:?}, by the history {plain:?}, known {known:?}, in {sequence:?}"
            );
            differ("a sequence that begins on this store", &bytes, &answers);
        }
        let _ = match call {
            Call::Make(own) => store.make(as_second(own)).map(|_| ()),
            Call::Retire(number) => store.retire(number),
            Call::Read(_) => Ok(()),
        };
        assert_eq!(live(&editions), store.editions(), "{call:?}");
        let greatest = (editions.greatest(), editions.len());
        assert_eq!(greatest, (store.greatest(), store.editions().len()));
        if rng.one_in(20) {
            editions = Editions::from_bytes(&editions.to_bytes()).unwrap();
        }
        counts[0] += 1;
        counts[nth(answer)] += 1;
    }
}

#[test]
fn crate_second_implementation_and_history_answer_alike() {
    let counts = count_random("calls on stores of editions", PARTS, SEQUENCES_A_PART, run);
    common::say(&format!(
        "{:?}",
        NAMES.iter().zip(counts).collect::<Vec<_>>()
    ));
    assert_often(&counts, |nth| NAMES[nth].to_string());
    assert!(counts[0] >= 100_000, "only {} calls", counts[0]);
}

#[test]
fn refusals_have_types() {
    let right = Settings {
        pointers: 1,
        machine: Machine::Aarch64,
        versions: Versions::One,
    };
    let wrong = Settings {
        pointers: 0,
        ..right
    };
    let mut editions = Editions::default();
    assert!(editions.is_empty());
    assert_eq!(editions.make(wrong), Err(MakeRefusal::Settings));
    let unknown = UnknownEdition { edition: 1 };
    assert_eq!(editions.read(1), Err(unknown));
    assert_eq!(editions.retire(1), Err(unknown));
    for number in 1..=64 {
        assert_eq!(editions.make(right), Ok(number));
    }
    let full = editions.clone();
    assert_eq!(editions.make(right), Err(MakeRefusal::Full));
    assert_eq!(editions.make(wrong), Err(MakeRefusal::Settings));
    assert_eq!((editions.len(), editions.greatest()), (64, 64));
    assert_eq!(editions, full);
    assert_eq!(late().make(right), Err(MakeRefusal::NumbersUsedUp));
}

/// A store whose greatest number is the last.
fn late() -> Editions {
    let late = Sequence {
        kind: made::Kind::Last,
        greatest: made::LAST,
        live: vec![],
        calls: vec![],
    };
    Editions::from_bytes(&start(&late)).unwrap()
}

#[test]
fn refusals_have_words() {
    let unknown = UnknownEdition { edition: 1 };
    let words = [
        unknown.to_string(),
        MakeRefusal::Full.to_string(),
        MakeRefusal::NumbersUsedUp.to_string(),
        MakeRefusal::Settings.to_string(),
    ];
    let expected = [
        "refused 31 at 0: edition unknown or retired",
        "refused 30 at 0: 64 editions are live",
        "refused 32 at 0: new edition's number over 2^32 - 1",
        "refused 51 at 0: pointer count not 1 to 256, machine unknown, or no version allowed",
    ];
    assert_eq!(words, expected);
}

#[test]
fn what_is_no_store_is_said() {
    let words = |bytes: &[u8]| Editions::from_bytes(bytes).unwrap_err().to_string();
    assert_eq!(words(b""), "it doesn't begin with 'EDITIONS'");
    assert_eq!(
        words(b"EDITIONS\x02\0\0\0"),
        "it is of format 2, and not of format 1"
    );
    assert_eq!(
        words(b"EDITIONS\x01\0\0\0"),
        "its length is 12, and not 2588"
    );
    let mut bytes = Editions::new().to_bytes();
    bytes[16] = 1;
    assert_eq!(words(&bytes), "its checksum is wrong");
    let end = bytes.len() - 4;
    bytes[16 + 4] = 1;
    let crc = crc_32(&bytes[..end]).to_le_bytes();
    bytes[end..].copy_from_slice(&crc);
    assert_eq!(Editions::from_bytes(&bytes), Err(Damage::Greatest));
}
