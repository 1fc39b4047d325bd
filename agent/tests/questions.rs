//! The questions on a section, asked of the proved library and of the second implementation: random,
//! damaged and edge sections of both versions, and questions at their edges.
//!
//! Of whole sections, and of those that are refused for a known cause, the generator knows the
//! answer beforehand, and that is compared too. The random sections and questions follow from a
//! seed. It is printed; `TRESKIBBEN_SEED` sets it.

mod common;
#[path = "questions/shapes.rs"]
mod shapes;

use common::{assert_often, count_random, differ, nth_version, say, seed};
use generator::questions::{answer, question, Answer, Question};
use generator::{aimed, asked, case_of, crowded_in, edges, largest, older, section_in};
use generator::{Case, Rng, Section, Version};
use shapes::SHAPES;

/// Sections in a run, made in parts that each have a source of random numbers, and questions on each.
const PARTS: u64 = 2_000;
const SECTIONS_A_PART: u64 = 200;
const QUESTIONS_A_SECTION: u64 = 6;

/// How often each number was the answer, 0 to 27, for each version that sections were made of; and then
/// how often each shape was seen.
const NUMBERS: usize = 28;
type Counts = [u64; 2 * NUMBERS + SHAPES.len()];

/// The answers that are no refusal of the section itself.
const OWN: [u64; 4] = [0, 10, 11, 27];

/// Where a part of the section stands in it.
fn stretch(section: &[u8], part: &[u8]) -> Answer {
    let first = part.as_ptr().addr().wrapping_sub(section.as_ptr().addr());
    let length = part.len();
    Answer::Record { first, length }
}

fn by_library(section: &[u8], question: Question) -> Answer {
    let found = |it: treskibben::Found| Answer::Found {
        record: it.record,
        function: it.function,
        sharing: it.sharing,
    };
    let answer = match question {
        Question::Find(address) => treskibben::find(section, address).map(found),
        Question::FindIn(function, offset) => {
            treskibben::find_in_function(section, function, offset).map(found)
        }
        Question::Record(record) => {
            treskibben::record(section, record).map(|part| stretch(section, part))
        }
        Question::Location(record, number) => {
            treskibben::location(section, record, number).map(|it| Answer::Location {
                kind: it.kind.number(),
                size: it.size,
                register: it.register,
                offset: it.offset,
                constant: it.constant,
                content: it.content.number(),
            })
        }
        Question::LiveOut(record, number) => {
            treskibben::live_out(section, record, number).map(|it| Answer::LiveOut {
                register: it.register,
                size: it.size,
            })
        }
    };
    answer.unwrap_or_else(|refusal| Answer::Refused {
        number: refusal.number(),
        place: refusal.place(),
    })
}

fn by_second(section: &[u8], question: Question) -> Answer {
    let found = |it: reference::Found| Answer::Found {
        record: it.record,
        function: it.function,
        sharing: it.sharing,
    };
    let answer = match question {
        Question::Find(address) => reference::by_address(section, address).map(found),
        Question::FindIn(function, offset) => {
            reference::by_function(section, function, offset).map(found)
        }
        Question::Record(record) => {
            reference::record(section, record).map(|part| stretch(section, part))
        }
        Question::Location(record, number) => {
            reference::location(section, record, number).map(|it| Answer::Location {
                kind: it.kind,
                size: it.size,
                register: it.register,
                offset: it.offset,
                constant: it.constant,
                content: it.content.number(),
            })
        }
        Question::LiveOut(record, number) => {
            reference::live_out(section, record, number).map(|it| Answer::LiveOut {
                register: it.register,
                size: it.size,
            })
        }
    };
    answer.unwrap_or_else(|refusal| Answer::Refused {
        number: refusal.number,
        place: refusal.place,
    })
}

/// What is known beforehand: the refusal of a case, or what the section answers that it is made of.
fn known(case: &Case, section: Option<&Section>, question: Question) -> Option<Answer> {
    match case.answer? {
        (0, _) => section.map(|section| answer(section, question)),
        (number, place) => Some(Answer::Refused { number, place }),
    }
}

/// Compares both answers, and with the one that is known beforehand, in every field. Gives it.
fn compare(case: &Case, section: Option<&Section>, question: Question) -> Answer {
    let library = by_library(&case.bytes, question);
    let second = by_second(&case.bytes, question);
    let known = known(case, section, question);
    if library != second || known.is_some_and(|known| library != known) {
        let answers = format!(
            "{question:?}: by the library {library:?}, by the second implementation {second:?}, \
             known beforehand {known:?}"
        );
        differ(case.name, &case.bytes, &answers);
    }
    library
}

fn number(answer: Answer) -> usize {
    match answer {
        Answer::Refused { number, .. } => number as usize,
        _ => 0,
    }
}

/// Asks a few questions on a random section, whole or damaged.
fn ask(rng: &mut Rng, counts: &mut Counts) {
    let version = rng.pick(&Version::ALL);
    let section = match rng.below(3) {
        0 => section_in(rng, version),
        _ => crowded_in(rng, version),
    };
    let case = match rng.below(2) {
        0 => Case::known("whole", section.encode(), 0, 0),
        _ => case_of(rng, &section),
    };
    for _ in 0..QUESTIONS_A_SECTION {
        let question = question(rng, &section);
        let answer = compare(&case, Some(&section), question);
        counts[NUMBERS * nth_version(version) + number(answer)] += 1;
        if case.answer == Some((0, 0)) {
            for (count, (_, shows)) in counts[2 * NUMBERS..].iter_mut().zip(SHAPES) {
                *count += u64::from(shows(&section, question, answer));
            }
        }
    }
}

#[test]
fn random_questions() {
    let counts = count_random("random questions", PARTS, SECTIONS_A_PART, ask);
    let (numbers, shapes) = counts.split_at(2 * NUMBERS);
    for (version, numbers) in Version::ALL.into_iter().zip(numbers.chunks(NUMBERS)) {
        let asked: u64 = numbers.iter().sum();
        let of = format!("of version {}", version.number());
        say(&format!("{asked} questions {of}, {} accepted", numbers[0]));
        say(&format!("refused by 1 to 11: {:?}", &numbers[1..12]));
        say(&format!("refused by 27: {}", numbers[27]));
        assert!(asked >= 300_000);
        for number in OWN.iter().chain(aimed::numbers(version)) {
            let count = numbers[*number as usize];
            assert_often(&[count], |_| format!("answers {number} {of}"));
        }
    }
    say(&format!("shapes: {shapes:?}"));
    assert_often(shapes, |nth| SHAPES[nth].0.to_string());
}

#[test]
fn every_question_on_small_sections() {
    let mut asked = 0;
    for section in asked::all().into_iter().chain(older::asked::all()) {
        let case = Case::known("made to be asked", section.encode(), 0, 0);
        for question in asked::every_question(&section) {
            compare(&case, Some(&section), question);
            asked += 1;
        }
    }
    say(&format!("{asked} questions on sections made for them"));
}

/// Sections at the edges of the check's rules: five questions on each, in turn from those that the
/// whole section would answer in one way or another.
#[test]
fn questions_at_the_edges_of_the_rules() {
    let newer = questions_at_edges(&edges::every_part(), edges::all);
    let older = questions_at_edges(&older::edges::every_part(), older::edges::all);
    say(&format!("{newer} and {older} questions at the edges"));
}

/// How many there are on these cases, which are made of this section.
fn questions_at_edges(section: &Section, cases: fn(edges::Visit)) -> usize {
    let all = asked::every_question(section);
    let of = |is: fn(&Question) -> bool| all.iter().copied().filter(is).collect::<Vec<_>>();
    let kinds = [
        of(|question| matches!(question, Question::Find(_))),
        of(|question| matches!(question, Question::FindIn(..))),
        of(|question| matches!(question, Question::Record(_))),
        of(|question| matches!(question, Question::Location(..))),
        of(|question| matches!(question, Question::LiveOut(..))),
    ];
    let mut count = 0;
    cases(&mut |case| {
        for questions in &kinds {
            compare(&case, None, questions[count % questions.len()]);
        }
        count += 1;
    });
    kinds.len() * count
}

/// The largest sections. Where there are as many records as there can be, they share an address or
/// offset.
#[test]
fn questions_on_the_largest_sections() {
    let seed = seed("questions on the largest sections");
    let mut rng = Rng::new(seed);
    largest::all(seed, &mut |case| {
        let records = u32::from_le_bytes(case.bytes[12..16].try_into().expect("four bytes"));
        let record = rng.below(records.max(1) as usize) as u64;
        compare(&case, None, Question::Find(3));
        compare(&case, None, Question::FindIn(0, 3));
        compare(&case, None, Question::Record(record));
        compare(&case, None, Question::Location(record, 0));
        compare(&case, None, Question::LiveOut(record, 0));
    });
}
