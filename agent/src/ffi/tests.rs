//! What the safe interface leaves out: the other fields of a refused answer.

use super::*;
use generator::frames::faults::{aim, NUMBERS};
use generator::frames::thread::Thread;
use generator::frames::Scene;
use generator::indexes;
use generator::layout::Version;
use generator::questions::{address, question, Question};
use generator::{case_of, crowded_in, listings, section_in, Rng};

/// The verdict of a search, and whether all other fields are 0.
fn found(it: Found) -> (Verdict, bool) {
    let zeros = (it.index, it.function, it.sharing) == (0, 0, 0);
    (it.verdict, zeros)
}

/// Number, place and whether all other fields are 0.
fn ask(section: &[u8], question: Question) -> (u64, u64, bool) {
    let (verdict, zeros) = match question {
        Question::Find(address) => found(find(section, address)),
        Question::FindIn(function, offset) => found(find_in_function(section, function, offset)),
        Question::Record(number) => {
            let it = record(section, number);
            let zeros = (it.first, it.length) == (0, 0);
            (it.verdict, zeros)
        }
        Question::Location(record, number) => {
            let it = location(section, record, number);
            let zeros = (it.kind, it.size, it.register, it.offset, it.constant) == (0, 0, 0, 0, 0);
            (it.verdict, zeros && it.content == 0)
        }
        Question::LiveOut(record, number) => {
            let it = live_out(section, record, number);
            let zeros = (it.register, it.size) == (0, 0);
            (it.verdict, zeros)
        }
    };
    (verdict.number, verdict.place, zeros)
}

#[test]
fn a_refused_answer_has_zeros_and_an_accepted_one_no_place() {
    let mut rng = Rng::new(1);
    let mut counts = [0; 28];
    for _ in 0..20_000 {
        let version = rng.pick(&Version::ALL);
        let section = crowded_in(&mut rng, version);
        let case = case_of(&mut rng, &section);
        for _ in 0..4 {
            let question = question(&mut rng, &section);
            let (number, place, zeros) = ask(&case.bytes, question);
            counts[number as usize] += 1;
            if number == 0 {
                assert_eq!(place, 0, "{question:?} of {:?}", case.bytes);
            } else {
                assert!(zeros, "{question:?} of {:?}", case.bytes);
            }
        }
        let answer = check(&case.bytes);
        assert_eq!(answer.value, 0, "{:?}", case.bytes);
    }
    for number in (0..12).chain([27]) {
        assert!(counts[number] > 100, "{number}: {counts:?}");
    }
}

#[test]
fn a_refused_call_with_an_index_has_zeros_and_an_accepted_one_no_place() {
    let mut rng = Rng::new(1);
    let mut counts = [0; 30];
    for _ in 0..20_000 {
        let version = rng.pick(&[Version::One, Version::Three, Version::Three]);
        let section = crowded_in(&mut rng, version);
        let bytes = case_of(&mut rng, &section).bytes;
        let own = indexes::any(&mut rng, &section);
        let asked = [address(&mut rng, &section), address(&mut rng, &section)];
        let (mut list, mut answers) = (vec![9; rng.below(20)], vec![9; 8 + rng.below(3)]);
        let (it, zeros) = found(index::find(&bytes, &own, asked[0]));
        counts[it.number as usize] += 1;
        assert!(it.number == 0 || zeros, "{own:x?} of {bytes:?}");
        assert!(it.number != 0 || it.place == 0, "{own:x?} of {bytes:?}");
        for (answer, written) in [
            (index::fill(&bytes, &mut list), 2 * section.records.len()),
            (index::find_all(&bytes, &own, &asked, &mut answers), 10),
        ] {
            counts[answer.verdict.number as usize] += 1;
            let (place, value) = match answer.verdict.number {
                0 => (0, written as u64),
                _ => (answer.verdict.place, 0),
            };
            let told = (answer.verdict.place, answer.value);
            // What is damaged and yet accepted may have another number of records.
            let known = bytes == section.encode() || answer.verdict.number != 0;
            assert!(!known || told == (place, value), "{own:x?} of {bytes:?}");
        }
    }
    for number in (0..11).chain([24, 27, 29]) {
        assert!(counts[number] > 100, "{number}: {counts:?}");
    }
}

/// Two or three sections, of which some are damaged, joined.
#[test]
fn a_refused_call_on_a_linked_section_has_zeros_and_an_accepted_one_no_place() {
    let mut rng = Rng::new(1);
    let mut counts = [0; 28];
    for _ in 0..20_000 {
        let sections: Vec<_> = (0..2 + rng.below(2))
            .map(|_| {
                let version = rng.pick(&[Version::One, Version::Three, Version::Three]);
                crowded_in(&mut rng, version)
            })
            .collect();
        let mut bytes = vec![];
        for section in &sections {
            match rng.one_in(3) {
                true => bytes.extend(case_of(&mut rng, section).bytes),
                false => bytes.extend(section.encode()),
            }
        }
        let section = &sections[rng.below(sections.len())];
        let it = linked::find(&bytes, address(&mut rng, section));
        let zeros = (it.map, it.index, it.function, it.sharing) == (0, 0, 0, 0);
        counts[it.verdict.number as usize] += 1;
        match it.verdict.number {
            0 => assert!(it.verdict.place == 0 && it.sharing != 0, "{bytes:?}"),
            _ => assert!(zeros, "{bytes:?}"),
        }
        let mut list = vec![9; rng.below(10)];
        let answer = linked::maps(&bytes, &mut list);
        counts[answer.verdict.number as usize] += 1;
        match answer.verdict.number {
            0 => assert!(answer.verdict.place == 0 && answer.value != 0, "{bytes:?}"),
            _ => assert_eq!(answer.value, 0, "{bytes:?}"),
        }
    }
    assert_eq!(counts[9], 0, "{counts:?}");
    for number in (0..9).chain([10, 24, 27]) {
        assert!(counts[number] > 100, "{number}: {counts:?}");
    }
}

#[test]
fn a_refused_conversion_has_length_0_and_an_accepted_one_no_place() {
    let mut rng = Rng::new(1);
    let mut counts = [0; 29];
    for _ in 0..20_000 {
        let version = rng.pick(&Version::ALL);
        let section = section_in(&mut rng, version);
        let bytes = case_of(&mut rng, &section).bytes;
        let listing = listings::case_of(&mut rng, &section).bytes;
        let room = [0, 2 * bytes.len() + 2 * listing.len() + 16][rng.below(2)];
        let mut output = vec![0; room];
        for answer in [
            to_listing(&bytes, &mut output),
            to_section(&listing, &mut output),
        ] {
            counts[answer.verdict.number as usize] += 1;
            if answer.verdict.number == 0 {
                assert_eq!(answer.verdict.place, 0, "{bytes:?}, {listing:?}");
                assert_ne!(answer.value, 0, "{bytes:?}, {listing:?}");
            } else {
                assert_eq!(answer.value, 0, "{bytes:?}, {listing:?}");
            }
        }
    }
    for number in (0..10).chain([22, 24, 28]) {
        assert!(counts[number] > 100, "{number}: {counts:?}");
    }
}

#[test]
fn a_refused_move_has_0_pointers_and_an_accepted_one_no_place() {
    let mut rng = Rng::new(1);
    let mut counts = [0; 34];
    for _ in 0..20_000 {
        let mut scene = Scene::one(&mut rng);
        let number = rng.pick(&NUMBERS);
        aim(&mut rng, number, &mut scene, 0);
        let section = scene.section.encode();
        let stop = scene.stops[0];
        let frame = Frame {
            address: stop.address,
            function: stop.named,
        };
        let (olds, news) = (&scene.table.olds, &scene.table.news);
        let (first, machine) = (scene.first, scene.machine);
        let answer = relocate(
            &section,
            &mut scene.image,
            first,
            olds,
            news,
            machine,
            frame,
            &mut stop.lent(),
        );
        counts[answer.verdict.number as usize] += 1;
        match answer.verdict.number {
            0 => assert_eq!(answer.verdict.place, 0, "{scene:?}"),
            _ => assert_eq!(answer.value, 0, "{scene:?}"),
        }
    }
    for number in NUMBERS {
        assert!(counts[number as usize] > 100, "{number}: {counts:?}");
    }
}

#[test]
fn a_refused_thread_has_0_pointers_and_an_accepted_one_no_place() {
    let mut rng = Rng::new(1);
    let mut counts = [0; 34];
    for _ in 0..30_000 {
        let mut list = Thread::any(&mut rng);
        if rng.one_in(4) {
            let number = rng.pick(&[13, 14, 33]);
            aim(&mut rng, number, &mut list.scene, 0);
        }
        let (section, frames) = (list.scene.section.encode(), list.list());
        let (mut image, mut registers) = (list.scene.image.clone(), list.registers());
        let lent = &mut registers;
        let (first, table) = (list.scene.first, &list.scene.table);
        let (olds, news, machine) = (&table.olds, &table.news, list.scene.machine);
        let answer = match rng.below(2) {
            0 => thread(
                &section, &mut image, first, olds, news, machine, &frames, lent,
            ),
            _ => {
                let own = indexes::any(&mut rng, &list.scene.section);
                index::thread(
                    &section, &mut image, first, olds, news, machine, &frames, lent, &own,
                )
            }
        };
        counts[answer.verdict.number as usize] += 1;
        match answer.verdict.number {
            0 => assert_eq!(answer.verdict.place, 0, "{list:?}"),
            _ => assert_eq!(answer.value, 0, "{list:?}"),
        }
    }
    for number in NUMBERS.into_iter().chain([0, 26, 27, 29]) {
        assert!(counts[number as usize] > 100, "{number}: {counts:?}");
    }
}
