//! Sections that LLVM itself wrote. `llvm/build` compiles small programs for two targets at two levels, with and without
//! frame pointers and pointers in registers, and for each section the proved check, questions, index and conversions, the second implementation and
//! llvm-readobj must agree. So must the moves of its statepoints, each in a hand-made frame.

#[path = "llvm/asked.rs"]
mod asked;
#[path = "llvm/compare.rs"]
mod compare;
#[path = "llvm/coverage.rs"]
mod coverage;
#[path = "llvm/indexed.rs"]
mod indexed;
#[path = "llvm/listed.rs"]
mod listed;
#[path = "llvm/planned.rs"]
mod planned;
#[path = "llvm/readobj.rs"]
mod readobj;
#[path = "llvm/sections.rs"]
mod sections;

use compare::compare;
use planned::{Seen, Sort, Target};
use reference::section::{self, Section};
use sections::{Built, LEVELS, REGISTERS, TARGETS};
use treskibben::{linked, Index};

/// The section as the second implementation reads it; it must accept it.
fn read(name: &str, bytes: &[u8]) -> Section {
    section::read(bytes)
        .unwrap_or_else(|refusal| panic!("{name}: refused {} at {}", refusal.number, refusal.place))
}

/// Number and place of both implementations' verdict, which must be the same; none where they accept.
fn verdict(name: &str, bytes: &[u8]) -> Option<(u64, u64)> {
    let proved = treskibben::check(bytes)
        .err()
        .map(|refusal| (refusal.number(), refusal.place()));
    let second = section::check(bytes)
        .err()
        .map(|refusal| (refusal.number, refusal.place));
    assert_eq!(
        proved, second,
        "{name}: the proved verdict and the second one"
    );
    proved
}

/// The section as the second implementation reads it, the library's answers and its listing are what is printed.
fn compared(name: &str, bytes: &[u8], printed: &str) {
    let printed = readobj::parse(printed).unwrap_or_else(|fault| panic!("{name}.readobj: {fault}"));
    compare(&read(name, bytes), &printed).unwrap_or_else(|fault| panic!("{name}: {fault}"));
    asked::compare(bytes, &printed).unwrap_or_else(|fault| panic!("{name}, asked: {fault}"));
    listed::compare(bytes, &printed).unwrap_or_else(|fault| panic!("{name}, listed: {fault}"));
}

#[test]
fn every_section_is_accepted_and_read_as_llvm_prints_it() {
    for Built {
        name,
        bytes,
        printed,
        ..
    } in sections::single()
    {
        assert_eq!(verdict(name, bytes), None, "{name}");
        compared(name, bytes, printed);
    }
}

/// The index is what the printed text yields, by both implementations, and no list that is nearly so is one.
#[test]
fn every_section_has_the_index_that_llvm_prints() {
    let mut records = 0;
    for Built {
        name,
        bytes,
        printed,
        ..
    } in sections::single()
    {
        let printed = readobj::parse(printed).unwrap();
        let told = |fault| panic!("{name}, index: {fault}");
        indexed::compare(bytes, &printed).unwrap_or_else(told);
        indexed::refuses_others(bytes, &printed).unwrap_or_else(told);
        let mut second = vec![0; 2 * printed.records.len()];
        assert_eq!(
            reference::fill_index(bytes, &mut second),
            Ok(second.len() as u64),
            "{name}"
        );
        assert_eq!(second, indexed::entries(&printed), "{name}");
        records += printed.records.len();
    }
    assert!(records > 100, "only {records} records");
}

/// What came of all statepoints of the sections of a target with such names. The same must come of them where all their
/// slots in memory are addressed by the frame pointer.
fn planned(target: &str, wanted: impl Fn(&str) -> bool) -> Seen {
    let mut all = Seen::default();
    let sections = sections::single().filter(|built| built.target == target && wanted(&built.name));
    for Built {
        name,
        bytes,
        printed,
        ..
    } in sections
    {
        let printed = readobj::parse(printed).unwrap();
        let target = Target::named(target);
        let seen = planned::compare(bytes, &printed, target);
        let seen = seen.unwrap_or_else(|fault| panic!("{name}: {fault}"));
        let (changed, text) = planned::by_frame_pointer(bytes, printed, target);
        let again = planned::compare(&changed, &text, target);
        let again = again.unwrap_or_else(|fault| panic!("{name}, by the frame pointer: {fault}"));
        let mut moved = seen.pointers.keys();
        let in_memory = moved.any(|sorts| sorts.contains(&Sort::Memory));
        assert!(
            changed != *bytes || !in_memory,
            "{name}: no slot is addressed by the stack pointer"
        );
        assert_eq!(again, seen, "{name}, by the frame pointer");
        all.moved += seen.moved;
        for (sorts, count) in seen.pointers {
            *all.pointers.entry(sorts).or_default() += count;
        }
        all.most = all.most.max(seen.most);
        for (number, count) in seen.refused {
            *all.refused.entry(number).or_default() += count;
        }
    }
    all
}

/// In a hand-made frame each statepoint is moved, or refused, as the printed text says.
#[test]
fn every_statepoint_is_moved_as_llvm_prints_it() {
    for target in TARGETS {
        let seen = planned(target, |_| true);
        assert!(seen.moved > 100, "{target}: {seen:?}");
        // The address of an alloca among the values before the pairs is no pair: nothing is refused but some vectors of
        // pointers, a pointer in the frame pointer, and a slot that lies outside because a vector of unknown length is
        // left out of the stack size.
        let mut refused = planned(target, |name| name.starts_with("vectors.")).refused;
        *refused.entry(18).or_default() += 1;
        refused.extend((*target == "aarch64").then_some((19, 1)));
        assert_eq!(seen.refused, refused, "{target}");
    }
}

/// Of each vectors section all statepoints are moved but three: one whose stack size is not known, one with 257
/// pointers in two pairs, and one with 257 in one.
#[test]
fn vectors_of_pointers_are_moved_pointer_by_pointer() {
    for target in TARGETS {
        let seen = planned(target, |name| name.starts_with("vectors."));
        let each = LEVELS.len() + REGISTERS.len();
        assert_eq!(seen.moved, 5 * each, "{target}: {seen:?}");
        assert_eq!(seen.most, 256, "{target}: {seen:?}");
        assert_eq!(
            seen.pointers.values().sum::<usize>(),
            (5 + 3 + 8 + 256 + 4) * each,
            "{target}: {seen:?}"
        );
        assert_eq!(
            seen.refused,
            [(16, each), (17, each), (18, each)].into(),
            "{target}: {seen:?}"
        );
    }
}

/// Where LLVM may leave pointers in registers it does, base and derived of one sort or of two. Elsewhere all are in memory.
#[test]
fn pointers_in_registers_are_moved() {
    use Sort::{Memory, Register};
    for target in TARGETS {
        let seen = planned(target, |name| name.ends_with("-registers"));
        for base in [Memory, Register] {
            for derived in [Memory, Register] {
                let sorts = [base, derived];
                assert!(seen.pointers.contains_key(&sorts), "{target}: no {sorts:?}");
            }
        }
        let plain = planned(target, |name| !name.ends_with("-registers"));
        let sorts: Vec<_> = plain.pointers.into_keys().collect();
        assert_eq!(sorts, [[Memory, Memory]], "{target}");
    }
}

/// Without frame pointers LLVM keeps a pointer in RBP or x29 too where it runs out of others. With them it does not.
#[test]
fn a_pointer_in_the_frame_pointer_is_refused() {
    for target in TARGETS {
        let seen = |level| {
            let name = format!("registers.{target}.{level}");
            planned(target, |own| own == name)
        };
        let without = seen("O2-registers");
        assert_eq!((without.moved, without.refused), (1, [(18, 1)].into()));
        let with = seen("O2-fp-registers");
        assert_eq!((with.moved, with.refused), (2, [].into()));
    }
}

/// Without this the tests could become empty unseen.
#[test]
fn the_sections_show_every_shape() {
    for target in TARGETS {
        let of_target = sections::single().filter(|built| built.target == *target);
        coverage::assert_every_shape(
            target,
            of_target.map(|built| read(&built.name, &built.bytes)),
        );
    }
}

#[test]
fn two_linked_maps_are_refused_at_the_second_header() {
    for target in TARGETS {
        for level in LEVELS {
            let two = sections::named("two", target, level);
            let first = sections::named("constants", target, level).bytes.len();
            let second = sections::named("statepoint", target, level);
            assert_eq!(
                verdict(&two.name, &two.bytes),
                Some((9, first as u64)),
                "{}",
                two.name
            );

            let (before, after) = two.bytes.split_at(first);
            assert_eq!(
                verdict(&two.name, before),
                None,
                "{}: the first map",
                two.name
            );
            assert_eq!(
                verdict(&two.name, after),
                None,
                "{}: the second map",
                two.name
            );
            compared(&two.name, before, &two.printed);
            same_but_for_addresses(&two.name, after, &second.bytes);
        }
    }
}

/// Both maps are had by one call, and each record is found over both where the first map has it that does.
#[test]
fn two_linked_maps_are_cut_and_searched() {
    let mut asked = 0;
    for target in TARGETS {
        for level in LEVELS {
            let two = sections::named("two", target, level);
            let first = sections::named("constants", target, level).bytes.len();
            let (before, after) = two.bytes.split_at(first);
            let maps = [before, after];
            assert_eq!(linked::cut(&two.bytes), Ok(maps.to_vec()), "{}", two.name);
            let indexes = maps.map(|map| Index::of(map).expect("a map of version 3"));
            let entries = indexes.iter().flat_map(|index| index.entries().chunks(2));
            for address in entries.map(|entry| entry[0]) {
                let alone = maps.map(|map| treskibben::find(map, address).ok());
                let map = usize::from(alone[0].is_none());
                let own = alone[map].expect("the map's own record");
                let sharing = alone.iter().flatten().map(|found| found.sharing).sum();
                let expected = linked::Found {
                    map: map as u64,
                    record: own.record,
                    function: own.function,
                    sharing,
                };
                assert_eq!(
                    linked::find(&two.bytes, address),
                    Ok(expected),
                    "{}",
                    two.name
                );
                asked += 1;
            }
            let none = linked::find(&two.bytes, 1).map_err(|refusal| refusal.number());
            assert_eq!(none, Err(10), "{}", two.name);
        }
    }
    assert!(asked > 20, "{asked} addresses");
}

/// The second map is the one of its object alone, but that the linker moved the functions.
fn same_but_for_addresses(name: &str, linked: &[u8], alone: &[u8]) {
    let functions = read(name, alone).functions.len();
    assert_eq!(read(name, linked).functions.len(), functions, "{name}");
    let mut expected = alone.to_vec();
    for number in 0..functions {
        let address = 16 + 24 * number..16 + 24 * number + 8;
        assert_ne!(
            linked[address.clone()],
            alone[address.clone()],
            "{name}: function {number} did not move"
        );
        expected[address.clone()].copy_from_slice(&linked[address]);
    }
    assert_eq!(linked, expected, "{name}: the second map");
}

/// Any one byte damaged: both implementations give one verdict, and where they accept, the comparison with
/// the printed text fails. So every byte is either checked or compared, and the comparison can fail. The same
/// holds of the library's listing, and of its answers but for stack sizes, which no question gives.
#[test]
fn every_damaged_byte_is_noticed() {
    for Built {
        name,
        bytes,
        printed,
        ..
    } in sections::single()
    {
        compared(name, bytes, printed);
        let printed = readobj::parse(printed).unwrap();
        let mut differing = 0;
        for place in 0..bytes.len() {
            for flip in [0x01, 0x80, 0xff] {
                let mut damaged = bytes.clone();
                damaged[place] ^= flip;
                if verdict(name, &damaged).is_none() {
                    let difference = compare(&read(name, &damaged), &printed);
                    assert!(
                        difference.is_err(),
                        "{name}: byte {place} with {flip:#x} passes unseen"
                    );
                    let seen = asked::compare(&damaged, &printed).is_err();
                    let asked = !in_a_stack_size(place, printed.functions.len());
                    assert_eq!(
                        seen, asked,
                        "{name}: byte {place} with {flip:#x} in the answers"
                    );
                    let listed = listed::compare(&damaged, &printed).is_err();
                    assert!(listed, "{name}: byte {place} with {flip:#x} in the listing");
                    differing += 1;
                }
            }
        }
        assert!(differing > 0, "{name}: the comparison was never asked");
    }
}

/// Whether a byte of a section is one of a function's stack size.
fn in_a_stack_size(place: usize, functions: usize) -> bool {
    (0..functions).any(|number| (24 + 24 * number..32 + 24 * number).contains(&place))
}

/// A field of the printed text changed: the comparison names it. A line it does not know: the parser says so.
#[test]
fn a_changed_text_is_noticed() {
    let built = sections::named("statepoint", "x86_64", "O2");
    compared(&built.name, &built.bytes, &built.printed);
    let section = read(&built.name, &built.bytes);
    for (from, to) in [
        ("Function address: 9", "Function address: 8"),
        ("stack size: 24", "stack size: 25"),
        ("  #1: 81985529216486895", "  #1: 81985529216486894"),
        ("Record ID: 3", "Record ID: 4"),
        ("instruction offset: 6", "instruction offset: 7"),
        ("Indirect [R#7 + 8]", "Direct R#7 + 8"),
        ("Indirect [R#7 + 8]", "Indirect [R#6 + 8]"),
        ("Indirect [R#7 + 8]", "Indirect [R#7 + -8]"),
        (
            "Constant 4294967289, size: 8",
            "Constant 4294967288, size: 8",
        ),
        ("Constant 0, size: 8", "Constant 0, size: 4"),
        (
            "ConstantIndex #0 (81985529216486895)",
            "ConstantIndex #0 (81985529216486894)",
        ),
    ] {
        assert!(built.printed.contains(from), "{from:?} is not printed");
        let printed = readobj::parse(&built.printed.replacen(from, to, 1)).unwrap();
        assert!(
            compare(&section, &printed).is_err(),
            "{to:?} for {from:?} passes unseen"
        );
        let asked = !from.starts_with("stack size") && !from.starts_with("  #1");
        assert_eq!(
            asked::compare(&built.bytes, &printed).is_err(),
            asked,
            "{to:?} for {from:?} in the answers"
        );
        let listed = !from.starts_with("ConstantIndex");
        assert_eq!(
            listed::compare(&built.bytes, &printed).is_err(),
            listed,
            "{to:?} for {from:?} in the listing"
        );
    }
    for (from, to) in [
        ("Version: 3", "Version: 4"),
        ("Num Constants: 1", "Num Constants: 0"),
        ("Num Records: 7", "Num Records: 6"),
        ("Constant 0", "Novelty 0"),
        ("3 locations:\n", "3 locations:\n      A new line\n"),
        ("0 live-outs: [ ]", "0 live-outs: [ R#0 (8-bytes) ]"),
        ("R#7", "R#65536"),
    ] {
        assert!(built.printed.contains(from), "{from:?} is not printed");
        assert!(
            readobj::parse(&built.printed.replacen(from, to, 1)).is_err(),
            "{to:?} is read"
        );
    }
}
