//! The programs for AArch64, which run under qemu: stopped at each of their stops and at all, moved on this
//! side by every mover. They come to the checksums of x86-64, or die, miscount or are refused as there.

mod common;

use common::{run, stops};
use live::maps::Maps;
use live::mover::{Mover, FATAL, FATAL_TO_VECTORS, REFUSED, RIGHT, WRONG, WRONG_FOR_VECTORS};
use live::program::{
    Program, AARCH64, AARCH64_BY_X29, AARCH64_VECTORS, GUEST_MAPS, PROGRAMS, VECTORS,
};
use std::process::Command;

/// All programs for AArch64.
fn programs() -> impl Iterator<Item = &'static Program> {
    AARCH64
        .iter()
        .chain(&AARCH64_VECTORS)
        .chain(&AARCH64_BY_X29)
}

/// Those whose pairs have several pointers.
fn vectors() -> impl Iterator<Item = &'static Program> {
    programs().filter(|program| program.name.contains("vectors"))
}

#[test]
fn a_linked_section_is_cut_into_its_maps() {
    for program in &AARCH64 {
        let maps = Maps::cut(program.section());
        assert_eq!(maps.count(), GUEST_MAPS, "{}", program.name);
    }
}

#[test]
fn moved_programs_come_to_the_checksum_of_the_other_machine() {
    let checksum = |program| run(program, Mover::Second, "all").count("checksum");
    let (walking, with_vectors) = (checksum(&PROGRAMS[0]), checksum(&VECTORS[0]));
    for program in programs() {
        let expected = if program.name.contains("vectors") {
            with_vectors
        } else {
            walking
        };
        for mover in RIGHT {
            let all = run(program, mover, "all");
            all.assert_right(all.count("stops"));
            assert_eq!(all.count("checksum"), expected, "{all}");
            for stop in stops(program) {
                run(program, mover, &stop).assert_right(1);
            }
        }
    }
}

/// A base that the table lacks, a frame that is named twice, and frames of the other machine: nothing is
/// written, and the program runs on unharmed.
#[test]
fn a_refused_restore_leaves_all_as_it_was() {
    for program in programs() {
        let refusals = REFUSED.map(|mover| run(program, mover, "0"));
        refusals.iter().for_each(|ended| ended.assert_unmoved());
        let [short_table, twice, other_machine] = refusals.map(|ended| ended.last);
        assert!(
            short_table.starts_with("refused 21 at "),
            "{}: {short_table}",
            program.name
        );
        assert!(
            twice.starts_with("refused 26 at "),
            "{}: {twice}",
            program.name
        );
        assert!(
            other_machine.starts_with("refused 16 at 0, "),
            "{}: {other_machine}",
            program.name
        );
    }
}

#[test]
fn programs_with_old_pointers_die() {
    for program in programs() {
        for stop in stops(program) {
            for mover in FATAL {
                run(program, mover, &stop).assert_killed();
            }
        }
    }
}

#[test]
fn programs_with_wrong_pointers_die_or_miscount() {
    for program in programs() {
        for stop in stops(program) {
            run(program, WRONG, &stop).assert_killed_or_wrong();
        }
    }
}

#[test]
fn programs_with_vectors_need_every_pointer_and_its_own_base() {
    for program in vectors() {
        for stop in stops(program) {
            run(program, FATAL_TO_VECTORS, &stop).assert_killed();
            run(program, WRONG_FOR_VECTORS, &stop).assert_killed_or_wrong();
        }
    }
}

/// The shapes that every program that walks has to show at its stops.
const EVERYWHERE: [&str; 12] = [
    "frames-of-recursion",
    "null-pair",
    "null-base",
    "derived-from-null",
    "object-itself",
    "inside",
    "one-past-the-end",
    "before-the-start",
    "base-of-three-or-more",
    "base-not-listed-itself",
    "deopt-values",
    "slots-moved",
];

#[test]
fn every_shape_is_there() {
    for program in programs() {
        let name = program.name;
        let deepest = run(program, Mover::Second, "0");
        if name.contains("vectors") {
            assert_eq!(deepest.count("pairs-of-256"), 1, "{name}");
            assert_eq!(deepest.count("pointers"), 5 + 8 + 7 + 256, "{name}");
        } else {
            assert!(deepest.count("functions") > 4, "{name}");
            assert_eq!(deepest.count("maps"), 2, "{name}");
            for shape in EVERYWHERE {
                assert!(deepest.count(shape) > 0, "{name} has no {shape}");
            }
        }
        for shape in ["other-pair", "base-of-no-object", "far-behind"] {
            assert_eq!(deepest.count(shape), 0, "{name} has {shape}");
        }
        let saved = deepest.count("saved-registers");
        assert!(saved > 0 || name.contains("O0"), "{name}");
        // LLVM 14 takes sp for the slots of every statepoint whose stack size is known.
        let by_x29 = deepest.count("frames-with-frame-pointer-slots");
        let expected = if name.ends_with("x29") {
            deepest.count("frames")
        } else {
            0
        };
        assert_eq!(by_x29, expected, "{name}");
    }
}

/// What `./demo` shows of x86-64.
#[test]
fn the_short_report_tells_both_ends() {
    for program in programs().filter(|program| !program.name.contains("vectors")) {
        let ran = Command::new(env!("CARGO_BIN_EXE_live"))
            .args(["brief", program.name])
            .output();
        let ran = ran.expect("the program can be started");
        let said = String::from_utf8(ran.stdout).unwrap();
        assert!(ran.status.success(), "{said}");
        for words in [
            "A program compiled by LLVM (for AArch64 at -O",
            "9 calls wait on its stack: live_run > choose > descend > ",
            "it runs on and has the result of a run without a stop, checksum 0xc12dea0c01d34f7b.",
            "Without the move: it touched the old heap and died under the emulator.",
        ] {
            assert!(said.contains(words), "{said}");
        }
    }
}
