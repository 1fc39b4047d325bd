//! Every program of this machine, stopped at each of its stops and at all, moved by every mover, each in
//! a process of its own: right movers lead to the right checksum, and wrong ones to death.

mod common;

use common::{run, stops};
use live::maps::Maps;
use live::mover::{Mover, FATAL, FATAL_TO_VECTORS, REFUSED, RIGHT, WRONG, WRONG_FOR_VECTORS};
use live::program::{MAPS, PROGRAMS, PUSHED, VECTORS};
use std::process::Command;

#[test]
fn a_linked_section_is_cut_into_its_maps() {
    let maps = Maps::cut(PROGRAMS[0].section());
    assert_eq!(maps.count(), MAPS);
    assert!(maps.find(0).is_none());
}

#[test]
fn moved_programs_come_to_the_right_checksum() {
    for program in PROGRAMS.iter().chain(&VECTORS) {
        for mover in RIGHT {
            let all = run(program, mover, "all");
            all.assert_right(all.count("stops"));
            for stop in stops(program) {
                run(program, mover, &stop).assert_right(1);
            }
        }
    }
}

/// A base that the table lacks is found in an upper frame only: the frames below it are accepted,
/// but nothing of them is written, the heap stays, and the program runs on unharmed.
#[test]
fn a_refused_restore_leaves_all_as_it_was() {
    for program in &PROGRAMS {
        let [short_table, twice, other_machine] = REFUSED.map(|mover| run(program, mover, "0"));
        short_table.assert_unmoved();
        let last = &short_table.last;
        assert!(last.starts_with("refused 21 at "), "{short_table}");
        assert!(last.ends_with(", frame 6"), "{short_table}");
        // The deepest frame once more, behind all others of its map.
        twice.assert_unmoved();
        assert!(twice.last.starts_with("refused 26 at "), "{twice}");
        assert!(twice.last.ends_with(", frame 0"), "{twice}");
        // The other machine's stack pointer is another register, and leads nowhere. The first frame of the first
        // map is `descend`'s deepest.
        other_machine.assert_unmoved();
        assert_eq!(
            other_machine.last, "refused 16 at 0, frame 2",
            "{other_machine}"
        );
    }
}

/// However it was compiled, the program computes the same, so that the checksum of a run without
/// a stop is not by chance as wrong as the one of a moved run.
#[test]
fn all_programs_have_one_checksum() {
    let checksum = |program| run(program, Mover::Second, "all").count("checksum");
    for programs in [&PROGRAMS, &VECTORS] {
        let first = checksum(&programs[0]);
        assert_ne!(first, 0);
        for program in programs {
            assert_eq!(checksum(program), first, "{}", program.name);
        }
    }
}

#[test]
fn programs_with_old_pointers_die() {
    for program in PROGRAMS.iter().chain(&VECTORS) {
        for stop in stops(program) {
            for mover in FATAL {
                run(program, mover, &stop).assert_killed();
            }
        }
    }
}

#[test]
fn programs_with_wrong_pointers_die_or_miscount() {
    for program in PROGRAMS.iter().chain(&VECTORS) {
        for stop in stops(program) {
            run(program, WRONG, &stop).assert_killed_or_wrong();
        }
    }
}

/// A pair of several pointers, of which only the first is moved, or each with another one's base. Where
/// all pairs have one pointer, both are right.
#[test]
fn programs_with_vectors_need_every_pointer_and_its_own_base() {
    for program in &VECTORS {
        for stop in stops(program) {
            run(program, FATAL_TO_VECTORS, &stop).assert_killed();
            run(program, WRONG_FOR_VECTORS, &stop).assert_killed_or_wrong();
        }
    }
    for program in &PROGRAMS {
        for mover in [FATAL_TO_VECTORS, WRONG_FOR_VECTORS] {
            run(program, mover, "0").assert_right(1);
        }
    }
}

/// As above, with pairs of several pointers: the pair is refused, and nothing of it is written.
#[test]
fn a_refused_restore_of_vectors_leaves_all_as_it_was() {
    for program in &VECTORS {
        let [short_table, twice, other_machine] = REFUSED.map(|mover| run(program, mover, "0"));
        short_table.assert_unmoved();
        assert_eq!(
            short_table.last, "refused 21 at 2, frame 2",
            "{short_table}"
        );
        twice.assert_unmoved();
        assert_eq!(twice.last, "refused 26 at 4, frame 0", "{twice}");
        other_machine.assert_unmoved();
        assert_eq!(
            other_machine.last, "refused 16 at 0, frame 0",
            "{other_machine}"
        );
    }
}

/// The shapes that every program has to show at its stops.
const EVERYWHERE: [&str; 13] = [
    "frames-of-recursion",
    "null-pair",
    "null-base",
    "derived-from-null",
    "object-itself",
    "inside",
    "one-past-the-end",
    "before-the-start",
    "base-of-three-or-more",
    "base-not-listed-itself",
    "deopt-values",
    "saved-registers",
    "slots-moved",
];

#[test]
fn every_shape_is_there() {
    for program in &PROGRAMS {
        let name = program.name;
        let deepest = run(program, Mover::Second, "0");
        assert!(deepest.count("functions") > 4, "{name}");
        assert_eq!(deepest.count("maps"), 2, "{name}");
        for shape in EVERYWHERE {
            assert!(deepest.count(shape) > 0, "{name} has no {shape}");
        }
        for shape in ["other-pair", "base-of-no-object", "far-behind"] {
            assert_eq!(deepest.count(shape), 0, "{name} has {shape}");
        }
        let by_rbp = deepest.count("frames-with-frame-pointer-slots");
        assert_eq!(by_rbp > 0, name == "O2-fp", "{name}");
    }
}

/// The shapes that the programs with vectors have to show.
const OF_VECTORS: [&str; 11] = [
    "null-pair",
    "null-base",
    "derived-from-null",
    "object-itself",
    "inside",
    "one-past-the-end",
    "before-the-start",
    "base-not-listed-itself",
    "deopt-values",
    "slots-moved",
    "pairs-of-several",
];

#[test]
fn every_shape_of_vectors_is_there() {
    for program in &VECTORS {
        let name = program.name;
        let deepest = run(program, Mover::Second, "0");
        for shape in OF_VECTORS {
            assert!(deepest.count(shape) > 0, "{name} has no {shape}");
        }
        for shape in ["other-pair", "base-of-no-object", "far-behind"] {
            assert_eq!(deepest.count(shape), 0, "{name} has {shape}");
        }
        assert_eq!(deepest.count("frames"), 4, "{name}");
        assert_eq!(deepest.count("pairs-of-256"), 1, "{name}");
        // Three pairs of 2, 1 and 2, two of 4, two of 3 beside a null pair, and one of 256.
        assert_eq!(deepest.count("pairs"), 9, "{name}");
        assert_eq!(deepest.count("pointers"), 5 + 8 + 7 + 256, "{name}");
    }
}

/// Where a call pushes its arguments, the stack size leaves them out, and the walk misses the
/// frames above: the harness sees it, moves nothing, and the program runs on unharmed.
#[test]
fn pushed_arguments_hide_the_frames_above() {
    let ended = run(&PUSHED, Mover::Library, "0");
    ended.assert_unmoved();
    assert!(ended.last.starts_with("lost after 3 frames: "), "{ended}");
    run(&PUSHED, Mover::Library, "1").assert_right(1);
}

/// What `./demo` shows.
#[test]
fn the_short_report_tells_both_ends() {
    for program in &PROGRAMS {
        let ran = Command::new(env!("CARGO_BIN_EXE_live"))
            .args(["brief", program.name])
            .output()
            .expect("the program can be started");
        let said = String::from_utf8(ran.stdout).unwrap();
        assert!(ran.status.success(), "{said}");
        for words in [
            "9 calls wait on its stack: live_run > choose > descend > ",
            "it runs on and has the result of a run without a stop, checksum 0xc12dea0c01d34f7b.",
            "Without the move: it touched the old heap and died, signal: 11",
        ] {
            assert!(said.contains(words), "{said}");
        }
    }
}
