//! The programs that LLVM compiled to leave pointers in registers over calls, on both machines: stopped at each of their stops
//! and at all, moved by every mover. Registers are read where the frames below, or the stop, saved them, and written back there.

mod common;

use common::{run, stops, End};
use live::maps::{Maps, Place};
use live::mover::{
    Mover, FATAL, FATAL_TO_REGISTERS, FATAL_TO_VECTORS, REFUSED, RIGHT, WRONG, WRONG_FOR_REGISTERS,
    WRONG_FOR_VECTORS,
};
use live::program::{
    Program, AARCH64, AARCH64_REGISTERS, AARCH64_REGISTERS_VECTORS, GUEST_MAPS, IN_RBP, PROGRAMS,
    REGISTERS, REGISTERS_VECTORS, VECTORS,
};
use live::run::{maps, Stops, Trouble};
use std::process::Command;

/// Those that walk objects.
fn walking() -> impl Iterator<Item = &'static Program> {
    REGISTERS.iter().chain(&AARCH64_REGISTERS)
}

/// Those with vectors.
fn vectors() -> impl Iterator<Item = &'static Program> {
    REGISTERS_VECTORS.iter().chain(&AARCH64_REGISTERS_VECTORS)
}

fn programs() -> impl Iterator<Item = &'static Program> {
    walking().chain(vectors())
}

#[test]
fn a_linked_section_is_cut_into_its_maps() {
    for program in &AARCH64_REGISTERS {
        let maps = Maps::cut(program.section());
        assert_eq!(maps.count(), GUEST_MAPS, "{}", program.name);
    }
}

/// The same as where all pointers are in memory.
#[test]
fn moved_programs_come_to_the_right_checksum() {
    let checksum = |program| run(program, Mover::Second, "all").count("checksum");
    let of_walking = walking().map(|program| (program, checksum(&PROGRAMS[0])));
    let of_vectors = vectors().map(|program| (program, checksum(&VECTORS[0])));
    for (program, expected) in of_walking.chain(of_vectors) {
        for mover in RIGHT {
            let all = run(program, mover, "all");
            all.assert_right(all.count("stops"));
            assert_eq!(all.count("checksum"), expected, "{all}");
            for stop in stops(program) {
                run(program, mover, &stop).assert_right(1);
            }
        }
    }
}

/// All is moved, but the registers stay as they were. Where none has a pointer, that is right.
#[test]
fn programs_die_whose_registers_are_not_written_back() {
    for program in programs() {
        for stop in stops(program) {
            run(program, FATAL_TO_REGISTERS, &stop).assert_killed();
        }
    }
    for program in PROGRAMS.iter().chain(&VECTORS).chain(&AARCH64[..1]) {
        run(program, FATAL_TO_REGISTERS, "0").assert_right(1);
    }
}

/// Each frame has registers of its own: those at the stop, taken for a frame above, are refused, or lead to
/// death or to a wrong checksum. Only where no frame below saves a register they are the same.
#[test]
fn registers_at_the_stop_are_not_those_of_the_frames_above() {
    for program in programs() {
        let through = run(program, Mover::Second, "0").count("registers-through-to-the-stop");
        let only_through = through > 0 && program.name.contains("vectors");
        for stop in stops(program) {
            let ended = run(program, WRONG_FOR_REGISTERS, &stop);
            if only_through {
                ended.assert_right(1);
            } else {
                let others = [End::Killed, End::Wrong, End::Unmoved];
                assert!(others.contains(&ended.end()), "{ended}");
            }
        }
    }
}

#[test]
fn programs_with_old_or_wrong_pointers_die_or_miscount() {
    for program in programs() {
        for stop in stops(program) {
            for mover in FATAL {
                run(program, mover, &stop).assert_killed();
            }
            run(program, WRONG, &stop).assert_killed_or_wrong();
        }
    }
    for program in vectors() {
        for stop in stops(program) {
            run(program, FATAL_TO_VECTORS, &stop).assert_killed();
            run(program, WRONG_FOR_VECTORS, &stop).assert_killed_or_wrong();
        }
    }
}

/// A base that the table lacks, a frame that is named twice, and frames of the other machine: neither a byte nor a register is
/// written, and the program runs on unharmed.
#[test]
fn a_refused_restore_leaves_all_as_it_was() {
    for program in programs() {
        let refusals = REFUSED.map(|mover| run(program, mover, "0"));
        for (ended, number) in refusals.iter().zip([21, 26, 16]) {
            ended.assert_unmoved();
            let beginning = format!("refused {number} at ");
            assert!(ended.last.starts_with(&beginning), "{ended}");
        }
    }
}

/// LLVM keeps a pointer in RBP where that is no frame pointer. The pair is refused, the first one that has it, and the program
/// runs on unharmed.
#[test]
fn a_pointer_in_rbp_is_refused_at_its_pair() {
    let in_rbp = Place::Register(IN_RBP.machine.frame_pointer());
    let outcome = live::run::run(&maps(&IN_RBP), &IN_RBP, Mover::Singly, Stops::All);
    assert!(outcome.passed > 1);
    assert_eq!(outcome.stops.len(), outcome.passed);
    for stop in &outcome.stops {
        let Err(Trouble::Refused(refused)) = stop else {
            panic!("it is not refused");
        };
        let mut pairs = refused.site.pairs.iter();
        let first = pairs.position(|pair| pair.contains(&in_rbp));
        assert_eq!(Some(refused.refusal), first.map(|pair| (18, pair as u64)));
    }
    for mover in RIGHT {
        let ended = run(&IN_RBP, mover, "0");
        ended.assert_unmoved();
        assert!(ended.last.starts_with("refused 18 at "), "{ended}");
    }
    run(&IN_RBP, Mover::Nothing, "0").assert_killed();
}

/// Where registers are kept, and what is derived from what, as the programs of one machine have it between them.
const BETWEEN_THEM: [&str; 7] = [
    "registers-at-the-stop",
    "registers-in-the-callee",
    "registers-through-to-the-stop",
    "register-itself",
    "register-from-another",
    "register-from-memory",
    "memory-from-register",
];

#[test]
fn every_shape_is_there() {
    let machines = [
        [&REGISTERS, &REGISTERS_VECTORS],
        [&AARCH64_REGISTERS, &AARCH64_REGISTERS_VECTORS],
    ];
    for programs in machines.map(|two| two.map(|programs| programs.iter())) {
        let ran: Vec<_> = programs
            .into_iter()
            .flatten()
            .map(|program| run(program, Mover::Second, "all"))
            .collect();
        for shape in BETWEEN_THEM {
            assert!(ran.iter().any(|ended| ended.count(shape) > 0), "no {shape}");
        }
        for ended in &ran {
            assert!(ended.count("register-itself") > 0, "{ended}");
            for shape in ["other-pair", "base-of-no-object", "far-behind"] {
                assert_eq!(ended.count(shape), 0, "{ended} has {shape}");
            }
        }
    }
    for program in PROGRAMS.iter().chain(&VECTORS) {
        let ended = run(program, Mover::Second, "all");
        for shape in &BETWEEN_THEM {
            assert_eq!(ended.count(shape), 0, "{ended} has {shape}");
        }
    }
}

#[test]
fn the_short_report_tells_both_ends() {
    for program in walking() {
        let ran = Command::new(env!("CARGO_BIN_EXE_live"))
            .args(["brief", program.name])
            .output();
        let ran = ran.expect("the program can be started");
        let said = String::from_utf8(ran.stdout).unwrap();
        assert!(ran.status.success(), "{said}");
        for words in [
            "9 calls wait on its stack: live_run > choose > descend > ",
            "it runs on and has the result of a run without a stop, checksum 0xc12dea0c01d34f7b.",
            "Without the move: it touched the old heap and died",
        ] {
            assert!(said.contains(words), "{said}");
        }
    }
}
