//! Restores by an edition: a recorded thread replayed, a thread and a slot explained, on the large section; and the bench controller's move beside
//! the base's, on a section that its profile takes.

use crate::measure::{measure, say, table};
use crate::section::{self, STATEPOINT};
use crate::thread::{List, Stack, STACK};
use std::hint::black_box;
use treskibben::editions::{Edition, Editions, Settings, Versions};
use treskibben::trace::{self, Recorded, Step};
use treskibben::{controller, Frame, Machine, MoveTable, Slot};

const CHECK: &str = "treskibben check";
const THREAD: &str = "thread of 4,096 frames";
const REPLAY: &str = "4,096 frames replayed";
const EXPLAINED: &str = "4,096 frames explained";
const MOVE: &str = "one frame moved";
const SLOT: &str = "one slot explained";
const BASE: &str = "the base's moves";
const CONTROLLED: &str = "the bench controller's";

/// The ratios to reach: of a replay to the check, of a slot's reason to the move, of the controller's move to the base's.
const MOST_FOR_REPLAY: f64 = 3.0;
const MOST_FOR_SLOT: f64 = 1.05;
const MOST_FOR_CONTROLLER: f64 = 1.1;

/// Moves in one measured action on the small section: one alone takes too little time.
const TIMES: usize = 200;

/// Rows on the large section, and on one of the controller's profile by tables of one object and of as many as there may be.
pub fn rows(rounds: usize, limit: usize) {
    let mut editions = Editions::new();
    let settings = Settings {
        pointers: 256,
        machine: Machine::Amd64,
        versions: Versions::Both,
    };
    let made = editions.make(settings).expect("an empty store has room");
    let edition = editions.edition(made);
    on_large(rounds, &section::build(limit), edition);
    for objects in [1, 65_536] {
        on_profile(rounds, objects, edition);
    }
}

/// The trace of a thread whose frames are all accepted, as the library answers each.
fn recorded(edition: Edition, bytes: &[u8], stack: &Stack, list: &List) -> Vec<u8> {
    let (table, machine, frames) = (stack.table(), Machine::Amd64, &list.frames);
    let registers = list.registers.as_flattened();
    let told = edition.explain_thread(
        bytes,
        &stack.image,
        STACK,
        table,
        machine,
        frames,
        registers,
    );
    let mut pointers = vec![0; frames.len()];
    for pointer in told.expect("the thread can be moved") {
        pointers[pointer.frame] += 1;
    }
    let steps: Vec<Step> = (0..frames.len())
        .map(|nth| Step {
            machine,
            frame: frames[nth],
            registers: list.registers[nth],
            answer: Recorded {
                number: 0,
                value: pointers[nth],
            },
        })
        .collect();
    trace::to_bytes(&steps)
}

fn on_large(rounds: usize, bytes: &[u8], edition: Edition) {
    let Ok(read) = reference::section::read(bytes) else {
        panic!("the second implementation refuses the large section")
    };
    let stack = Stack::new(&read);
    let [one, all, ..] = stack.lists();
    let (table_, machine) = (stack.table(), Machine::Amd64);
    let trace = recorded(edition, bytes, &stack, &all);
    let (mut image, mut again, mut moved) = (
        stack.image.clone(),
        stack.image.clone(),
        stack.image.clone(),
    );
    let (mut list, mut registers) = (all.clone(), one.registers[0]);
    let (frame, asked) = (one.frames[0], one.registers[0]);
    let same = edition.replay(bytes, &mut again, STACK, table_, &trace);
    assert_eq!(same, Ok(None), "the trace is replayed as it was recorded");
    let rows = measure(
        rounds,
        &mut [
            (CHECK, &mut crate::on(bytes, treskibben::check)),
            (THREAD, &mut || {
                let lent = list.registers.as_flattened_mut();
                let frames = &list.frames;
                let _ = black_box(edition.relocate_thread(
                    black_box(bytes),
                    &mut image,
                    STACK,
                    table_,
                    machine,
                    frames,
                    lent,
                ));
            }),
            (REPLAY, &mut || {
                let _ =
                    black_box(edition.replay(black_box(bytes), &mut again, STACK, table_, &trace));
            }),
            (EXPLAINED, &mut || {
                let lent = all.registers.as_flattened();
                let _ = black_box(edition.explain_thread(
                    black_box(bytes),
                    &stack.image,
                    STACK,
                    table_,
                    machine,
                    &all.frames,
                    lent,
                ));
            }),
            (MOVE, &mut || {
                let _ = black_box(edition.relocate(
                    black_box(bytes),
                    &mut moved,
                    STACK,
                    table_,
                    machine,
                    frame,
                    &mut registers,
                ));
            }),
            (SLOT, &mut || {
                let slot = Slot::Address(asked[7] + 8);
                let _ = black_box(edition.explain(
                    black_box(bytes),
                    &stack.image,
                    STACK,
                    table_,
                    machine,
                    frame,
                    &asked,
                    slot,
                ));
            }),
        ],
    );
    println!(
        "\nrestores by an edition, on the large section\n\n{}",
        table(&rows, &[CHECK])
    );
    say(&rows, REPLAY, CHECK, "the check", MOST_FOR_REPLAY);
    say(&rows, SLOT, MOVE, "the move", MOST_FOR_SLOT);
}

fn on_profile(rounds: usize, objects: u64, edition: Edition) {
    let bytes = section::profile();
    let starts: Vec<u64> = (1..=objects).map(|nth| 0x10_0000 + 64 * nth).collect();
    let image: Vec<u8> = (0..16).flat_map(|_| starts[0].to_le_bytes()).collect();
    let (mut image, mut other) = (image.clone(), image);
    let table_ = MoveTable::new(&starts, &starts);
    let (machine, frame) = (Machine::Amd64, Frame::new(STATEPOINT));
    let mut registers = machine.registers(0, STACK);
    let mut same = registers;
    assert_eq!(
        controller::check(&bytes),
        Ok(()),
        "the profile takes the section"
    );
    let moved = controller::relocate(
        edition, &bytes, &mut other, STACK, table_, machine, frame, &mut same,
    );
    assert_eq!(moved, Ok(16), "the profile takes the frame");
    let rows = measure(
        rounds,
        &mut [
            (BASE, &mut || {
                for _ in 0..TIMES {
                    let _ = black_box(edition.relocate(
                        black_box(&bytes),
                        &mut image,
                        STACK,
                        table_,
                        machine,
                        frame,
                        &mut registers,
                    ));
                }
            }),
            (CONTROLLED, &mut || {
                for _ in 0..TIMES {
                    let _ = black_box(controller::relocate(
                        edition,
                        black_box(&bytes),
                        &mut other,
                        STACK,
                        table_,
                        machine,
                        frame,
                        &mut same,
                    ));
                }
            }),
        ],
    );
    println!(
        "\n{TIMES} moves of a frame with 16 pointers, a section of 64 records, a table of {objects}\n\n{}",
        table(&rows, &[BASE])
    );
    say(&rows, CONTROLLED, BASE, "the base's", MOST_FOR_CONTROLLER);
}
