//! Moves of one frame that leave something out or do it wrong.

use crate::heap::{Object, Table};
use crate::library::{Refusal, Registers};
use crate::mover::{singly, At};
use crate::state::{Slot, State};

/// Moves a frame, and writes only the pointers for which it is said, by the number of the pair and
/// by the pointer's number in it.
pub(crate) fn some(
    state: &mut State,
    at: At,
    table: &Table,
    written: fn(usize, usize) -> bool,
) -> Result<u64, Refusal> {
    let (frame, stopped) = at;
    let mut moved = state.clone();
    let count = singly(&mut moved, at, table)?;
    for (number, &pair) in stopped.site.pairs.iter().enumerate() {
        for (pointer, [_, derived]) in stopped.slots(pair).into_iter().enumerate() {
            if written(number, pointer) {
                state.set(frame, derived, moved.content(frame, derived));
            }
        }
    }
    Ok(count)
}

/// Moves a frame, but its registers stay as they were.
pub(crate) fn registers_left(state: &mut State, at: At, table: &Table) -> Result<u64, Refusal> {
    let left = state.registers.clone();
    let moved = singly(state, at, table);
    state.registers = left;
    moved
}

/// Moves a frame as if its registers were those at the stop, which are the deepest frame's.
pub(crate) fn stop_registers(
    state: &mut State,
    at_the_stop: &Registers,
    at: At,
    table: &Table,
) -> Result<u64, Refusal> {
    let (frame, stopped) = at;
    let mut moved = state.clone();
    for register in stopped.register_slots().map(usize::from) {
        moved.registers[frame][register] = at_the_stop[register];
    }
    let count = singly(&mut moved, at, table)?;
    for [_, derived] in stopped.all_slots() {
        state.set(frame, derived, moved.content(frame, derived));
    }
    Ok(count)
}

/// Moves each pointer of a pair with the base of the one that is as far from the pair's end.
pub(crate) fn falling(state: &mut State, (frame, stopped): At, table: &Table) -> u64 {
    let old = state.clone();
    for &pair in &stopped.site.pairs {
        let slots = stopped.slots(pair);
        for ([base, _], [_, derived]) in slots.iter().rev().zip(&slots) {
            let start = old.content(frame, *base);
            let new = table.moved(start).unwrap_or(start);
            let pointer = old.content(frame, *derived);
            state.set(
                frame,
                *derived,
                pointer.wrapping_add(new).wrapping_sub(start),
            );
        }
    }
    stopped.pointer_count()
}

/// Writes each pair before it reads the next.
pub(crate) fn in_turn(state: &mut State, (frame, stopped): At, table: &Table) -> u64 {
    for [base, derived] in stopped.all_slots() {
        let old = state.content(frame, base);
        let new = table.moved(old).unwrap_or(old);
        let pointer = state.content(frame, derived);
        state.set(frame, derived, pointer.wrapping_add(new).wrapping_sub(old));
    }
    stopped.pointer_count()
}

/// Finds the object by the derived pointer.
pub(crate) fn by_derived(
    state: &mut State,
    (frame, stopped): At,
    table: &Table,
    objects: &[Object],
) -> u64 {
    let old = state.clone();
    let mut move_slot = |derived: Slot| {
        let pointer = old.content(frame, derived);
        let inside =
            |object: &&Object| (object.start..object.start + object.length).contains(&pointer);
        let start = objects.iter().find(inside).map_or(0, |object| object.start);
        let new = table.moved(start).expect("objects are in the table");
        state.set(
            frame,
            derived,
            pointer.wrapping_add(new).wrapping_sub(start),
        );
    };
    stopped
        .all_slots()
        .for_each(|[_, derived]| move_slot(derived));
    stopped.pointer_count()
}
