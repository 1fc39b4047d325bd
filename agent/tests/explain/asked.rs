//! One question for a slot: by the library, as C has it and as Rust has it, and by the second implementation.

use crate::calls::Call;
use treskibben::{Frame, Reason, Slot};

/// A reason as numbers: its own, number and place of a refusal, and pair, old base and new base.
pub type Numbers = [u64; 6];

type Explain = unsafe extern "C" fn(
    section: *const u8,
    length: usize,
    image: *const u8,
    image_length: usize,
    first: u64,
    olds: *const u64,
    old_count: usize,
    news: *const u64,
    new_count: usize,
    machine: u64,
    frame: Frame,
    registers: *const u64,
    registers_length: usize,
    asked: u64,
) -> Told;

/// The struct `treskibben_reason` of `treskibben.h`: six numbers.
#[repr(C)]
struct Told([u64; 6]);

/// The calls as C has them: they take every number for a machine, and the safe one only those of the two.
mod raw {
    use super::{Frame, Told};

    extern "C" {
        pub fn treskibben_explain_address(
            section: *const u8,
            length: usize,
            image: *const u8,
            image_length: usize,
            first: u64,
            olds: *const u64,
            old_count: usize,
            news: *const u64,
            new_count: usize,
            machine: u64,
            frame: Frame,
            registers: *const u64,
            registers_length: usize,
            address: u64,
        ) -> Told;
        pub fn treskibben_explain_register(
            section: *const u8,
            length: usize,
            image: *const u8,
            image_length: usize,
            first: u64,
            olds: *const u64,
            old_count: usize,
            news: *const u64,
            new_count: usize,
            machine: u64,
            frame: Frame,
            registers: *const u64,
            registers_length: usize,
            number: u64,
        ) -> Told;
    }
}

/// What C is answered.
pub fn by_c(call: &Call<Frame>, slot: Slot) -> Numbers {
    let explain: Explain = match slot {
        Slot::Address(_) => raw::treskibben_explain_address,
        Slot::Register(_) => raw::treskibben_explain_register,
    };
    let (Slot::Address(asked) | Slot::Register(asked)) = slot;
    // SAFETY: each pointer and length are those of one slice, borrowed for the whole call, which only reads;
    // the declarations are those of `treskibben.h`.
    let told = unsafe {
        explain(
            call.section.as_ptr(),
            call.section.len(),
            call.image.as_ptr(),
            call.image.len(),
            call.first,
            call.olds.as_ptr(),
            call.olds.len(),
            call.news.as_ptr(),
            call.news.len(),
            call.machine,
            call.frames,
            call.registers.as_ptr(),
            call.registers.len(),
            asked,
        )
    };
    told.0
}

/// What Rust is answered; nothing for a machine that is none.
fn by_rust(call: &Call<Frame>, slot: Slot) -> Option<Numbers> {
    let (section, image, first) = (call.section, call.image, call.first);
    let (table, frame, registers) = (call.table(), call.frames, &call.registers);
    let machine = call.machine()?;
    let told = treskibben::explain(
        section, image, first, table, machine, frame, registers, slot,
    );
    Some(match told {
        Ok(Reason::Unlisted) => [0; 6],
        Ok(Reason::OnlyBase) => [1, 0, 0, 0, 0, 0],
        Ok(Reason::NullBase) => [2, 0, 0, 0, 0, 0],
        Ok(Reason::Moved {
            pair,
            old_base,
            new_base,
        }) => [3, 0, 0, pair, old_base, new_base],
        Err(refusal) => [4, refusal.number(), refusal.place(), 0, 0, 0],
    })
}

fn by_second(call: &Call<Frame>, slot: Slot) -> Numbers {
    use reference::explain::{explain, Slot as Asked};
    let Call {
        section,
        image,
        first,
        olds,
        news,
        machine,
        ..
    } = *call;
    let Frame { address, function } = call.frames;
    let (frame, registers) = (reference::Frame { address, function }, &call.registers);
    let slot = match slot {
        Slot::Address(address) => Asked::Address(address),
        Slot::Register(number) => Asked::Register(number),
    };
    explain(
        section, image, first, olds, news, machine, frame, registers, slot,
    )
    .numbers()
}

/// Asks all three, and gives what they agree on.
pub fn ask(call: &Call<Frame>, slot: Slot) -> Numbers {
    let (c, rust, second) = (by_c(call, slot), by_rust(call, slot), by_second(call, slot));
    if c != second || rust.is_some_and(|rust| rust != c) {
        call.fail(&format!(
            "{slot:x?}: in C {c:x?}, in Rust {rust:x?}, by the second implementation {second:x?}"
        ));
    }
    c
}
