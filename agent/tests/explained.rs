//! All slots of a frame or of a thread with their reasons, by the proved library and by the second implementation,
//! in sections of both versions and under all sorts of editions.
//!
//! The library is asked as C asks it and as Rust does. Rows are compared number by number; so is the list that
//! they are written to beyond them, and all of it where the call is refused. Of a frame without fault the
//! generator knows the rows beforehand, and that is compared too. Then the library moves the frame: it has to
//! leave what the rows say. The random frames follow from a seed. It is printed; `TRESKIBBEN_SEED` sets it.

mod common;

#[path = "common/calls.rs"]
mod calls;
#[path = "common/cases.rs"]
mod cases;
#[path = "explained/frames.rs"]
mod frames;
#[path = "common/thread_cases.rs"]
mod thread_cases;
#[path = "explained/threads.rs"]
mod threads;
#[path = "common/under.rs"]
mod under;
#[path = "explained/worked.rs"]
mod worked;

use calls::{Call, Moves};
use generator::frames::named::Named;
use generator::frames::plain::{self, Slot as Own};
use generator::frames::Scene;
use generator::Rng;
use reference::explain::{Explained, ExplainedSlot, Slot as Second};
use treskibben::{ExplainedPointer, Reason, Slot};
use under::stores::Stored;

/// How many numbers a pointer has, and a slot of it.
const ROW: usize = 16;
const SLOT: usize = 7;

/// What a number of the list is before the call.
const BEFORE: u64 = 0x5555_aaaa_5555_aaaa;

/// The rows of a call, or number and place of its refusal.
type Rows = Result<Vec<u64>, (u64, u64)>;

/// A store for the frames of a scene, now and then a damaged one.
fn store(rng: &mut Rng, scene: &Scene) -> Stored {
    let named = Named::any(rng, scene);
    match rng.one_in(12) {
        true => Stored::damaged(rng, &named),
        false => Stored::of(rng, &named),
    }
}

/// A row: the frame's position, the pair, and the numbers of the slots, or zeros.
fn row(position: usize, pair: u64, slots: Option<[[u64; SLOT]; 2]>) -> Vec<u64> {
    let slots = slots.unwrap_or_default();
    let mut row = vec![position as u64, pair];
    row.extend(slots.as_flattened());
    row
}

/// The row of a pointer by the second implementation.
fn row_of_second(position: usize, own: &Explained) -> Vec<u64> {
    let numbers = |own: &ExplainedSlot| {
        let (kind, slot) = match own.slot {
            Second::Address(address) => (1, address),
            Second::Register(number) => (2, number),
        };
        let [reason, _, _, pair, old, new] = own.reason.numbers();
        [kind, slot, own.content, reason, pair, old, new]
    };
    let slots = own.slots.as_ref();
    row(
        position,
        own.pair,
        slots.map(|slots| slots.each_ref().map(numbers)),
    )
}

/// The row of a pointer as Rust is told.
fn row_of_rust(own: &ExplainedPointer) -> Vec<u64> {
    let numbers = |own: treskibben::ExplainedSlot| {
        let (kind, slot) = match own.slot {
            Slot::Address(address) => (1, address),
            Slot::Register(number) => (2, number),
        };
        let [reason, pair, old, new] = match own.reason {
            Reason::Unlisted => [0; 4],
            Reason::OnlyBase => [1, 0, 0, 0],
            Reason::NullBase => [2, 0, 0, 0],
            Reason::Moved {
                pair,
                old_base,
                new_base,
            } => [3, pair, old_base, new_base],
        };
        [kind, slot, own.content, reason, pair, old, new]
    };
    let slots = own
        .slots
        .map(|(base, derived)| [base, derived].map(numbers));
    row(own.frame, own.pair, slots)
}

/// The pointers of a frame that is accepted, base first, each with its pair.
type Pointers = Vec<(u64, [Own; 2])>;

/// The reason of a slot of a frame with these pointers, worked out plainly: its number, pair, old base and new
/// base.
fn reason_known(scene: &Scene, stop: usize, pointers: &Pointers, slot: Own) -> [u64; 4] {
    let base_of = |(_, [base, _]): &(u64, [Own; 2])| plain::content(scene, stop, *base);
    let mut derived = pointers.iter().filter(|(_, own)| own[1] == slot);
    let any = derived.clone().next();
    match (derived.find(|own| base_of(own) != 0), any) {
        (Some(own), _) => {
            let old = base_of(own);
            let new = scene.table.moved(old).expect("an accepted frame");
            [3, own.0, old, new]
        }
        (None, Some(_)) => [2, 0, 0, 0],
        (None, None) => [1, 0, 0, 0],
    }
}

/// The rows of a frame that is accepted, worked out plainly from the scene.
fn rows_known(scene: &Scene, stop: usize, position: usize) -> Vec<u64> {
    let pairs = plain::slots(scene, stop);
    let numbered = (0..).zip(&pairs);
    let pointers = numbered.flat_map(|(pair, own)| own.iter().map(move |own| (pair, *own)));
    let pointers: Pointers = pointers.collect();
    let numbers = |slot: Own| {
        let (kind, which) = match slot {
            Own::Register(number) => (2, number as u64),
            Own::Stack(at) => {
                let address = i128::from(scene.stack_pointer(stop)) + at;
                (1, u64::try_from(address).expect("an address"))
            }
        };
        let [reason, pair, old, new] = reason_known(scene, stop, &pointers, slot);
        let content = plain::content(scene, stop, slot);
        [kind, which, content, reason, pair, old, new]
    };
    let mut rows = Vec::new();
    for (pair, own) in (0..).zip(&pairs) {
        if own.is_empty() {
            rows.extend(row(position, pair, None));
        }
        for slots in own {
            rows.extend(row(position, pair, Some(slots.map(numbers))));
        }
    }
    rows
}

/// A length for the list: as long as it has to be, longer, or too short.
fn room(rng: &mut Rng, needed: usize) -> usize {
    let less = rng.below(needed + 1);
    let most = needed + 1 + rng.below(40);
    rng.pick(&[
        needed,
        needed,
        most,
        most,
        needed.saturating_sub(1),
        needed.saturating_sub(ROW),
        less,
        0,
    ])
}

/// Makes a call as C does with a list of so many numbers, and compares all that it writes with these rows.
/// Gives the number of the refusal, 24 for a list that is too short.
fn compare<F: Moves>(
    call: &Call<F>,
    rows: &Rows,
    room: usize,
    c: impl FnOnce(&mut [u64]) -> [u64; 3],
) -> u64 {
    let lent = (call.image.to_vec(), call.registers.clone());
    let mut list = vec![BEFORE; room];
    let told = c(&mut list);
    let mut expected = vec![BEFORE; room];
    let answer = match rows {
        Err((number, place)) => [*number, *place, 0],
        Ok(rows) if rows.len() > room => [24, 0, 0],
        Ok(rows) => {
            expected[..rows.len()].copy_from_slice(rows);
            [0, 0, rows.len() as u64]
        }
    };
    if told != answer || list != expected {
        call.fail(&format!(
            "{told:?} and {list:x?} in C, expected {answer:?} and {expected:x?}"
        ));
    }
    if lent.0 != call.image || lent.1 != call.registers {
        call.fail("image or registers are written");
    }
    told[0]
}

/// What a slot of a row holds after the move that its reason says.
fn new_content(slot: &[u64]) -> u64 {
    let &[_, _, content, reason, _, old, new] = slot else {
        panic!("a slot has seven numbers");
    };
    match reason {
        3 => content.wrapping_add(new).wrapping_sub(old),
        _ => content,
    }
}

/// What a slot of a row holds in an image and the registers of its frame.
fn content(first: u64, image: &[u8], registers: &[u64], slot: &[u64]) -> u64 {
    let (kind, which) = (slot[0], slot[1]);
    match kind {
        1 => {
            let at = usize::try_from(which - first).expect("inside the image");
            u64::from_le_bytes(image[at..at + 8].try_into().expect("eight bytes"))
        }
        _ => registers[usize::try_from(which).expect("a register")],
    }
}
