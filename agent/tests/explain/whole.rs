//! Whole frames: every address in and around a frame and every register is asked for, and what a move leaves is
//! worked out from the reasons alone.

use crate::asked::ask;
use crate::calls::Call;
use crate::common::{assert_often, count_random, say};
use crate::shapes::of_frame;
use generator::frames::reasons::{MOVED, REFUSED};
use generator::frames::{plain, Scene, Size, Table};
use generator::Rng;
use treskibben::Slot;

/// Frames in a run.
const PARTS: u64 = 100;
const FRAMES_A_PART: u64 = 40;

/// The longest frame that is asked about byte by byte.
const MOST_BYTES: u64 = 160;

/// How often each reason was told, of all slots.
type Counts = [u64; 4];

/// A frame of few slots.
fn few(rng: &mut Rng) -> Scene {
    loop {
        let (table, size) = (Table::any(rng), Size::few(rng));
        let scene = Scene::of(rng, table, &[size]);
        if scene.stack_size(0) <= MOST_BYTES {
            return scene;
        }
    }
}

/// Asks for every slot of a frame and some beside it. The reasons are what the move does: image and registers
/// after it are those before, but for the slots that are told to move.
fn run(rng: &mut Rng, counts: &mut Counts) {
    let scene = few(rng);
    let section = scene.section.encode();
    let call = Call::of(&scene, &section, 0);
    let (mut image, mut registers) = (scene.image.clone(), call.registers.clone());
    let (start, size) = (scene.stack_pointer(0), scene.stack_size(0));
    let addresses = start.saturating_sub(16)..=start.saturating_add(size).saturating_add(16);
    for address in addresses {
        let told = ask(&call, Slot::Address(address));
        counts[told[0] as usize] += 1;
        if told[0] == MOVED {
            let at = (address - scene.first) as usize;
            let slot: &mut [u8; 8] = (&mut image[at..at + 8]).try_into().expect("eight bytes");
            // Two moved slots share no byte, so that this is the content before the move.
            let content = u64::from_le_bytes(*slot).wrapping_add(told[5]);
            *slot = content.wrapping_sub(told[4]).to_le_bytes();
        }
    }
    for number in 0..=40 {
        let told = ask(&call, Slot::Register(number));
        counts[told[0] as usize] += 1;
        if told[0] == MOVED {
            let own = &mut registers[number as usize];
            *own = own.wrapping_add(told[5]).wrapping_sub(told[4]);
        }
    }
    let outcome = call.compare();
    if outcome.number != 0 || outcome.image != image || outcome.registers != registers {
        call.fail(&format!(
            "{outcome:?}, by the reasons {image:x?} and {registers:x?}"
        ));
    }
}

#[test]
fn every_slot_of_a_frame() {
    let counts = count_random("every slot of a frame", PARTS, FRAMES_A_PART, run);
    say(&format!(
        "slots of whole frames, unlisted, only base, null base, moved: {counts:?}"
    ));
    assert_often(&counts, |nth| format!("reason {nth}"));
}

/// 256 pointers in as many slots: each is told by its own pair, in C and by the second implementation, also
/// the last.
#[test]
fn as_many_pointers_as_a_frame_may_have() {
    let mut rng = Rng::new(8);
    let mut moved = 0;
    for _ in 0..40 {
        let table = Table::of(&mut rng, 20);
        let size = Size {
            cells: 256,
            registers: 14,
            pointers: 256,
            wide: rng.one_in(2),
        };
        let scene = Scene::of(&mut rng, table, &[size]);
        let section = scene.section.encode();
        let call = Call::of(&scene, &section, 0);
        assert_eq!(plain::pointers(&scene, 0), 256);
        for pointer in plain::slots(&scene, 0).into_iter().flatten() {
            let slot = of_frame(&scene, pointer[1]);
            moved += u64::from(ask(&call, slot)[0] == MOVED);
        }
    }
    assert!(moved > 1_000, "{moved}");
}

/// The largest table and the largest image: the bases told are entries of the table.
#[test]
fn the_largest_table_and_image() {
    let mut rng = Rng::new(9);
    let mut moved = 0;
    for _ in 0..20 {
        let table = Table::of(&mut rng, 65_536);
        let size = Size::few(&mut rng);
        let mut scene = Scene::of(&mut rng, table, &[size]);
        let room = (1 << 20) - scene.image.len();
        let above = u64::MAX - scene.first - scene.image.len() as u64;
        let more = room.min(usize::try_from(above).unwrap_or(usize::MAX));
        scene.image.resize(scene.image.len() + more, 0x55);
        let section = scene.section.encode();
        let call = Call::of(&scene, &section, 0);
        for at in 0..20 {
            let slot = Slot::Address(scene.stack_pointer(0).saturating_add(8 * at));
            let told = ask(&call, slot);
            if told[0] == MOVED {
                let nth = call.olds.binary_search(&told[4]).expect("an old start");
                assert_eq!(call.news[nth], told[5]);
                moved += 1;
            }
            assert_ne!(told[0], REFUSED, "at the limits");
        }
    }
    assert!(moved > 0);
}
