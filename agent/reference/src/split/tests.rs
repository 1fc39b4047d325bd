//! Moves on a split stack, worked out by hand. Row I's frame has 24 bytes.

use super::*;
use crate::editions::{Settings, AMD64};
use crate::fixtures::*;

/// Row I's frames as a thread, with these stack pointers, on an image of row I's
/// as often as given.
fn run(images: usize, pieces: &[u64], stack_pointers: &[u64]) -> Result<(u64, Vec<u64>), Refusal> {
    let mut image = Move::row_i().image.repeat(images);
    let answer = run_on(&row_h(), &mut image, pieces, stack_pointers)?;
    let (slots, _) = image.as_chunks();
    let slots = slots.iter().map(|slot| u64::from_le_bytes(*slot));
    Ok((answer, slots.collect()))
}

/// The same on a given section and image, by all four calls that there are.
fn run_on(
    section: &[u8],
    image: &mut [u8],
    pieces: &[u64],
    stack_pointers: &[u64],
) -> Result<u64, Refusal> {
    let frames: Vec<[u64; 4]> = stack_pointers
        .iter()
        .map(|&at| [0x1020, 0, at, 0])
        .collect();
    let (list, registers) = lists(AMD64, &frames);
    let mut store = Store::empty();
    let settings = Settings {
        largest_count: 256,
        machine: AMD64,
        version_1: true,
        version_3: true,
    };
    store.make(settings).unwrap();
    let restore = SplitRestore {
        store: &store,
        edition: 1,
        section,
        pieces,
        old_starts: &[0x50000],
        new_starts: &[0x90000],
    };
    let (olds, news) = (restore.old_starts, restore.new_starts);
    let lent = (image.to_vec(), registers.clone());
    let [mut one, mut two, mut three] = [(); 3].map(|()| lent.clone());
    let answers = [
        thread(
            section, &mut one.0, pieces, olds, news, AMD64, &list, &mut one.1,
        ),
        restore.thread(&mut two.0, AMD64, &list, &mut two.1, None),
        restore.linked_thread(&mut three.0, AMD64, &list, &mut three.1),
    ];
    assert_eq!((&two, &three), (&one, &one));
    assert_eq!(answers, [answers[0]; 3]);
    assert!(answers[0].is_ok() || one == lent);
    if let [address] = *stack_pointers {
        alone(&restore, image, address, answers[0], &one);
    }
    image.copy_from_slice(&one.0);
    answers[0]
}

/// A thread of one frame is that frame moved alone.
fn alone(
    restore: &SplitRestore,
    image: &[u8],
    stack_pointer: u64,
    answer: Result<u64, Refusal>,
    after: &(Vec<u8>, Vec<u64>),
) {
    let mut row = Move::row_i();
    row.set_stack_pointer(stack_pointer);
    let (section, pieces) = (restore.section, restore.pieces);
    let (olds, news) = (restore.old_starts, restore.new_starts);
    let lent = (image.to_vec(), row.registers);
    let [mut one, mut two] = [lent.clone(), lent];
    let moved = relocate(
        section, &mut one.0, pieces, olds, news, AMD64, row.frame, &mut one.1,
    );
    let named = restore.relocate(&mut two.0, AMD64, row.frame, &mut two.1);
    let number = |answer: Result<u64, Refusal>| answer.map_err(|refusal| refusal.number);
    assert_eq!((number(moved), &one), (number(answer), after));
    assert_eq!((named, two), (moved, one));
}

const KEPT: u64 = 0xEEEE_EEEE_EEEE_EEEE;
const MOVED: [u64; 3] = [KEPT, 0x90000, 0x94E20];
const LEFT: [u64; 3] = [KEPT, 0x50000, 0x54E20];

#[test]
fn one_piece_is_the_plain_call() {
    assert_eq!(run(1, &[0x7000, 24], &[0x7000]), Ok((2, MOVED.to_vec())));
    assert_eq!(run(1, &[0x7000, 24], &[0x7001]), refusal(16, 0));
    assert_eq!(run(1, &[0x7001, 24], &[0x7000]), refusal(16, 0));
    assert_eq!(run(1, &[u64::MAX - 24, 24], &[u64::MAX - 24]).unwrap().0, 2);
    assert_eq!(
        run(1, &[u64::MAX - 23, 24], &[u64::MAX - 23]),
        refusal(13, 0)
    );
}

#[test]
fn a_frame_is_found_in_the_piece_that_has_its_addresses() {
    let pieces = [0x7000, 24, 0x9000, 24];
    let second = Ok((2, [LEFT, MOVED].concat()));
    assert_eq!(run(2, &pieces, &[0x9000]), second);
    let first = Ok((2, [MOVED, LEFT].concat()));
    assert_eq!(run(2, &pieces, &[0x7000]), first);
    let both = Ok((4, [MOVED, MOVED].concat()));
    assert_eq!(run(2, &pieces, &[0x9000, 0x7000]), both);
    // The buffer's order needs not be that of the addresses.
    let turned = [0x9000, 24, 0x7000, 24];
    assert_eq!(run(2, &turned, &[0x7000]), second);
    // A frame in the gap, and frames that share bytes.
    assert_eq!(run(2, &pieces, &[0x7000, 0x8000]), refusal(16, 1));
    assert_eq!(run(2, &pieces, &[0x7000, 0x7000]), refusal(26, 1));
}

#[test]
fn an_extent_across_two_pieces_that_touch_is_16() {
    for at in 0..=24 {
        let pieces = [0x7000, at, 0x7000 + at, 24 - at];
        let whole = at == 0 || at == 24;
        let answer = run(1, &pieces, &[0x7000]);
        let expected = match whole {
            true => Ok((2, MOVED.to_vec())),
            false => refusal(16, 0),
        };
        assert_eq!(answer, expected, "{at}");
    }
    // The first frame would move, the second lies across.
    let pieces = [0x7000, 32, 0x7020, 16];
    assert_eq!(run(2, &pieces, &[0x7000, 0x7018]), refusal(16, 1));
    let touching = [0x7000, 24, 0x7018, 24];
    let both = Ok((4, [MOVED, MOVED].concat()));
    assert_eq!(run(2, &touching, &[0x7000, 0x7018]), both);
}

#[test]
fn lengths_that_do_not_add_up_are_13() {
    let wrong: [&[u64]; 8] = [
        &[],
        &[0x7000],
        &[0x7000, 23],
        &[0x7000, 25],
        &[0x7000, 24, 0x9000],
        &[0x7000, 24, 0x9000, 1],
        &[0x7000, 12, 0x9000, 11],
        // 2^64 + 24 bytes in all.
        &[0, 1 << 63, 1 << 63, (1 << 63) - 1, 0x7000, 25],
    ];
    for pieces in wrong {
        assert_eq!(run(1, pieces, &[0x7000]), refusal(13, 0), "{pieces:x?}");
        assert_eq!(run(1, pieces, &[]), refusal(13, 0), "{pieces:x?}");
    }
    assert_eq!(run(0, &[], &[]), Ok((0, vec![])));
    assert_eq!(run(0, &[], &[0x7000]), refusal(16, 0));
}

#[test]
fn pieces_past_the_last_address_are_13() {
    let last = u64::MAX;
    assert_eq!(
        run(2, &[0x7000, 24, last - 24, 24], &[0x7000]).unwrap().0,
        2
    );
    for first in [last - 23, last - 1, last] {
        assert_eq!(run(2, &[0x7000, 24, first, 24], &[0x7000]), refusal(13, 0));
    }
    assert_eq!(run(1, &[0x7000, 24, last, 0], &[0x7000]).unwrap().0, 2);
}

#[test]
fn pieces_that_share_an_address_are_13() {
    for (first, shares) in [
        (0x6FE8, false),
        (0x6FE9, true),
        (0x7000, true),
        (0x7017, true),
        (0x7018, false),
    ] {
        for pieces in [[0x7000, 24, first, 24], [first, 24, 0x7000, 24]] {
            let answer = run(2, &pieces, &[0x7000]).map(|(pointers, _)| pointers);
            let expected = if shares { refusal(13, 0) } else { Ok(2) };
            assert_eq!(answer, expected, "{pieces:x?}");
        }
    }
    // One inside another, with a third between them in the list.
    let inside = [0x7000, 24, 0x9000, 20, 0x7008, 4];
    assert_eq!(run(2, &inside, &[0x7000]), refusal(13, 0));
}

#[test]
fn empty_pieces_share_nothing() {
    for first in [0, 0x6FFF, 0x7000, 0x7008, 0x7018, 0x9000, u64::MAX] {
        let pieces = [first, 0, 0x7000, 24, first, 0];
        assert_eq!(run(1, &pieces, &[0x7000]), Ok((2, MOVED.to_vec())));
    }
}

#[test]
fn an_image_over_its_limit_is_13() {
    let half = 524_288;
    let mut image = vec![0; 2 * half as usize + 1];
    let (most, over) = (
        [0x7000, half, 1 << 32, half],
        [0x7000, half, 1 << 32, half + 1],
    );
    let exact = &mut image[..2 * half as usize];
    assert_eq!(run_on(&row_h(), exact, &most, &[0x7000]), Ok(2));
    assert_eq!(
        run_on(&row_h(), &mut image, &over, &[0x7000]),
        refusal(13, 0)
    );
}

/// Frames without bytes: they start inside a piece, or at its end.
#[test]
fn empty_extents_start_inside_a_piece_or_at_its_end() {
    let section = one_function(0, &[], &[statepoint(0x20, &[(small(0), small(0))])]);
    let pieces = [0x7000, 8, 0x9000, 16, 0xA000, 0];
    for (stack_pointer, inside) in [
        (0x6FFF, false),
        (0x7000, true),
        (0x7008, true),
        (0x7009, false),
        (0x8FFF, false),
        (0x9010, true),
        (0x9011, false),
        (0x9FFF, false),
        (0xA000, true),
        (0xA001, false),
    ] {
        let answer = run_on(&section, &mut [1; 24], &pieces, &[stack_pointer]);
        let expected = if inside { Ok(1) } else { refusal(16, 0) };
        assert_eq!(answer, expected, "{stack_pointer:x}");
    }
    let many = [0x7008, 0x7008, 0xA000, 0xA000];
    assert_eq!(run_on(&section, &mut [1; 24], &pieces, &many), Ok(4));
}
