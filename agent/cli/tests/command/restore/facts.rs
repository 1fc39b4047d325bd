//! What a refused restore tells: the slots, what they hold, and what they should.

use super::registers::register;
use super::Restore;
use crate::fixtures::{constant, location, of_pairs, rsp, words};
use generator::layout::Location;

/// Row I with other pairs and another image.
fn of(pairs: &[[Location; 2]], image: &[u64]) -> Restore {
    Restore {
        section: of_pairs(image.len() as u64 * 8, pairs),
        image: words(image),
        ..Restore::row_i()
    }
}

/// What is told after the frame.
#[track_caller]
fn found(row: &Restore, number: u64) -> String {
    let words = row.refused(number, 0);
    let (frame, found) = words.split_once("RSP 0x7000): ").unwrap();
    assert!(frame.starts_with("frames:1: "), "{frame}");
    found.to_string()
}

const GOOD: [u64; 3] = [0, 0x50000, 0x54e20];

/// 21: the base slot, what it holds, and the old start below.
#[test]
fn bases_that_are_no_old_starts() {
    let pair = [[rsp(8), rsp(8)]];
    for (base, near) in [
        (0x50008, "the old start below it is 0x50000, 8 bytes before"),
        (0x50001, "the old start below it is 0x50000, 1 byte before"),
        (
            0x9999999,
            "the old start below it is 0x60000, 0x9939999 bytes before",
        ),
        (0x4ffff, "no old start is below it"),
    ] {
        let mut row = of(&pair, &[0, base, 0]);
        row.moves = "50000 90000\n60000 a0000\n".to_string();
        let expected = format!("pair 0: its base slot RSP+0x8 at 0x7008 holds {base:#x}; {near}");
        assert_eq!(found(&row, 21), expected);
    }
    // The second pointer of a pair, and a register.
    let two = |offset| location(3, 16, 7, offset);
    let row = of(&[[two(0), two(16)]], &[0x50000, 0x77, 0, 0]);
    assert_eq!(
        found(&row, 21),
        "pair 0: its base slot RSP+0x8 at 0x7008 holds 0x77; no old start is below it"
    );
    let mut row = of(&[[constant(0), constant(0)], [register(3), rsp(8)]], &GOOD);
    row.frames = "1020 0 7000 rbx=50010\n".to_string();
    assert_eq!(
        found(&row, 21),
        "pair 1: its base slot RBX holds 0x50010; the old start below it is 0x50000, 16 bytes before"
    );
    let mut empty = of(&pair, &GOOD);
    empty.moves = "# nothing has moved\n".to_string();
    assert!(found(&empty, 21).ends_with(" holds 0x50000; no old start is below it"));
}

/// 20: both slots.
#[test]
fn slots_that_collide() {
    for (pairs, told) in [
        (
            vec![[rsp(8), rsp(8)], [rsp(8), rsp(12)]],
            "pair 1: its derived slot RSP+0xc at 0x700c shares bytes with \
             the base slot RSP+0x8 at 0x7008 of pair 0",
        ),
        (
            vec![[rsp(8), rsp(9)]],
            "pair 0: its base slot RSP+0x8 at 0x7008 shares bytes with \
             the derived slot RSP+0x9 at 0x7009 of the same pair",
        ),
        (
            vec![[rsp(8), rsp(8)], [rsp(0), rsp(8)]],
            "pair 1: its derived slot RSP+0x8 at 0x7008 is derived from two bases: \
             base slot RSP+0x0 at 0x7000 holds 0x0, and base slot RSP+0x8 at 0x7008 of pair 0 holds 0x50000",
        ),
    ] {
        assert_eq!(found(&of(&pairs, &GOOD), 20), told);
    }
    let pairs = [[rsp(8), register(3)], [rsp(0), register(3)]];
    let mut row = of(&pairs, &GOOD);
    row.frames = "1020 0 7000 rbx=1\n".to_string();
    assert_eq!(
        found(&row, 20),
        "pair 1: its derived slot RBX is derived from two bases: base slot RSP+0x0 at 0x7000 holds 0x0, \
         and base slot RSP+0x8 at 0x7008 of pair 0 holds 0x50000"
    );
}

/// 19: the slot and the extent.
#[test]
fn slots_outside_the_extent() {
    for (offset, slot) in [
        (17, "RSP+0x11 at 0x7011"),
        (-1, "RSP-0x1 at 0x6fff"),
        (i32::MAX, "RSP+0x7fffffff at 0x80006fff"),
        (i32::MIN, "RSP-0x80000000 at -0x7fff9000"),
    ] {
        let row = of(&[[rsp(8), rsp(8)], [rsp(8), rsp(offset)]], &GOOD);
        let told =
            format!("pair 1: its derived slot {slot} is not inside the extent 0x7000 to 0x7018");
        assert_eq!(found(&row, 19), told);
    }
    let two = |offset| location(3, 16, 7, offset);
    let row = of(&[[two(0), two(16)]], &GOOD);
    assert_eq!(
        found(&row, 19),
        "pair 0: its derived slot RSP+0x18 at 0x7018 is not inside the extent 0x7000 to 0x7018"
    );
}

/// 18: what the pair's locations are.
#[test]
fn pairs_of_wrong_form() {
    let row = of(&[[rsp(8), rsp(8)], [rsp(8), location(3, 4, 5, -8)]], &GOOD);
    assert_eq!(
        found(&row, 18),
        "pair 1: base Indirect [RSP + 8], size 8; derived Indirect [RDI - 8], size 4"
    );
    let row = of(&[[constant(0), location(1, 8, 7, 0)]], &GOOD);
    assert_eq!(
        found(&row, 18),
        "pair 0: base Constant 0, size 8; derived Register RSP, size 8"
    );
}

/// 17: how many there are, null ones too, and how many may be.
#[test]
fn too_many_pointers() {
    let wide = location(3, 2_048, 7, 0);
    let row = of(
        &[[wide.clone(), wide], [constant(0), constant(0)]],
        &[0; 256],
    );
    assert_eq!(
        found(&row, 17),
        "257 pointers; no edition is named, which allows at most 256 pointers, x86-64, versions 1 and 3"
    );
}
