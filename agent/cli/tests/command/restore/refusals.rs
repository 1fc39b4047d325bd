//! Every refusal that a restore can give, and their order.

use super::Restore;
use crate::fixtures::{
    constant, location, of_pairs, one_function, row_h, rsp, statepoint, with, words,
};
use crate::run::{Folder, Ran};
use generator::layout::Location;

/// Row I on another section.
fn on(section: Vec<u8>) -> Restore {
    Restore {
        section,
        ..Restore::row_i()
    }
}

/// Row I with another move table.
fn moved_by(moves: impl Into<String>) -> Restore {
    Restore {
        moves: moves.into(),
        ..Restore::row_i()
    }
}

/// Row H with the address of its function.
fn at(address: u64) -> Vec<u8> {
    let mut section = row_h();
    section[16..24].copy_from_slice(&address.to_le_bytes());
    section
}

#[test]
fn refusals_of_the_section() {
    for (section, number, place) in [
        (vec![], 1, 0),
        (row_h()[..15].to_vec(), 1, 0),
        (with(row_h(), 0, 2), 2, 0),
        (with(row_h(), 3, 1), 3, 3),
        (with(row_h(), 143, 1), 3, 143),
        (row_h()[..151].to_vec(), 4, 40),
        (with(row_h(), 12, 2), 5, 12),
        (with(row_h(), 56, 6), 6, 56),
        (with(row_h(), 56, 5), 7, 56),
        (at(u64::MAX - 0x1F), 8, 40),
        ([row_h(), vec![0]].concat(), 9, 152),
    ] {
        let words = on(section).refused(number, place);
        assert!(words.starts_with("section: "), "{words}");
    }
}

#[test]
fn refusals_of_the_image() {
    let mut long = Restore::row_i();
    long.image.resize(1_048_576, 7);
    long.done("1 frame moved, 2 pointers");
    long.image.push(7);
    let words = long.refused(13, 0);
    assert!(
        words.starts_with("image: image over 1,048,576 bytes"),
        "{words}"
    );
    let mut high = Restore::row_i();
    high.first = u64::MAX - 24;
    high.frames = format!("1020 0 {:x}", high.first);
    high.done("1 frame moved, 2 pointers");
    high.first += 1;
    high.frames = format!("1020 0 {:x}", high.first);
    high.refused(13, 0);
}

#[test]
fn refusals_of_the_moves() {
    for (moves, line, found) in [
        (
            "50000 90000\n50000 90000\n",
            2,
            "old start 0x50000 is not above 0x50000 of line 1",
        ),
        (
            "# a\n50000 90000\n\n40000 80000\n",
            4,
            "old start 0x40000 is not above 0x50000 of line 2",
        ),
        ("0 0\n50000 90000\n", 1, "the old start is 0"),
        ("50000 0\n", 1, "the new start is 0"),
    ] {
        let words = moved_by(moves).refused(14, 0);
        let start = format!("moves:{line}: lists unequal, over 65,536");
        assert!(words.starts_with(&start), "{words}");
        assert!(words.ends_with(&format!("; {found}")), "{words}");
    }
    let table = |entries: u64| -> String {
        let old = 0x50000;
        (old..old + entries)
            .map(|old| format!("{old:x} 90000\n"))
            .collect()
    };
    moved_by(table(65_536)).done("1 frame moved, 2 pointers");
    let words = moved_by(table(65_537)).refused(14, 0);
    assert!(words.starts_with("moves:65537: "), "{words}");
    assert!(words.ends_with("; entry 65537 of 65537"), "{words}");
}

#[test]
fn refusals_of_where_the_frame_stands() {
    let frame = Restore {
        frames: "1021 0 7000\n".to_string(),
        ..Restore::row_i()
    };
    let words = frame.refused(10, 0);
    let end = "; frame 0 (address 0x1021, RBP 0x0, RSP 0x7000): no record at address 0x1021";
    assert!(words.starts_with("frames:1: no record of that number or address"));
    assert!(words.ends_with(end), "{words}");

    let pairs = [[rsp(8), rsp(8)]];
    let twice = vec![statepoint(0x20, &pairs), statepoint(0x20, &pairs)];
    let words = on(one_function(24, twice).encode()).refused(15, 0);
    assert!(
        words.starts_with("frames:1: more than one record at the address or offset; frame 0 ("),
        "{words}"
    );

    let words = on(with(row_h(), 56, 1)).refused(12, 0);
    assert!(words.starts_with("frames:1: not a statepoint; "), "{words}");

    let words = on(of_pairs(u64::MAX, &pairs)).refused(16, 0);
    let end = "): the stack size of function 0 is not known";
    assert!(words.ends_with(end), "{words}");
    on(of_pairs(25, &pairs)).refused(16, 0);
    for (rsp, extent) in [
        ("6fff", "0x6fff to 0x7017"),
        ("7001", "0x7001 to 0x7019"),
        ("0", "0x0 to 0x18"),
        (
            "ffffffffffffffff",
            "0xffffffffffffffff to 0x10000000000000017",
        ),
    ] {
        let frame = Restore {
            frames: format!("1020 0 {rsp}"),
            ..Restore::row_i()
        };
        let words = frame.refused(16, 0);
        let end = format!("): extent {extent}, image 0x7000 to 0x7018");
        assert!(words.ends_with(&end), "{words}");
    }
}

#[test]
fn refusals_of_the_pairs() {
    let good = [rsp(8), rsp(8)];
    on(of_pairs(24, &vec![good.clone(); 257])).refused(17, 0);
    for bad in [
        [rsp(8), location(3, 4, 7, 8)],
        [location(1, 8, 7, 0), rsp(8)],
        [rsp(8), location(3, 8, 5, 8)],
        [constant(0), rsp(8)],
        [constant(1), constant(1)],
    ] {
        second_pair(18, [good.clone(), bad]);
    }
    for offset in [17, -1, i32::MIN, i32::MAX] {
        second_pair(19, [good.clone(), [rsp(8), rsp(offset)]]);
    }
    second_pair(20, [good.clone(), [rsp(8), rsp(1)]]);
    second_pair(20, [good.clone(), [rsp(0), rsp(8)]]);
    second_pair(21, [good, [rsp(16), rsp(16)]]);
}

/// The place of a refusal is the frame's position; the words tell the pair.
#[track_caller]
fn second_pair(number: u64, pairs: [[Location; 2]; 2]) {
    let words = on(of_pairs(24, &pairs)).refused(number, 0);
    assert!(words.contains("RSP 0x7000): pair 1: "), "{words}");
}

#[test]
fn null_pairs_and_bases_of_zero() {
    let pairs = [[constant(0), constant(0)], [rsp(0), rsp(16)]];
    let row = Restore {
        section: of_pairs(24, &pairs),
        image: words(&[0, 7, 0x1234]),
        moves: "# nothing has moved\n".to_string(),
        ..Restore::row_i()
    };
    assert_eq!(row.done("1 frame moved, 2 pointers"), row.image);
}

/// Faults of what all frames share come before those of a frame, and they come in their order.
#[test]
fn order() {
    let mut all = Restore {
        section: with(row_h(), 0, 2),
        image: vec![0; 1_048_577],
        moves: "0 0".to_string(),
        frames: "1020 0 7000\n1020 0 7000\n9999 0 0\n".to_string(),
        first: 0x7000,
    };
    all.refused(2, 0);
    all.section = row_h();
    all.refused(13, 0);
    all.image = Restore::row_i().image;
    all.refused(14, 0);
    all.moves = "50000 90000".to_string();
    let frames = std::mem::replace(&mut all.frames, "9999 0 0\n".repeat(4_097));
    all.refused(25, 0);
    all.frames = frames;
    all.refused(10, 2);
    all.frames = "1020 0 7000\n1020 0 0\n9999 0 0\n".to_string();
    all.refused(16, 1);
    all.frames = "1020 0 7000\n1020 0 7000\n".to_string();
    all.refused(26, 1);
}

/// A list of none is refused by the command, and what all frames share is looked at before that.
#[test]
fn no_frames() {
    let mut none = Restore {
        frames: "# no frames\n".to_string(),
        ..Restore::row_i()
    };
    let (ran, image) = none.run();
    assert_eq!((ran.status, ran.text()), (Some(1), ""));
    assert!(ran
        .err
        .starts_with("frames: refused: no frames in the list; "));
    assert!(ran.err.contains("--allow-empty"), "{}", ran.err);
    assert_eq!(image, none.image);
    let folder = Folder::new();
    none.put(&folder);
    let ran = Ran::of(none.call(&mut folder.command()).arg("--allow-empty"));
    ran.done("image: 0 frames moved, 0 pointers\n");
    assert_eq!(folder.get("image"), none.image);
    // Nothing was moved, so that nothing can be moved twice.
    folder.put("frames", Restore::row_i().frames);
    Ran::of(none.call(&mut folder.command())).done("image: 1 frame moved, 2 pointers\n");
    none.moves = "1 0".to_string();
    none.refused(14, 0);
    none.image = vec![0; 1_048_577];
    none.refused(13, 0);
    none.section.push(0);
    none.refused(9, 152);
}
