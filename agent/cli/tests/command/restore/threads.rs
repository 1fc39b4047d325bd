//! Several frames: any order, one of them refused, shared extents, as many as there may be.

use super::Restore;
use crate::fixtures::{of_pairs, one_function, row_h, rsp, statepoint, words};
use generator::layout::{Function, Section};

const BASE: u64 = 0x50000;

/// So many frames of row H's form one after the other; every base has an object of its own.
pub fn thread(frames: u64) -> Restore {
    let mut row = Restore {
        image: vec![],
        moves: String::new(),
        frames: String::new(),
        ..Restore::row_i()
    };
    for frame in 0..frames {
        let base = BASE + 0x100 * frame;
        row.image.extend(words(&[frame, base, base + 8 + frame]));
        row.moves += &format!("{base:x} {:x}\n", base + 0x7_0000_0000);
        row.frames += &format!("1020 0 {:x}\n", 0x7000 + 24 * frame);
    }
    row
}

/// What the image of such a thread becomes.
pub fn moved(frames: u64) -> Vec<u8> {
    let frame = |frame: u64| {
        let base = BASE + 0x100 * frame + 0x7_0000_0000;
        words(&[frame, base, base + 8 + frame])
    };
    (0..frames).flat_map(frame).collect()
}

/// The lines of a list in another order.
fn shuffled(lines: &str, rng: &mut generator::Rng) -> String {
    let mut lines: Vec<&str> = lines.lines().collect();
    for place in (1..lines.len()).rev() {
        lines.swap(place, rng.below(place + 1));
    }
    lines.join("\n")
}

#[test]
fn many_frames_in_any_order() {
    let mut row = thread(500);
    let expected = moved(500);
    assert!(row.done("500 frames moved, 1000 pointers") == expected);
    let mut rng = generator::Rng::part(5, 0);
    for _ in 0..5 {
        row.frames = shuffled(&row.frames, &mut rng);
        assert!(row.done("500 frames moved, 1000 pointers") == expected);
    }
}

/// One refused frame refuses the lot, and it is named by its place in the list and its line.
#[test]
fn one_refused_frame_refuses_all() {
    let whole = thread(20);
    for (bad, number) in [
        ("1021 0 7000", 10),
        ("1020 0 8000", 16),
        ("1020 0 6ff0", 16),
    ] {
        for position in [0, 7, 20] {
            let mut row = whole.clone();
            let mut lines: Vec<&str> = whole.frames.lines().collect();
            lines.insert(position, bad);
            row.frames = format!("# frames\n\n{}", lines.join("\n"));
            let words = row.refused(number, position as u64);
            let start = format!("frames:{}: ", position + 3);
            assert!(words.starts_with(&start), "{words}");
            assert!(words.contains(&format!("; frame {position} (")), "{words}");
        }
    }
}

/// The first refused frame of the list is named, though the ones after it are refused too.
#[test]
fn the_first_refused_frame_is_named() {
    let mut row = thread(3);
    row.moves = "50000 90000".to_string();
    let words = row.refused(21, 1);
    assert!(
        words.starts_with("frames:2: ") && words.contains("; frame 1 ("),
        "{words}"
    );
    row.frames += "9999 0 0";
    row.refused(21, 1);
}

/// A list has at most 4,096 frames, whatever they are.
#[test]
fn as_many_frames_as_there_may_be() {
    let mut row = thread(4_096);
    assert!(row.done("4096 frames moved, 8192 pointers") == moved(4_096));
    row.frames += "9999 0 0\n";
    let words = row.refused(25, 0);
    assert_eq!(
        words,
        "frames: list of frames odd or over 4,096 frames, or not 32 registers a frame; it has 4097 frames"
    );
}

#[test]
fn shared_extents_are_refused() {
    let mut row = thread(6);
    row.frames += "1020 0 7030\n";
    assert_eq!(
        row.refused(26, 6),
        "frames:7: extent shares a byte with that of an earlier frame; \
         frame 6 (address 0x1020, RBP 0x0, RSP 0x7030): it is shared with frame 2 of line 3"
    );
    // Without pairs a frame is accepted wherever it lies.
    row.section = of_pairs(24, &[]);
    for (rsp, number) in [(0x7017, 26), (0x7019, 26), (0x702f, 26), (0x7030, 0)] {
        row.frames = format!("1020 0 7000\n1020 0 7018\n1020 0 {rsp:x}");
        match number {
            0 => drop(row.done("3 frames moved, 0 pointers")),
            _ => drop(row.refused(number, 2)),
        }
    }
}

/// A frame that is refused by itself comes before extents that share a byte, wherever it stands.
#[test]
fn a_refused_frame_comes_before_shared_extents() {
    let mut row = Restore::row_i();
    row.frames = "1020 0 7000\n1020 0 7000\n1020 0 9000\n".to_string();
    row.refused(16, 2);
    row.frames = "1020 0 7000\n1020 0 7000\n1020 0 ffffffffffffffff\n".to_string();
    row.refused(16, 2);
    row.frames = "1020 0 7000\n1020 0 7000\n".to_string();
    row.refused(26, 1);
}

/// Functions at 0x1000 (stack size 24), 0x2000 (0) and 0x3000 (not known), each with a statepoint
/// at offset 0x20, and two records of the first at offset 0x40.
fn three_functions() -> Vec<u8> {
    let pair = [rsp(8), rsp(16)];
    let mut section: Section = one_function(24, vec![statepoint(0x20, &[pair])]);
    section.functions[0].record_count = 3;
    section
        .records
        .extend([statepoint(0x40, &[]), statepoint(0x40, &[])]);
    for (address, stack_size) in [(0x2000, 0), (0x3000, u64::MAX)] {
        section.functions.push(Function {
            address,
            stack_size,
            record_count: 1,
        });
        section.records.push(statepoint(0x20, &[]));
    }
    section.encode()
}

#[test]
fn empty_extents_share_nothing() {
    let row = Restore {
        section: three_functions(),
        frames: "2020 0 7000\n2020 0 7000\n1020 0 7000\n2020 0 7008\n2020 0 7018\n".to_string(),
        ..Restore::row_i()
    };
    let image = row.done("5 frames moved, 1 pointer");
    let rest = 0xEEEE_EEEE_EEEE_EEEE;
    assert_eq!(image, words(&[rest, 0x50000, 0x94E20]));
    let row = Restore {
        section: of_pairs(0, &[]),
        frames: "1020 0 7000\n".repeat(50),
        image: vec![],
        ..Restore::row_i()
    };
    assert!(row.done("50 frames moved, 0 pointers").is_empty());
}

/// Frames without an extent are refused, by what is said of each by itself.
#[test]
fn frames_without_an_extent() {
    for (frame, number) in [
        ("3020 0 7000", 16),
        ("1040 0 7000", 15),
        ("1021 0 7000", 10),
    ] {
        let row = Restore {
            section: three_functions(),
            frames: format!("1020 0 7000\n{frame}\n{frame}\n"),
            ..Restore::row_i()
        };
        let words = row.refused(number, 1);
        assert!(
            words.starts_with("frames:2: ") && words.contains("; frame 1 ("),
            "{words}"
        );
    }
}

/// A second restore of the same image finds no old start: it is refused, and the image stays.
#[test]
fn twice() {
    let mut row = Restore::row_i();
    row.image = row.done("1 frame moved, 2 pointers");
    row.refused(21, 0);
    assert_eq!(row.section, row_h());
}
