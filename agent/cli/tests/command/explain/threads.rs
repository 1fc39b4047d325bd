//! The text of a whole thread and of a frame.

use super::{every_reason, told};
use crate::restore::receipts::digest;
use crate::restore::registers::in_rbx;
use crate::restore::Restore;
use crate::run::{Folder, Ran};

/// What the frames are told to be.
const FRAMES: &str = "\
frame 0, line 2: address 0x1020, RBP 0x7058, RSP 0x7000
  record 0 of function 0, 9 pointers of 8 pairs, extent 0x7000 to 0x7050
  slot      address  old value   object  moved to  new value  why
  RSP+0x8    0x7008    0x50000  0x50000   0x90000    0x90000  moved: pair 0, its own base
  RSP+0x10   0x7010    0x54e20  0x50000   0x90000    0x94e20  moved: pair 1, from the base RSP+0x8
  RBP-0x10   0x7048    0x50000        -         -    0x50000  stays, only a base: of pairs 3 and 7
  RBX             -    0x4fff0  0x50000   0x90000    0x8fff0  moved: pair 3, from the base RBP-0x10
  RSP+0x0    0x7000        0x0        -         -        0x0  stays, only a base: of pair 4
  RSP+0x18   0x7018     0x1234        -         -     0x1234  stays, null base: pair 4, from the base RSP+0x0
  RSP+0x28   0x7028    0x60000        -         -    0x60000  stays, only a base: of pair 6
  RSP+0x38   0x7038    0x60010  0x60000   0x5f000    0x5f010  moved: pair 6, from the base RSP+0x28
  RSP+0x30   0x7030        0x0        -         -        0x0  stays, only a base: of pair 6
  RSP+0x40   0x7040        0x7        -         -        0x7  stays, null base: pair 6, from the base RSP+0x30
  pairs 2 and 5 are null, and have no slots

frame 1, line 3: address 0x1030, RBP 0x0, RSP 0x7050
  record 1 of function 0, 2 pointers of 2 pairs, extent 0x7050 to 0x70a0
  slot      address  old value   object  moved to  new value  why
  RSP+0x8    0x7058        0x0        -         -        0x0  stays, null base: pair 0, its own base
  RSP+0x0    0x7050     0xaaaa        -         -     0xaaaa  stays, null base: pair 1, from the base RSP+0x8
";

const TOTAL: &str = "total: 2 frames, 10 pairs (2 null), 11 pointers, 12 slots: \
    4 moved, 4 with a null base, 4 only a base\n";

#[test]
fn every_slot_once_with_its_reason() {
    let row = every_reason();
    let text = told(&row, &[]);
    let (head, rest) = text.split_once("\n\nframe 0, ").unwrap();
    let (frames, end) = rest.split_once("\nnew image").unwrap();
    assert_eq!(format!("frame 0, {frames}"), FRAMES);
    let line = |what: &str, bytes: &[u8], name: &str| {
        let length = format!("{} bytes", bytes.len());
        format!("{what:10}  {length:>9}  sha256 {}  {name}\n", digest(bytes))
    };
    let files = [
        line("section", &row.section, "section"),
        line("image", &row.image, "image"),
        line("moves", row.moves.as_bytes(), "moves"),
        line("frames", row.frames.as_bytes(), "frames"),
    ];
    let version = env!("CARGO_PKG_VERSION");
    let expected = format!(
        "why each slot moves or stays, by treskibben {version}\n\n{}\
         addresses   0x7000 to 0x70a0\n\
         machine     x86-64\n\
         edition     none named: at most 256 pointers, x86-64, versions 1 and 3",
        files.concat()
    );
    assert_eq!(head, expected);
    assert!(end.ends_with(TOTAL), "{end}");
}

/// What comes out is told by its digest: it is what a restore writes.
#[test]
fn the_new_image_is_that_of_a_restore() {
    for row in [every_reason(), in_rbx(), Restore::row_i()] {
        let (text, folder) = (told(&row, &[]), Folder::new());
        row.put(&folder);
        let mut command = folder.command();
        let ran = Ran::of(row.inputs(&mut command).args(["--into", "new"]));
        assert_eq!(ran.status, Some(0), "{}", ran.err);
        let image = digest(&folder.get("new/image"));
        assert!(text.contains(&format!("bytes  sha256 {image}\n")), "{text}");
        let frames = digest(&folder.get("new/frames"));
        let told = text.contains(&format!("bytes  sha256 {frames}\n"));
        // The list of the frames is told where a register changes.
        assert_eq!(told, row.frames.contains("rbx"), "{text}");
    }
}

/// A frame by itself is told as in the thread, without what a move of all leaves.
#[test]
fn one_frame() {
    let row = every_reason();
    let [first, second] = ["0", "1"].map(|frame| told(&row, &["--frame", frame]));
    let blocks: Vec<&str> = FRAMES.split("\n\n").collect();
    assert!(first.contains(&format!("\n\n{}\n\ntotal: 1 frame, 8 pairs", blocks[0])));
    assert!(second.contains("\n\nframe 1, line 3: address 0x1030, "));
    assert!(second.ends_with(
        "\n\ntotal: 1 frame, 2 pairs (0 null), 2 pointers, 2 slots: \
         0 moved, 2 with a null base, 0 only a base\n"
    ));
    for text in [&first, &second] {
        assert!(!text.contains("new image"), "{text}");
        let heads = [&first, text].map(|text| text.split_once("\n\nframe").unwrap().0.to_string());
        assert_eq!(heads[0], heads[1]);
    }
}

/// The frames of the other machine, and of version 1, have their own names.
#[test]
fn other_machines_and_versions() {
    let location = |register| crate::fixtures::location(3, 8, register, 8);
    let arm = Restore {
        section: crate::fixtures::of_pairs(24, &[[location(31), location(29)]]),
        frames: "1020 7008 7000\n".to_string(),
        ..Restore::row_i()
    };
    let text = told(&arm, &["--machine", "aarch64"]);
    assert!(text.contains("\nmachine     aarch64\n"), "{text}");
    assert!(
        text.contains("none named: at most 256 pointers, aarch64, "),
        "{text}"
    );
    assert!(
        text.contains("  X29+0x8   0x7010    0x54e20  0x50000 "),
        "{text}"
    );
    assert!(text.contains(" from the base SP+0x8\n"), "{text}");
    let older = Restore {
        section: std::fs::read(crate::run::sample("h-version-1.section")).unwrap(),
        frames: "0+20 0 7000\n".to_string(),
        ..Restore::row_i()
    };
    let text = told(&older, &[]);
    let block = "frame 0, line 1: function 0, offset 0x20, RBP 0x0, RSP 0x7000\n  \
        record 0 of function 0, 2 pointers of 2 pairs, extent 0x7000 to 0x7018\n";
    assert!(text.contains(block), "{text}");
}

/// A list of no frames, and a frame without pairs.
#[test]
fn nothing_to_tell() {
    let none = Restore {
        frames: String::new(),
        ..Restore::row_i()
    };
    let text = told(&none, &[]);
    let end = "total: 0 frames, 0 pairs (0 null), 0 pointers, 0 slots: 0 moved, \
        0 with a null base, 0 only a base\n";
    assert!(text.ends_with(end), "{text}");
    let bare = Restore {
        section: crate::fixtures::of_pairs(24, &[]),
        ..Restore::row_i()
    };
    let text = told(&bare, &[]);
    let block =
        "  record 0 of function 0, 0 pointers of 0 pairs, extent 0x7000 to 0x7018\n\nnew image ";
    assert!(text.contains(block), "{text}");
}

/// Several tables are told each, and the joined one that the frames are moved by.
#[test]
fn joined_tables() {
    let (row, folder) = (Restore::row_i(), Folder::new());
    row.put(&folder);
    folder.put("second", "90000 a0000\n");
    let call = "explain --section section --image image --first 7000 --moves moves --moves second";
    let ran = folder.run(call.split(' ').chain(["--frames", "frames"]));
    let text = ran.text();
    let joined =
        "# Where the objects of the heap were, and where they are now: OLD NEW\n0x50000 0xa0000\n";
    let lines = [
        ("moves", "50000 90000\n", "moves"),
        ("moves", "90000 a0000\n", "second"),
    ];
    for (what, bytes, name) in lines
        .into_iter()
        .chain([("joined", joined, "moves + second")])
    {
        let line = format!("sha256 {}  {name}\n", digest(bytes.as_bytes()));
        let line = text.lines().find(|own| format!("{own}\n").ends_with(&line));
        assert!(line.is_some_and(|line| line.starts_with(what)), "{text}");
    }
    assert!(
        text.contains("  0x50000   0xa0000    0xa4e20  moved: pair 1, "),
        "{text}"
    );
}

/// A name can't write a line of its own into a report.
#[test]
fn names_with_control_characters() {
    let (row, folder) = (Restore::row_i(), Folder::new());
    row.put(&folder);
    let name = "i\ntotal: 0 frames\x1b[2J";
    folder.put(name, &row.image);
    let call = "explain --section section --first 7000 --moves moves --frames frames --image";
    let ran = folder.run(call.split(' ').chain([name]));
    assert_eq!((ran.status, ran.err.as_str()), (Some(0), ""));
    assert!(
        ran.text().contains("  i\\ntotal: 0 frames\\u{1b}[2J\n"),
        "{}",
        ran.text()
    );
    let totals = ran
        .text()
        .lines()
        .filter(|line| line.starts_with("total: "));
    assert_eq!(totals.count(), 1);
}
