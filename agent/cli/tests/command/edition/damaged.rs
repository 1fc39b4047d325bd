//! Store files that are damaged: at every byte, too short, too long, and with wrong fields under a checksum
//! that fits. Each is refused, by every command, and left as it is.

use super::{list, make, retire, store, with_store, Settings};
use crate::run::{Folder, Ran};

const CAUSE: &str = "s: refused: not a store of editions, or a damaged one; ";

/// The run was refused because of the store, and nothing has changed.
#[track_caller]
fn refused(folder: &Folder, ran: &Ran, bytes: &[u8], found: &str) {
    assert_eq!((ran.status, ran.text()), (Some(1), ""), "{ran:?}");
    assert_eq!(ran.err, format!("{CAUSE}{found}\n"));
    assert!(folder.get("s") == bytes, "the store was changed");
    assert_eq!(folder.names(), ["s"]);
}

fn whole() -> Vec<u8> {
    let editions = [(3, [256, 0, 1, 1]), (7, [1, 1, 0, 1])];
    store(9, &editions)
}

#[test]
fn at_every_byte() {
    let folder = Folder::new();
    let mut rng = generator::Rng::new(9);
    for at in 0..whole().len() {
        let mut bytes = whole();
        bytes[at] ^= 1 + rng.below(255) as u8;
        folder.put("s", &bytes);
        let told = |from: usize| {
            let number = [
                bytes[from],
                bytes[from + 1],
                bytes[from + 2],
                bytes[from + 3],
            ];
            u32::from_le_bytes(number)
        };
        let found = match at {
            0..8 => "it doesn't begin with 'EDITIONS'".to_string(),
            8..12 => format!("it is of format {}, and not of format 1", told(8)),
            12..16 => format!("its length is {}, and not 2588", told(12)),
            _ => "its checksum is wrong".to_string(),
        };
        // Each byte is tried by one command, so that every part of the file is tried by all.
        let ran = match at % 3 {
            0 => list(&folder, &[]),
            1 => make(&folder, &[]),
            _ => retire(&folder, &["3"]),
        };
        refused(&folder, &ran, &bytes, &found);
    }
}

#[test]
fn too_short_and_too_long() {
    let folder = Folder::new();
    let whole = whole();
    for length in [0, 1, 7, 8, 11, 12, 15, 16, 24, 64, 2_583, 2_584, 2_587] {
        let bytes = &whole[..length];
        folder.put("s", bytes);
        let found = match length {
            0..8 => "it doesn't begin with 'EDITIONS'".to_string(),
            _ => format!("its length is {length}, and not 2588"),
        };
        refused(&folder, &list(&folder, &[]), bytes, &found);
        refused(&folder, &make(&folder, &[]), bytes, &found);
        refused(&folder, &retire(&folder, &["3"]), bytes, &found);
    }
    for more in [1, 2, 2_588] {
        let bytes = [&whole[..], &vec![0; more]].concat();
        folder.put("s", &bytes);
        let found = "it has over 2588 bytes";
        refused(&folder, &list(&folder, &[]), &bytes, found);
        refused(&folder, &make(&folder, &[]), &bytes, found);
    }
}

/// Fields that no call leaves, with a checksum that fits.
#[test]
fn wrong_fields() {
    let right: Settings = [256, 0, 1, 1];
    let place = |nth: usize| format!("its place {nth} has what no call leaves there");
    let full: Vec<(u64, Settings)> = (1..=64).map(|number| (number, right)).collect();
    let mut rows = vec![
        (
            store(1 << 32, &[]),
            "its greatest number is over 2^32 - 1".to_string(),
        ),
        (
            store(65, &full),
            "it is full without its greatest number".to_string(),
        ),
        (store(1, &[(2, right)]), place(0)),
        (store(3, &[(1, right), (2, right), (1, right)]), place(2)),
        (store(3, &[(0, right)]), place(0)),
        (store(3, &[(1, right), (0, [0, 0, 0, 1])]), place(1)),
        (
            store(1 << 31, &[(1, right), ((1 << 32) + 1, right)]),
            place(1),
        ),
    ];
    for wrong in [
        [0, 0, 1, 1],
        [257, 0, 1, 1],
        [1 << 32, 0, 1, 1],
        [1, 2, 1, 1],
        [1, 1 << 32, 1, 1],
        [1, 0, 0, 0],
        [1, 0, 2, 0],
        [1, 0, 0, 2],
        [1, 0, 1 << 32, 1],
    ] {
        rows.push((store(3, &[(3, right), (2, wrong)]), place(1)));
    }
    for (bytes, found) in rows {
        let folder = with_store(&bytes);
        refused(&folder, &list(&folder, &[]), &bytes, &found);
        refused(&folder, &make(&folder, &[]), &bytes, &found);
        refused(&folder, &retire(&folder, &["1"]), &bytes, &found);
    }
}
