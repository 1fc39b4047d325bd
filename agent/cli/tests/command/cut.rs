//! `cut`: a file of several maps.

use crate::fixtures::{row_h, with, C};
use crate::run::{Folder, Ran};
use std::fs;

/// A section of so many bytes, most of them constants.
fn of_constants(length: usize, constant: u64) -> Vec<u8> {
    let count = (length - 16) / 8;
    let mut section = C.to_vec();
    section[8..12].copy_from_slice(&(count as u32).to_le_bytes());
    section.extend(constant.to_le_bytes().repeat(count));
    section
}

#[test]
fn one_map_is_one_part() {
    let folder = Folder::new();
    folder.put("one", row_h());
    folder
        .run(["cut", "one"])
        .done("part 0 from byte 0: 152 bytes, accepted\n");
    folder
        .run(["cut", "one", "--into", "parts"])
        .done("part 0 from byte 0: 152 bytes, accepted\n");
    assert_eq!(folder.get("parts/part-0.section"), row_h());
}

#[test]
fn maps_are_cut_and_written() {
    let folder = Folder::new();
    let maps: Vec<Vec<u8>> = (0..11)
        .map(|number| with(row_h(), 40, number))
        .chain([C.to_vec()])
        .collect();
    folder.put("all", maps.concat());
    let lines: Vec<String> = maps
        .iter()
        .enumerate()
        .map(|(number, map)| {
            let (first, length) = (152 * number, map.len());
            format!("part {number} from byte {first}: {length} bytes, accepted\n")
        })
        .collect();
    folder.run(["cut", "all"]).done(&lines.concat());
    assert_eq!(folder.names(), ["all"]);
    folder
        .run(["cut", "all", "--into", "parts"])
        .done(&lines.concat());
    for (number, map) in maps.iter().enumerate() {
        assert_eq!(folder.get(&format!("parts/part-{number:02}.section")), *map);
    }
    assert_eq!(fs::read_dir(folder.at("parts")).unwrap().count(), 12);
}

#[test]
fn a_bad_part_is_named_and_nothing_is_written() {
    let folder = Folder::new();
    let good = "part 0 from byte 0: 152 bytes, accepted\n";
    for (part, number, place, cause) in [
        (with(C.to_vec(), 0, 2), 2, 0, "version neither 1 nor 3"),
        (with(row_h(), 56, 9), 6, 56, "location kind not 1 to 5"),
        (
            vec![3],
            1,
            0,
            "section under 16 or over 16,777,216 bytes, or listing over 33,554,432 bytes",
        ),
        (
            row_h()[..151].to_vec(),
            4,
            40,
            "a function, constant or record isn't wholly inside",
        ),
    ] {
        folder.put("all", [row_h(), part].concat());
        let ran = folder.run(["cut", "all", "--into", "parts"]);
        let found = ran.refused(number, place, &format!("all: {cause}"));
        assert!(found.starts_with("part 1 from byte 152"), "{found}");
        assert_eq!(ran.text(), good);
        assert_eq!(folder.names(), ["all"]);
    }
}

#[test]
fn an_empty_file_has_no_part() {
    let folder = Folder::new();
    folder.put("empty", []);
    let ran = folder.run(["cut", "empty"]);
    let cause = "section under 16 or over 16,777,216 bytes, or listing over 33,554,432 bytes";
    let found = ran.refused(1, 0, &format!("empty: {cause}"));
    assert_eq!(found, "part 0 from byte 0: it has 0 bytes");
    assert_eq!(ran.text(), "");
}

#[test]
fn no_file_is_written_over() {
    let folder = Folder::new();
    folder.put("all", [row_h(), C.to_vec()].concat());
    fs::create_dir(folder.at("parts")).unwrap();
    folder.put("parts/part-1.section", "mine");
    let ran = folder.run(["cut", "all", "--into", "parts"]);
    assert!(
        ran.err
            .contains("parts: cannot be made: it is there and not empty"),
        "{}",
        ran.err
    );
    assert_eq!(ran.status, Some(2));
    assert_eq!(folder.get("parts/part-1.section"), b"mine");
    assert_eq!(fs::read_dir(folder.at("parts")).unwrap().count(), 1);
    fs::remove_file(folder.at("parts/part-1.section")).unwrap();
    assert_eq!(
        folder.run(["cut", "all", "--into", "parts"]).status,
        Some(0)
    );
    assert_eq!(folder.get("parts/part-1.section"), C);
}

#[test]
fn folders_that_cannot_be() {
    let folder = Folder::new();
    folder.put("all", C);
    for into in ["missing/parts", "all", "all/parts"] {
        let ran = folder.run(["cut", "all", "--into", into]);
        assert!(
            ran.err
                .starts_with(&format!("treskibben: {into}: cannot be made: ")),
            "{}",
            ran.err
        );
        assert_eq!(ran.status, Some(2));
    }
    let mut command = folder.shell("ulimit -f 0");
    let ran = Ran::of(command.args(["cut", "all", "--into", "parts"]));
    assert!(
        ran.err.contains("cannot be written: File too large"),
        "{}",
        ran.err
    );
    assert_eq!(ran.status, Some(2));
    assert_eq!(folder.names(), ["all"]);
}

/// The file is longer than a section may be; each of its maps is not.
#[test]
fn many_maps_may_be_longer_than_one() {
    let folder = Folder::new();
    let maps = [
        of_constants(16_777_216, 1),
        row_h(),
        of_constants(9_000_000, 2),
        of_constants(16_777_208, 3),
        C.to_vec(),
    ];
    folder.put("all", maps.concat());
    let mut first = 0;
    let mut lines = String::new();
    for (number, map) in maps.iter().enumerate() {
        let length = map.len();
        lines += &format!("part {number} from byte {first}: {length} bytes, accepted\n");
        first += length;
    }
    folder.run(["cut", "all", "--into", "parts"]).done(&lines);
    for (number, map) in maps.iter().enumerate() {
        let part = folder.get(&format!("parts/part-{number}.section"));
        assert!(part == *map, "part {number}");
    }
}

/// A map that is longer than a section may be is refused as such, whatever comes after it.
#[test]
fn a_part_over_the_limit() {
    let folder = Folder::new();
    folder.put("all", [C.to_vec(), of_constants(16_777_224, 1)].concat());
    let ran = folder.run(["cut", "all"]);
    assert!(
        ran.err.starts_with("all: refused 1 at 0: ") && ran.err.contains("; part 1 from byte 16: "),
        "{}",
        ran.err
    );
    let head = &of_constants(16_777_224, 0)[..16];
    folder.put_sparse("huge", head, 1 << 42);
    let mut command = folder.shell("ulimit -v 262144");
    let ran = Ran::of(command.args(["cut", "huge"]));
    assert!(
        ran.err.starts_with("huge: refused 1 at 0: ") && ran.err.contains("; part 0 from byte 0: "),
        "{}",
        ran.err
    );
    folder.put_sparse("zeros", &C, 1 << 42);
    let mut command = folder.shell("ulimit -v 262144");
    let ran = Ran::of(command.args(["cut", "zeros"]));
    let found = ran.refused(2, 0, "zeros: version neither 1 nor 3");
    assert_eq!(found, "part 1 from byte 16: its first byte is 0");
}

#[test]
fn many_small_maps() {
    let folder = Folder::new();
    folder.put("all", C.repeat(200_000));
    let ran = folder.run(["cut", "all"]);
    assert_eq!((ran.status, ran.text().lines().count()), (Some(0), 200_000));
    let last = "part 199999 from byte 3199984: 16 bytes, accepted";
    assert_eq!(ran.text().lines().last(), Some(last));
}

#[test]
fn wrong_calls_of_cut() {
    let folder = Folder::new();
    folder.run(["cut"]).failed("", "<FILE>");
    folder
        .run(["cut", "missing"])
        .failed("missing: cannot be read: ", "No such file");
    folder
        .run(["cut", "."])
        .failed(".: cannot be read: ", "directory");
    let ran = folder.run(["cut", "/dev/null", "--into", "parts"]);
    ran.failed("/dev/null: cannot be cut: ", "regular");
}
