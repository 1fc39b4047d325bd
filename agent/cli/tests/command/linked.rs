//! Linked sections: the maps of several objects one after the other, taken as they come by `check`, `list`, `find` and
//! `report`, and named where one map is wanted.

use crate::fixtures::{one_function, row_h, statepoint, with, words, C};
use crate::list::NO_RECORD;
use crate::report::{last_object, lines, object, of_sizes, sum, OF_C, OF_H, OF_REFUSED};
use crate::run::{sample, Folder, Ran};
use serde_json::{json, Value};
use std::fs;

/// What 1, 9 and 27 say.
const NOT_THAT_LONG: &str =
    "section under 16 or over 16,777,216 bytes, or listing over 33,554,432 bytes";
const AFTER: &str = "bytes after the last record";
const OTHER_VERSION: &str =
    "question by address of version 1, or by function and offset of version 3";

/// What is said where one map is wanted, of row H and row C.
const ONE_IS_WANTED: &str =
    "16 bytes from there on: the section is linked, 2 maps one after the other: \
                             'treskibben cut --into DIR' takes the maps apart";

/// Row H of version 1.
fn older() -> Vec<u8> {
    fs::read(sample("h-version-1.section")).unwrap()
}

/// A function at an address, with a record at each of these offsets.
fn at(address: u64, offsets: &[u32]) -> Vec<u8> {
    let records = offsets.iter().map(|offset| statepoint(*offset, &[]));
    let mut section = one_function(8, records.collect());
    section.functions[0].address = address;
    section.encode()
}

/// The objects on standard output.
#[track_caller]
fn objects(ran: &Ran) -> Vec<Value> {
    let object = |line| serde_json::from_str(line).unwrap();
    ran.text().lines().map(object).collect()
}

#[test]
fn check_tells_how_many_maps_there_are() {
    let folder = Folder::new();
    folder.put("one", row_h());
    folder.put("two", [row_h(), C.to_vec()].concat());
    folder.put("versions", [row_h(), older(), row_h()].concat());
    folder.put("many", C.repeat(1_000));
    let ran = folder.run(["check", "one", "two", "versions", "many"]);
    ran.done(
        "one: accepted\ntwo: accepted, 2 maps\nversions: accepted, 3 maps\nmany: accepted, 1000 maps\n",
    );
    let ran = folder.run(["check", "--json", "one", "two"]);
    let expected = [
        r#"{"answer":"accepted","file":"one"}"#,
        r#"{"answer":"accepted","file":"two","maps":2}"#,
    ];
    assert_eq!(ran.text().lines().collect::<Vec<_>>(), expected);
}

/// The place is in the whole, and what was found tells the map and the place in it. Of the first map nothing is said
/// that isn't said of a section.
#[test]
fn a_refusal_names_the_map() {
    let folder = Folder::new();
    let (zero, kind) = (
        "a byte required to be zero isn't",
        "location kind not 1 to 5",
    );
    let whole = "a function, constant or record isn't wholly inside";
    for (maps, number, place, cause, found) in [
        (
            vec![C.to_vec(), vec![0]],
            1,
            16,
            NOT_THAT_LONG,
            "map 1 from byte 16, at 0 there: it has 1 byte",
        ),
        (
            vec![row_h(), C.to_vec(), vec![0; 16]],
            2,
            168,
            "version neither 1 nor 3",
            "map 2 from byte 168, at 0 there: its first byte is 0",
        ),
        (
            vec![row_h(), with(C.to_vec(), 3, 9)],
            3,
            155,
            zero,
            "map 1 from byte 152, at 3 there: it is 0x09",
        ),
        (
            vec![row_h(), row_h()[..151].to_vec()],
            4,
            192,
            whole,
            "map 1 from byte 152, at 40 there",
        ),
        (
            vec![older(), row_h(), with(row_h(), 56, 9), C.to_vec()],
            6,
            320,
            kind,
            "map 2 from byte 264, at 56 there: it is 0x09",
        ),
        (
            vec![with(row_h(), 56, 9), C.to_vec()],
            6,
            56,
            kind,
            "it is 0x09",
        ),
    ] {
        folder.put("bad", maps.concat());
        for call in [
            &["check", "bad"][..],
            &["list", "--text", "bad"],
            &["find", "bad", "1020"],
            &["find", "bad", "--addresses", "/dev/null"],
        ] {
            let ran = folder.run(call);
            assert_eq!(ran.refused(number, place, &format!("bad: {cause}")), found);
            assert_eq!(ran.text(), "");
        }
        let ran = folder.run(["report", "--refused", "bad"]);
        assert_eq!((ran.status, ran.text()), (Some(0), &*lines(OF_REFUSED)));
        let expected = format!("bad: refused {number} at {place}: {cause}; {found}\n");
        assert_eq!(ran.err, expected);
    }
    folder.put("bad", [row_h(), with(C.to_vec(), 3, 9)].concat());
    let ran = folder.run(["check", "--json", "bad"]);
    let expected = json!({
        "answer": "refused", "file": "bad", "map": 1, "first": 152, "number": 3, "place": 155,
        "cause": zero, "found": "map 1 from byte 152, at 3 there: it is 0x09",
    });
    assert_eq!((ran.status, objects(&ran)), (Some(1), vec![expected]));
    folder.put("bad", with(row_h(), 56, 9));
    let ran = folder.run(["check", "--json", "bad"]);
    let refused = &objects(&ran)[0];
    assert!(refused.get("map").is_none() && refused.get("first").is_none());
}

/// The longest section, which is of a great many maps, and one map more.
#[test]
fn the_longest_linked_section() {
    let folder = Folder::new();
    folder.put("all", C.repeat(1_048_576));
    folder
        .run(["check", "all"])
        .done("all: accepted, 1048576 maps\n");
    folder.put("more", C.repeat(1_048_577));
    let ran = folder.run(["check", "more"]);
    let found = ran.refused(1, 0, &format!("more: {NOT_THAT_LONG}"));
    assert_eq!(found, "it has 16777232 bytes");
}

/// The text of each map alone, under its own heading, and before them how many there are.
#[test]
fn the_text_has_a_heading_for_each_map() {
    let folder = Folder::new();
    let maps = [crate::list::rich().encode(), C.to_vec(), older()];
    let mut expected = format!("section: {} bytes, 3 maps\n", maps.concat().len());
    let mut first = 0;
    for (number, map) in maps.iter().enumerate() {
        folder.put("alone", map);
        let alone = folder.run(["list", "--text", "alone"]);
        let after = alone.text().strip_prefix("section: ").unwrap();
        expected += &format!("map {number} from byte {first}: {after}");
        first += map.len();
    }
    folder.put("all", maps.concat());
    folder.run(["list", "--text", "all"]).done(&expected);
    folder
        .run(["list", "--text", "all", "--output", "text"])
        .done("");
    assert_eq!(folder.get("text"), expected.as_bytes());
}

/// The objects of each map alone, each with the number of its map, and the section with its first byte.
#[test]
fn each_object_of_a_list_names_its_map() {
    let folder = Folder::new();
    let maps = [crate::list::rich().encode(), C.to_vec(), older()];
    let mut expected: Vec<Value> = vec![];
    let mut first = 0;
    for (number, map) in maps.iter().enumerate() {
        folder.put("all", map);
        for mut object in objects(&folder.run(["list", "--json", "all"])) {
            assert!(object.get("map").is_none());
            object["map"] = json!(number);
            if object["answer"] == "section" {
                object["first"] = json!(first);
            }
            expected.push(object);
        }
        first += map.len();
    }
    folder.put("all", maps.concat());
    let ran = folder.run(["list", "--json", "all"]);
    assert_eq!((ran.status, objects(&ran)), (Some(0), expected));
}

/// All functions of all maps at 0, and those of one map alone.
#[test]
fn functions_at_zero_are_told_of_the_whole() {
    let folder = Folder::new();
    let warned = |maps: &[Vec<u8>]| {
        folder.put("all", maps.concat());
        let ran = folder.run(["list", "--text", "all"]);
        assert_eq!(ran.status, Some(0));
        ran.err
            .contains("all: warning: all functions are at address 0")
    };
    let (zero, placed) = (at(0, &[4]), at(0x1000, &[4]));
    assert!(warned(&[zero.clone(), zero.clone()]));
    assert!(warned(&[C.to_vec(), zero.clone()]));
    assert!(!warned(&[zero.clone(), placed.clone()]));
    assert!(!warned(&[placed, zero]));
    assert!(!warned(&[C.to_vec(), C.to_vec()]));
}

/// The first record in the order of the maps, and how many of all maps share the address.
#[test]
fn an_address_is_looked_for_in_all_maps() {
    let folder = Folder::new();
    let (one, other) = (at(0x1000, &[0, 8, 8]), at(0x1008, &[0, 0x100]));
    let maps = [C.to_vec(), one.clone(), other.clone(), one];
    folder.put("all", maps.concat());
    for (address, alone, of_map, which) in [
        (
            "1008",
            1,
            "record 1 of function 0 of map 1",
            "the first of 5 records",
        ),
        (
            "1000",
            1,
            "record 0 of function 0 of map 1",
            "the first of 2 records",
        ),
        (
            "1108",
            2,
            "record 1 of function 0 of map 2",
            "the only record",
        ),
    ] {
        folder.put("alone", &maps[alone]);
        let text = folder.run(["find", "alone", address]).text().to_string();
        let (_, rest) = text.split_once('\n').unwrap();
        let expected = format!("0x{address}: {of_map}, {which} at this address\n{rest}");
        folder.run(["find", "all", address]).done(&expected);
        let mut found = objects(&folder.run(["find", "--json", "alone", address])).remove(0);
        let ran = folder.run(["find", "--json", "all", address]);
        let told = objects(&ran).remove(0);
        assert!(found.get("map").is_none());
        found["file"] = json!("all");
        found["map"] = json!(alone);
        found["sharing"] = told["sharing"].clone();
        assert_eq!((ran.status, told), (Some(0), found));
    }
    let ran = folder.run(["find", "all", "1001"]);
    let found = ran.refused(10, 0, &format!("all: {NO_RECORD}"));
    assert_eq!(found, "no record at address 0x1001");
}

/// A list of addresses: each with its map, and the nearest record of all maps where none has it; of two, the lower.
#[test]
fn many_addresses_are_looked_for_in_all_maps() {
    let folder = Folder::new();
    let maps = [
        at(0x2000, &[0x10]),
        C.to_vec(),
        at(0x1000, &[0, 0x1010]),
        at(0x1000, &[0x20]),
    ];
    folder.put("all", maps.concat());
    folder.put(
        "list",
        "2010\n\n1020 # one\n2018\n2010\n1011\n1010\nffffffffffffffff\n",
    );
    let ran = folder.run(["find", "all", "--addresses", "list"]);
    let shared =
        "0x2010: record 0 of function 0 of map 0, the first of 2 records at this address\n";
    let only = "0x1020: record 0 of function 0 of map 3, the only record at this address\n";
    assert_eq!(ran.text(), [shared, only, shared].concat());
    let line = |line: u64, address: &str, near: &str| {
        format!(
            "list:{line}: refused 10 at 0: {NO_RECORD}; no record at address {address}: the nearest is {near}\n"
        )
    };
    let expected = [
        line(
            4,
            "0x2018",
            "record 0 of function 0 of map 0 at 0x2010, 8 bytes below",
        ),
        line(
            6,
            "0x1011",
            "record 0 of function 0 of map 3 at 0x1020, 15 bytes above",
        ),
        line(
            7,
            "0x1010",
            "record 0 of function 0 of map 2 at 0x1000, 16 bytes below",
        ),
        line(
            8,
            "0xffffffffffffffff",
            "record 0 of function 0 of map 0 at 0x2010, 18446744073709543407 bytes below",
        ),
    ];
    assert_eq!((ran.status, ran.err), (Some(1), expected.concat()));
    folder.put("list", "2010\n2011\n");
    let ran = folder.run(["find", "all", "--addresses", "list", "--json"]);
    let near = "no record at address 0x2011: the nearest is record 0 of function 0 of map 0 at 0x2010, 1 byte below";
    let expected = [
        json!({"answer": "located", "file": "all", "line": 1, "asked": "0x2010", "map": 0, "record": 0,
               "function": 0, "sharing": 2}),
        json!({"answer": "refused", "file": "list", "line": 2, "number": 10, "place": 0, "cause": NO_RECORD,
               "found": near}),
    ];
    assert_eq!((ran.status, objects(&ran)), (Some(1), expected.to_vec()));
    folder.put("all", C.repeat(2));
    let ran = folder.run(["find", "all", "--addresses", "list"]);
    assert!(ran
        .err
        .ends_with("no record at address 0x2011: the section has no records\n"));
}

/// 27 at the first map of version 1, for one address, for several and for none.
#[test]
fn a_map_of_version_1_is_named() {
    let folder = Folder::new();
    folder.put("all", [row_h(), C.to_vec(), older(), older()].concat());
    folder.put("list", "1020\n");
    let expected =
        "map 2 from byte 168 is of version 1: 'treskibben cut --into DIR' takes the maps apart";
    for asked in [
        &["1020"][..],
        &["5"],
        &["--addresses", "list"],
        &["--addresses", "/dev/null"],
    ] {
        let ran = folder.run([&["find", "all"], asked].concat());
        assert_eq!(
            ran.refused(27, 168, &format!("all: {OTHER_VERSION}")),
            expected
        );
        assert_eq!(ran.text(), "");
    }
    let ran = folder.run(["find", "all", "1020", "--json"]);
    let told = &objects(&ran)[0];
    assert_eq!((&told["map"], &told["first"]), (&json!(2), &json!(168)));
    // One map is told as always.
    folder.put("all", older());
    let ran = folder.run(["find", "all", "1020"]);
    assert_eq!(ran.refused(27, 0, &format!("all: {OTHER_VERSION}")), "");
}

/// Each map of a file is a section of the report; a refused one makes the file one refused section.
#[test]
fn each_map_counts_as_a_section() {
    let folder = Folder::new();
    folder.put("two", [row_h(), C.to_vec()].concat());
    folder.put("h", row_h());
    folder.put("bad", [row_h(), row_h(), with(C.to_vec(), 3, 9)].concat());
    let totals = sum(&[OF_H, OF_C, OF_REFUSED, OF_H]);
    for threads in ["1", "3"] {
        let call = ["report", "two", "bad", "h", "--threads", threads];
        folder.run(call).done(&lines(totals));
    }
    let ran = folder.run(["report", "--json", "two", "bad", "h"]);
    assert_eq!(last_object(&ran)["totals"], object(totals));
    // In parts it is the same.
    folder.run(["cut", "two", "--into", "parts"]).done(
        "part 0 from byte 0: 152 bytes, accepted\npart 1 from byte 152: 16 bytes, accepted\n",
    );
    folder
        .run(["report", "parts"])
        .done(&lines(sum(&[OF_H, OF_C])));
}

/// The position of 34 is that of the map, counted over all files.
#[test]
fn a_map_that_passes_is_told_at_its_position() {
    let folder = Folder::new();
    folder.put("two", [row_h(), C.to_vec()].concat());
    folder.put(
        "large",
        [C.to_vec(), of_sizes(&[u64::MAX - 30]), row_h()].concat(),
    );
    folder.put("deep", [C.to_vec(), of_sizes(&[1 << 63, 1 << 63])].concat());
    let cause = "a total of the report would pass 2^64 - 1";
    for threads in ["1", "2"] {
        let ran = folder.run(["report", "two", "large", "two", "--threads", threads]);
        let found = ran.refused(34, 4, &format!("large: {cause}"));
        let passes = "stack is 18446744073709551609 before, and 24 more are to be added";
        assert_eq!((found, ran.text()), (&*format!("map 2: {passes}"), ""));
        let ran = folder.run(["report", "two", "deep", "two", "--threads", threads]);
        let found = ran.refused(34, 3, &format!("deep: {cause}"));
        assert_eq!(
            found,
            "map 1: the known stack sizes of this section alone pass it"
        );
    }
}

/// Where one map is wanted, 9 says that the section is linked, and what takes it apart.
#[test]
fn where_one_map_is_wanted_that_is_said() {
    let folder = Folder::new();
    folder.put("two", [row_h(), C.to_vec()].concat());
    folder.put("kept", words(&[0x1020, 0]));
    for call in [
        &["list", "two"][..],
        &["index", "two"],
        &["check", "--profile", "bench", "two"],
        &["find", "two", "0+20"],
        &["find", "two", "1020", "--index", "kept"],
        &["find", "two", "--addresses", "/dev/null", "--index", "kept"],
    ] {
        let ran = folder.run(call);
        assert_eq!(ran.refused(9, 152, &format!("two: {AFTER}")), ONE_IS_WANTED);
        assert_eq!(ran.out, b"");
    }
    // What comes after the first map is none.
    folder.put("two", [row_h(), vec![0; 3]].concat());
    let ran = folder.run(["index", "two"]);
    let found = ran.refused(9, 152, &format!("two: {AFTER}"));
    assert_eq!(
        found,
        "3 bytes from there on, where no map begins: 'treskibben check' says why"
    );
}

/// A restore and an explanation tell how the frames of several maps are moved.
#[test]
fn a_restore_tells_how_it_goes_on() {
    let folder = Folder::new();
    folder.put("two", [row_h(), C.to_vec()].concat());
    for name in ["i.image", "i.moves", "i.frames"] {
        folder.put(name, fs::read(sample(name)).unwrap());
    }
    let given = ["--section", "two", "--image", "i.image", "--first", "7000"];
    let lists = ["--moves", "i.moves", "--frames", "i.frames"];
    let call = |command: &'static str, more: &[&'static str]| {
        folder.run([&[command], &given[..], &lists, more].concat())
    };
    let way = "the frames of each map have a call of their own, a restore on the image of the one before with --again";
    for ran in [call("explain", &[]), call("restore", &["--dry-run"])] {
        let start = format!("two: refused 9 at 152: {AFTER}; {ONE_IS_WANTED}; {way}\n");
        assert!(ran.err.starts_with(&start), "{}", ran.err);
        assert_eq!((ran.status, ran.text()), (Some(1), ""));
    }
    folder.put("two", [row_h(), vec![0; 3]].concat());
    let ran = call("explain", &[]);
    assert!(
        ran.err
            .ends_with("where no map begins: 'treskibben check' says why\n"),
        "{}",
        ran.err
    );
}
