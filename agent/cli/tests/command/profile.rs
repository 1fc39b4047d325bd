//! The bench controller's profile: `check --profile bench` and `restore --profile bench`.

use crate::fixtures::{constant, location, one_function, row_h, rsp, statepoint, with, C};
use crate::restore::Restore;
use crate::run::{sample, Folder, Ran};
use crate::scenes;
use generator::frames::bench::{breach, break_by, scene, Breach};
use generator::layout::{Function, LiveOut, Location, Record, Section};
use generator::{Rng, Version};
use serde_json::{json, Value};

const OUTSIDE: &str = "s: outside the bench controller's profile";

/// So many statepoints of one pair, four bytes apart.
fn records(count: u32) -> Vec<Record> {
    let record = |nth: u32| statepoint(4 * nth, &[[rsp(8), rsp(8)]]);
    (0..count).map(record).collect()
}

/// A section with these records.
fn of(records: Vec<Record>) -> Section {
    one_function(24, records)
}

/// What the check says of a section that is outside, at this record.
#[track_caller]
fn outside(section: &Section, place: u64) -> String {
    let folder = Folder::new();
    folder.put("s", section.encode());
    folder.run(["check", "s"]).done("s: accepted\n");
    let ran = folder.run(["check", "--profile", "bench", "s"]);
    assert_eq!(ran.text(), "");
    ran.refused(50, place, OUTSIDE).to_string()
}

#[track_caller]
fn inside(section: &Section) {
    let folder = Folder::new();
    folder.put("s", section.encode());
    let ran = folder.run(["check", "--profile", "bench", "s"]);
    ran.done("s: accepted, profile bench\n");
}

/// A pair of registers.
fn registers(one: u16, other: u16) -> [Location; 2] {
    [one, other].map(|register| location(1, 8, register, 0))
}

#[test]
fn what_it_takes() {
    inside(&of(vec![]));
    inside(&of(records(64)));
    let null = [constant(0), constant(0)];
    let wide = |pointers: u16| [0, 8].map(|offset| location(3, 8 * pointers, 7, offset));
    for pairs in [
        vec![],
        vec![null.clone(); 16],
        vec![wide(16)],
        vec![wide(12), null, registers(3, 15), registers(0, 5), wide(1)],
    ] {
        inside(&of(vec![statepoint(0, &pairs)]));
    }
    // Slots outside the extent, and unknown stack sizes, are a frame's matter.
    inside(&of(vec![statepoint(0, &[[rsp(-8), rsp(1000)]])]));
    inside(&one_function(u64::MAX, records(1)));
}

#[test]
fn the_version() {
    let folder = Folder::new();
    folder.put("s", std::fs::read(sample("h-version-1.section")).unwrap());
    let ran = folder.run(["check", "--profile", "bench", "s"]);
    let found = ran.refused(50, 0, OUTSIDE);
    assert_eq!(found, "it is of version 1, and the profile takes version 3");
}

#[test]
fn too_many_records() {
    let found = outside(&of(records(65)), 64);
    assert_eq!(found, "record 64 at 0x1100: the profile takes 64 records");
}

#[test]
fn no_statepoint() {
    let mut records = records(3);
    records[1].live_outs.push(LiveOut {
        register: 3,
        size: 8,
    });
    let found = outside(&of(records), 1);
    assert_eq!(found, "record 1 at 0x1004: it is not a statepoint");
}

#[test]
fn pairs_of_wrong_form() {
    for (pair, what) in [
        (registers(3, 7), "a machine's pointer"),
        (registers(3, 16), "no register of x86-64"),
        ([rsp(8), location(3, 16, 7, 8)], "unequal sizes"),
        ([rsp(8), location(3, 8, 31, 8)], "a register of aarch64"),
        ([rsp(8), location(2, 8, 7, 8)], "an address"),
        ([constant(0), constant(1)], "half null"),
        ([location(1, 8, 3, 4), rsp(8)], "an offset of a register"),
        (
            [0, 8].map(|offset| location(3, 4, 7, offset)),
            "half a pointer",
        ),
        (
            [0, 8].map(|offset| location(3, 2_056, 7, offset)),
            "257 pointers",
        ),
    ] {
        let pairs = [[rsp(8), rsp(8)], pair];
        let found = outside(&of(vec![statepoint(0x20, &pairs)]), 0);
        let words = "record 0 at 0x1020: pair 1 is of wrong form, as 18 says";
        assert_eq!(found, words, "{what}");
    }
}

#[test]
fn too_many_pointers() {
    let many = vec![[rsp(8), rsp(8)]; 17];
    let found = outside(&of(vec![statepoint(0x20, &many)]), 0);
    let words = "record 0 at 0x1020: it has 17 pointers, and the profile takes 16";
    assert_eq!(found, words);
    let wide = [0, 8].map(|offset| location(3, 2_048, 7, offset));
    let found = outside(&of(vec![statepoint(0x20, &[[rsp(8), rsp(8)], wide])]), 0);
    assert!(found.contains(": it has 257 pointers, "), "{found}");
}

#[test]
fn addresses_that_do_not_rise() {
    for (offset, address) in [(0, "0x1000"), (8, "0x1008")] {
        let mut order = records(3);
        order[1].offset = 8;
        order[2].offset = offset;
        let found = outside(&of(order), 2);
        let words = "its address is not above 0x1008, that of record 1";
        assert_eq!(found, format!("record 2 at {address}: {words}"));
    }
}

/// The first record with any breach is named, with all that is wrong with it.
#[test]
fn several_at_once() {
    let mut all = records(65);
    all[64].offset = 0;
    all[64].locations.clear();
    let found = outside(&of(all), 64);
    let words = "record 64 at 0x1000: the profile takes 64 records; \
        its address is not above 0x10fc, that of record 63; it is not a statepoint";
    assert_eq!(found, words);
    let mut all = records(70);
    all[40].locations.clear();
    all[41].offset = 0;
    assert_eq!(
        outside(&of(all), 40),
        "record 40 at 0x10a0: it is not a statepoint"
    );
}

/// Addresses rise over the functions too.
#[test]
fn two_functions() {
    let function = |address: u64| Function {
        address,
        stack_size: 24,
        record_count: 1,
    };
    let section = |first: u64, second: u64| Section {
        functions: vec![function(first), function(second)],
        records: [records(1), records(1)].concat(),
        ..Section::default()
    };
    inside(&section(0x1000, 0x2000));
    let found = outside(&section(0x2000, 0x1000), 1);
    let words = "record 1 at 0x1000: its address is not above 0x2000, that of record 0";
    assert_eq!(found, words);
}

/// A section's own refusal comes first, and the worst answer is the status.
#[test]
fn several_files() {
    let folder = Folder::new();
    folder.put("good", row_h());
    folder.put("c", C);
    folder.put("bad", with(row_h(), 0, 4));
    folder.put("s", of(records(65)).encode());
    let ran = folder.run(["check", "--profile", "bench", "good", "bad", "s", "c"]);
    let accepted = "good: accepted, profile bench\nc: accepted, profile bench\n";
    assert_eq!((ran.text(), ran.status), (accepted, Some(1)));
    let lines: Vec<&str> = ran.err.lines().collect();
    assert!(lines[0].starts_with("bad: refused 2 at 0: version neither 1 nor 3; "));
    assert!(lines[1].starts_with("s: refused 50 at 64: "), "{}", ran.err);
    let ran = folder.run(["check", "--profile", "bench", "--json", "good", "s"]);
    let objects: Vec<Value> = ran
        .text()
        .lines()
        .map(|line| serde_json::from_str(line).unwrap())
        .collect();
    let accepted = json!({"answer": "accepted", "file": "good", "profile": "bench"});
    let refused = json!({
        "answer": "refused", "file": "s", "number": 50, "place": 64,
        "cause": "outside the bench controller's profile",
        "found": "record 64 at 0x1100: the profile takes 64 records",
    });
    assert_eq!(objects, [accepted, refused]);
    let ran = folder.run(["check", "--profile", "desk", "good"]);
    ran.failed("", "bench");
}

/// Runs a restore of row I's form in place with these arguments.
fn restore(row: &Restore, more: &[&str]) -> (Ran, Folder) {
    let folder = Folder::new();
    row.put(&folder);
    let call = "edition make --new --store s --machine aarch64 --versions 1,3";
    assert_eq!(folder.run(call.split(' ')).status, Some(0));
    let mut command = folder.command();
    let command = row.call(&mut command).args(["--profile", "bench"]);
    (Ran::of(command.args(more)), folder)
}

#[test]
fn restores() {
    let row = Restore::row_i();
    let (ran, folder) = restore(&row, &["--trace", "t"]);
    ran.done("image: 1 frame moved, 2 pointers\nt: 1 frame recorded\n");
    let receipt: Value = serde_json::from_slice(&folder.get("image.receipt.json")).unwrap();
    assert_eq!(receipt["profile"], "bench");
    let plain = row.done("1 frame moved, 2 pointers");
    assert_eq!(folder.get("image"), plain);

    // The whole section counts, not only the frame's record.
    let mut section = of(vec![statepoint(0x20, &[[rsp(8), rsp(8)]])]);
    section.records.push(statepoint(0x20, &[]));
    section.records.push(statepoint(0x1F, &[]));
    section.functions[0].record_count = 3;
    let other = Restore {
        section: section.encode(),
        ..row.clone()
    };
    let (ran, folder) = restore(&other, &[]);
    let lines: Vec<&str> = ran.err.lines().collect();
    let words = "section: refused 50 at 1: outside the bench controller's profile; \
        record 1 at 0x1020: its address is not above 0x1020, that of record 0";
    assert_eq!(
        (ran.status, &lines[..]),
        (Some(1), &[words, "image: is as it was"][..])
    );
    assert_eq!(folder.get("image"), row.image);
}

/// 31, then 1 to 9, then 50, then 33.
#[test]
fn in_which_order() {
    let row = Restore::row_i();
    let machine = "frames: refused 50 at 0: outside the bench controller's profile; \
        the frames are of aarch64, and the profile takes x86-64";
    let first = |row: &Restore, more: &[&str]| {
        let (ran, folder) = restore(row, more);
        assert_eq!(
            (ran.status, folder.get("image")),
            (Some(1), row.image.clone())
        );
        ran.err.lines().next().unwrap().to_string()
    };
    assert_eq!(first(&row, &["--machine", "aarch64"]), machine);
    // The edition is of the machine that the frames are of, and of the other.
    assert_eq!(first(&row, &["--store", "s", "--edition", "1"]), machine);
    let by_edition = ["--store", "s", "--edition", "1", "--machine", "x86-64"];
    let said = first(&row, &by_edition);
    assert!(said.starts_with("s: refused 33 at 0: "), "{said}");
    let older = Restore {
        section: std::fs::read(sample("h-version-1.section")).unwrap(),
        frames: "0+20 0 7000\n".to_string(),
        ..row.clone()
    };
    for more in [&[][..], &["--machine", "aarch64"], &by_edition] {
        let said = first(&older, more);
        let words = "section: refused 50 at 0: outside the bench controller's profile; \
            it is of version 1, and the profile takes version 3";
        assert_eq!(said, words);
    }
    let bad = Restore {
        section: with(older.section.clone(), 1, 1),
        ..older.clone()
    };
    assert!(first(&bad, &["--machine", "aarch64"]).starts_with("section: refused 3 at 1: "));
    let unknown = ["--store", "s", "--edition", "2", "--machine", "aarch64"];
    assert!(first(&bad, &unknown).starts_with("s: refused 31 at 0: "));
}

/// Random sections that keep the profile, and ones that don't: the check names the record that the generator
/// knows, and a restore does what it does without a profile.
#[test]
fn random_sections() {
    let mut rng = Rng::part(0xBE, 0);
    let mut seen = [0; 3];
    for round in 0..120 {
        let mut scene = scene(&mut rng);
        if round % 3 != 0 {
            let way = rng.pick(&Breach::ALL);
            if way != Breach::Machine {
                break_by(&mut rng, &mut scene, way);
            }
        }
        let folder = Folder::new();
        folder.put("s", scene.section.encode());
        folder.put("image", &scene.image);
        folder.put("moves", scenes::moves(&scene.table));
        folder.put("frames", scenes::frames(&scene, &scene.stops));
        let ran = folder.run(["check", "--profile", "bench", "s"]);
        let restore = |into: &str, more: &[&str]| {
            let first = format!("{:x}", scene.first);
            let mut command = folder.command();
            command.args([
                "restore",
                "--section",
                "s",
                "--image",
                "image",
                "--first",
                &first,
            ]);
            command.args(["--moves", "moves", "--frames", "frames", "--into", into]);
            Ran::of(command.args(more))
        };
        let bench = restore("one", &["--profile", "bench"]);
        if let Some(place) = breach(&scene) {
            let found = ran.refused(50, place, OUTSIDE);
            let start = match scene.section.version {
                Version::One => "it is of version 1, ".to_string(),
                Version::Three => format!("record {place} at 0x"),
            };
            assert!(found.starts_with(&start), "{found}");
            assert!(!found.ends_with(": "), "no rule is named: {found}");
            assert_eq!(bench.err.lines().next(), ran.err.lines().next());
            assert_eq!(bench.status, Some(1));
            seen[0] += 1;
            continue;
        }
        ran.done("s: accepted, profile bench\n");
        let plain = restore("two", &[]);
        assert_eq!(
            (bench.status, plain.status),
            (Some(0), Some(0)),
            "{}",
            bench.err
        );
        for name in ["image", "frames"] {
            let [one, two] = ["one", "two"].map(|way| folder.get(&format!("{way}/{name}")));
            assert!(one == two, "{name}");
        }
        seen[1 + usize::from(scene.section.records.len() > 20)] += 1;
    }
    assert!(seen.iter().all(|count| *count >= 10), "{seen:?}");
}
