//! What a frame is answered now where it is refused, in words; and what a replay itself is refused by.

use super::{replay, replay_in};
use crate::fixtures::{location, of_pairs, row_h, rsp, with};
use crate::restore::Restore;
use crate::run::{sample, Folder};
use crate::trace::{answer, frame, of, row_i};

/// What the frame of row I is answered now, which was recorded as accepted.
#[track_caller]
fn now(row: &Restore, more: &[&str]) -> String {
    of_ran(&replay(row, &row_i(), more))
}

/// What a run says that the frame is answered now.
#[track_caller]
fn of_ran(ran: &crate::run::Ran) -> String {
    assert_eq!(
        (ran.status, ran.err.as_str()),
        (Some(1), ""),
        "{}",
        ran.text()
    );
    let recorded = "\n  recorded: accepted, 2 pointers\n";
    assert!(ran.text().contains(recorded), "{}", ran.text());
    let now = ran.text().split_once("\n  now: ").unwrap().1;
    now.trim_end().to_string()
}

#[test]
fn what_all_frames_share() {
    let row = Restore::row_i();
    let of = |section: Vec<u8>| Restore {
        section,
        ..row.clone()
    };
    let said = now(&of(with(row_h(), 0, 4)), &[]);
    assert_eq!(
        said,
        "refused 2 at 0: version neither 1 nor 3; section: its first byte is 4"
    );
    let said = now(&of(with(row_h(), 56, 9)), &[]);
    assert_eq!(
        said,
        "refused 6 at 56: location kind not 1 to 5; section: it is 0x09"
    );
    let far = Restore {
        first: u64::MAX - 3,
        ..row.clone()
    };
    let said = now(&far, &[]);
    assert!(said.starts_with("refused 13 at 0: image over 1,048,576 bytes, "));
    assert!(
        said.ends_with("; image: 24 bytes from 0xfffffffffffffffc on"),
        "{said}"
    );
    let wrong = Restore {
        moves: "50000 90000\n50000 1\n".to_string(),
        ..row.clone()
    };
    let said = now(&wrong, &[]);
    assert!(said.starts_with("refused 14 at 0: lists unequal, "));
    let line = "; moves:2: old start 0x50000 is not above 0x50000 of line 1";
    assert!(said.ends_with(line), "{said}");
}

#[test]
fn a_frame_s_own() {
    let row = Restore::row_i();
    let moved_away = Restore {
        section: with(row_h(), 17, 0x20),
        ..row.clone()
    };
    let said = now(&moved_away, &[]);
    assert!(said.starts_with("refused 10 at 0: no record of that number or address, "));
    assert!(said.ends_with("; no record at address 0x1020"), "{said}");
    let short = Restore {
        image: row.image[..16].to_vec(),
        ..row.clone()
    };
    let said = now(&short, &[]);
    let found = "; extent 0x7000 to 0x7018, image 0x7000 to 0x7010";
    assert!(
        said.starts_with("refused 16 at 0: ") && said.ends_with(found),
        "{said}"
    );
    for (pairs, said) in [
        (
            [[rsp(8), rsp(8)], [rsp(8), location(3, 8, 3, 16)]],
            "refused 18 at 1: pair of wrong form; pair 1: base Indirect [RSP + 8], size 8; \
             derived Indirect [RBX + 16], size 8",
        ),
        (
            [[rsp(8), rsp(8)], [rsp(8), rsp(17)]],
            "refused 19 at 1: a slot not wholly inside the extent; pair 1: its derived slot RSP+0x11 at 0x7011 \
             is not inside the extent 0x7000 to 0x7018",
        ),
        (
            [[rsp(8), rsp(8)], [rsp(8), rsp(12)]],
            "refused 20 at 1: collision; pair 1: its derived slot RSP+0xc at 0x700c shares bytes with the base \
             slot RSP+0x8 at 0x7008 of pair 0",
        ),
    ] {
        let row = Restore {
            section: of_pairs(24, &pairs),
            ..row.clone()
        };
        assert_eq!(now(&row, &[]), said);
    }
    let joined = now(&row, &["--moves", "moves"]);
    let said = "refused 21 at 0: base neither 0 nor an old start; pair 0, by the joined table: ";
    assert!(joined.starts_with(said), "{joined}");
}

/// A section of version 1: the frame is named by function and offset.
#[test]
fn version_1() {
    let row = Restore {
        section: std::fs::read(sample("h-version-1.section")).unwrap(),
        ..Restore::row_i()
    };
    let trace = |function: u64| of(&[frame(0, 0x20, function, &[(7, 0x7000)]), answer(0, 2)]);
    replay(&row, &trace(0), &[]).done("t: same, 1 answer\n");
    let ran = replay(&row, &trace(4), &[]);
    let told = "t: differs in answer 0 of 1\nframe 0: x86-64, function 4, offset 0x20\n";
    assert!(ran.text().starts_with(told), "{}", ran.text());
    let found = "; no function 4: the section has 1 function";
    assert!(of_ran(&ran).ends_with(found), "{}", ran.text());
}

/// Editions 1 (x86-64, version 3, one pointer), 2 (aarch64), 3 (retired), 4 (all of x86-64).
fn store(folder: &Folder) {
    let make = |more: &str| {
        let call = format!("edition make --store s --versions {more}");
        assert_eq!(folder.run(call.split(' ')).status, Some(0), "{call}");
    };
    make("3 --machine x86-64 --pointers 1 --new");
    make("1,3 --machine aarch64");
    make("1,3 --machine x86-64");
    folder
        .run("edition retire --store s 3".split(' '))
        .done("s: edition 3 retired\n");
    make("1,3 --machine x86-64");
}

#[test]
fn by_an_edition() {
    let (row, folder) = (Restore::row_i(), Folder::new());
    store(&folder);
    let by = |edition: &str, row: &Restore, trace: &[u8]| {
        replay_in(&folder, row, trace, &["--store", "s", "--edition", edition])
    };
    by("4", &row, &row_i()).done("t: same, 1 answer\n");
    let said = of_ran(&by("1", &row, &row_i()));
    assert_eq!(
        said,
        "refused 17 at 0: over 256 pointers; 2 pointers; edition 1 allows at most 1 pointer, x86-64, version 3"
    );
    let said = of_ran(&by("2", &row, &row_i()));
    assert!(said.starts_with("refused 33 at 0: version or machine not allowed; s: edition 2 "));
    assert!(
        said.ends_with("aarch64, versions 1 and 3; the frames are of x86-64"),
        "{said}"
    );
    for (edition, found) in [
        ("3", "; s: edition 3 was retired; live are "),
        (
            "9",
            "; s: edition 9 was never made: the greatest number is 4; live are ",
        ),
    ] {
        let said = of_ran(&by(edition, &row, &row_i()));
        assert!(said.starts_with("refused 31 at 0: edition unknown or retired; "));
        assert!(said.contains(found), "{said}");
    }
    let older = Restore {
        section: std::fs::read(sample("h-version-1.section")).unwrap(),
        ..row.clone()
    };
    let said = of_ran(&by("1", &older, &row_i()));
    assert!(said.ends_with("; the section is of version 1"), "{said}");
    // 31 is an answer too, and nothing else.
    let unknown = of(&[frame(0, 0x1020, 0, &[(7, 0x7000)]), answer(31, 0)]);
    by("9", &row, &unknown).done("t: same, 1 answer\n");
    by("9", &row, &of(&[])).done("t: same, 0 answers\n");
}

/// Without an edition the machine is that of the first frame, and 33 is the answer of the other's.
#[test]
fn both_machines() {
    let row = Restore::row_i();
    let on = |machine: u8, sp: usize| frame(machine, 0x1020, 0, &[(sp, 0x7000)]);
    let items = [on(0, 7), answer(0, 2), on(1, 31), answer(33, 0)];
    replay(&row, &of(&items), &[]).done("t: same, 2 answers\n");
    let items = [on(1, 31), answer(18, 0), on(0, 7), answer(0, 2)];
    let ran = replay(&row, &of(&items), &[]);
    let now = of_ran(&ran);
    assert!(ran
        .text()
        .starts_with("t: differs in answer 1 of 2\nframe 1: x86-64, "));
    let found = "; section: no edition is named, which allows at most 256 pointers, aarch64, \
        versions 1 and 3; the frames are of x86-64";
    assert!(
        now.starts_with("refused 33 at 0: ") && now.ends_with(found),
        "{now}"
    );
}

/// 35 comes before 31 and all that is wrong with the other files.
#[test]
fn a_broken_trace() {
    let folder = Folder::new();
    store(&folder);
    let row = Restore {
        section: vec![9; 3],
        moves: "0 0\n".to_string(),
        ..Restore::row_i()
    };
    let mut trace = row_i();
    trace.pop();
    let more = ["--store", "s", "--edition", "9"];
    let ran = replay_in(&folder, &row, &trace, &more);
    let found = ran.refused(35, 284, "t: trace breaks its grammar");
    assert_eq!(found, "it ends there, where a frame or the end is due");
    assert_eq!(ran.text(), "");
    let ran = replay(&row, &[7], &["--json"]);
    let told: serde_json::Value = serde_json::from_str(ran.text()).unwrap();
    assert_eq!(
        (told["answer"].as_str(), ran.status),
        (Some("refused"), Some(1))
    );
    assert_eq!((&told["number"], &told["place"]), (&35.into(), &0.into()));
}
