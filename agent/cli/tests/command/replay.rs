//! `replay`: a recorded restore, done once more on the old image.

mod random;
mod refusals;
mod round;

use crate::fixtures::words;
use crate::restore::{threads, Restore};
use crate::run::{Folder, Ran, PROGRAM};
use crate::trace::{answer, frame, of, row_i};
use serde_json::{json, Value};
use std::fs::File;
use std::process::{Command, Stdio};

/// Adds the arguments of a replay of the trace `t`.
fn call<'a>(row: &Restore, command: &'a mut Command) -> &'a mut Command {
    let first = format!("{:x}", row.first);
    command.args(["replay", "--section", "section", "--image", "image"]);
    command.args(["--first", &first, "--moves", "moves", "t"])
}

/// Replays a trace, with more arguments. What was read is as it was, and nothing else is there.
#[track_caller]
pub fn replay(row: &Restore, trace: &[u8], more: &[&str]) -> Ran {
    let folder = Folder::new();
    replay_in(&folder, row, trace, more)
}

/// The same in a folder that has more files.
#[track_caller]
fn replay_in(folder: &Folder, row: &Restore, trace: &[u8], more: &[&str]) -> Ran {
    row.put(folder);
    folder.put("t", trace);
    let names = folder.names();
    let ran = Ran::of(call(row, &mut folder.command()).args(more));
    assert_eq!(folder.names(), names);
    assert!(
        folder.get("image") == row.image,
        "the old image has changed"
    );
    assert!(folder.get("t") == trace, "the trace has changed");
    ran
}

/// The run tells a difference, and this of it.
#[track_caller]
fn differs(ran: &Ran, told: &str) {
    assert_eq!((ran.status, ran.err.as_str()), (Some(1), ""));
    assert_eq!(ran.text(), told);
}

/// The only object on standard output.
#[track_caller]
fn object(ran: &Ran) -> Value {
    assert_eq!((ran.text().lines().count(), ran.err.as_str()), (1, ""));
    serde_json::from_str(ran.text()).unwrap()
}

#[test]
fn the_same() {
    let row = Restore::row_i();
    replay(&row, &row_i(), &[]).done("t: same, 1 answer\n");
    replay(&row, &of(&[]), &[]).done("t: same, 0 answers\n");
    // Every refusal is an answer, and a frame may be moved again.
    let again = [frame(0, 0x1020, 7, &[(7, 0x7000)]), answer(21, 0)].concat();
    let items = [frame(0, 0x1020, 0, &[(7, 0x7000)]), answer(0, 2), again];
    replay(&row, &of(&items), &[]).done("t: same, 2 answers\n");
    let ran = replay(&row, &row_i(), &["--json"]);
    let same = json!({"answer": "same", "file": "t", "answers": 1});
    assert_eq!((object(&ran), ran.status), (same, Some(0)));
}

/// What is said of row I's frame, whose RBX holds 5 here.
fn told(recorded: &str, now: &str) -> String {
    format!(
        "t: differs in answer 0 of 1\n\
         frame 0: x86-64, address 0x1020\n  \
         registers: RBX 0x5, RSP 0x7000\n  \
         recorded: {recorded}\n  \
         now: {now}\n"
    )
}

/// Its trace with this answer.
fn answered(number: u8, value: u64) -> Vec<u8> {
    let stopped = frame(0, 0x1020, 0, &[(7, 0x7000), (3, 5)]);
    of(&[stopped, answer(number, value)])
}

/// The number and the count of an answer are compared.
#[test]
fn another_answer_than_accepted() {
    for (number, value, words) in [
        (0, 3, "accepted, 3 pointers"),
        (
            21,
            1,
            "refused 21 at 1: base neither 0 nor an old start; pair 1",
        ),
        (
            10,
            0,
            "refused 10 at 0: no record of that number or address, or no such function or offset",
        ),
        (
            200,
            2,
            "refused 200 at 2: a cause that this version has no words for",
        ),
    ] {
        let ran = replay(&Restore::row_i(), &answered(number, value), &[]);
        differs(&ran, &told(words, "accepted, 2 pointers"));
    }
}

/// Row I with a base that is 8 bytes too high, and what it is answered.
fn too_high() -> (Restore, String) {
    let mut row = Restore::row_i();
    row.image[8] = 8;
    let found = "its base slot RSP+0x8 at 0x7008 holds 0x50008; \
        the old start below it is 0x50000, 8 bytes before";
    let now = format!("refused 21 at 0: base neither 0 nor an old start; pair 0: {found}");
    (row, now)
}

/// The number and the place are.
#[test]
fn another_answer_than_refused() {
    let (row, now) = too_high();
    for (number, value, words) in [
        (0, 2, "accepted, 2 pointers"),
        (
            21,
            1,
            "refused 21 at 1: base neither 0 nor an old start; pair 1",
        ),
        (20, 0, "refused 20 at 0: collision; pair 0"),
    ] {
        let ran = replay(&row, &answered(number, value), &[]);
        differs(&ran, &told(words, &now));
    }
}

#[test]
fn a_difference_for_programs() {
    let (row, now) = too_high();
    let ran = replay(&row, &answered(0, 2), &["--json"]);
    let told = json!({
        "answer": "differs", "file": "t", "answers": 1, "item": 0,
        "frame": {
            "frame": 0, "machine": "x86-64", "address": "0x1020", "function": "0x0",
            "registers": {"RBX": "0x5", "RSP": "0x7000"},
        },
        "recorded": {"number": 0, "value": "0x2", "words": "accepted, 2 pointers"},
        "now": {"number": 21, "value": "0x0", "words": now},
    });
    assert_eq!((object(&ran), ran.status), (told, Some(1)));
}

/// What is found is told of the image that the frames before have left.
#[test]
fn a_difference_on_the_way() {
    let stopped = frame(0, 0x1020, 0, &[(7, 0x7000)]);
    let item = [stopped, answer(0, 2)].concat();
    let ran = replay(&Restore::row_i(), &of(&[item.clone(), item]), &[]);
    let told = "t: differs in answer 1 of 2\n\
        frame 1: x86-64, address 0x1020\n  \
        registers: RSP 0x7000\n  \
        recorded: accepted, 2 pointers\n  \
        now: refused 21 at 0: base neither 0 nor an old start; pair 0: its base slot RSP+0x8 at 0x7008 \
        holds 0x90000; the old start below it is 0x50000, 0x40000 bytes before\n";
    differs(&ran, told);
}

/// The trace of a thread, as the test itself works it out.
fn of_thread(frames: u64) -> Vec<Vec<u8>> {
    let item = |nth: u64| {
        let rsp = 0x7000 + 24 * nth;
        [frame(0, 0x1020, 0, &[(7, rsp)]), answer(0, 2)].concat()
    };
    (0..frames).map(item).collect()
}

/// All frames are moved, whatever differs before them.
#[test]
fn after_a_difference_the_rest_is_moved() {
    let (row, folder) = (threads::thread(20), Folder::new());
    folder.put("new", threads::moved(20));
    let with = ["--restored", "new"];
    let mut items = of_thread(20);
    let ran = replay_in(&folder, &row, &of(&items), &with);
    ran.done("t: same, 20 answers\nnew: same, 480 bytes\n");
    for nth in [17, 3] {
        *items[nth].last_mut().unwrap() = 1;
        let ran = replay_in(&folder, &row, &of(&items), &with);
        let start = format!("t: differs in answer {nth} of 20\nframe {nth}: ");
        assert!(ran.text().starts_with(&start), "{}", ran.text());
        assert!(ran.text().ends_with("\nnew: same, 480 bytes\n"));
        assert_eq!((ran.status, ran.err.as_str()), (Some(1), ""));
    }
}

#[test]
fn the_restored_image() {
    let (row, folder) = (Restore::row_i(), Folder::new());
    let moved = words(&[0xEEEE_EEEE_EEEE_EEEE, 0x90000, 0x94E20]);
    let with = ["--restored", "new"];
    folder.put("new", &moved);
    let ran = replay_in(&folder, &row, &row_i(), &with);
    ran.done("t: same, 1 answer\nnew: same, 24 bytes\n");
    let mut other = moved.clone();
    other[23] = 7;
    let byte = "byte 23, at address 0x7017, is 0x07, and the replay leaves 0x00";
    for (image, place, found) in [
        (other, Some(23), byte),
        (
            moved[..16].to_vec(),
            None,
            "it has 16 bytes, and the replay leaves 24",
        ),
        (
            vec![0; 2_000_000],
            None,
            "it has 2000000 bytes, and the replay leaves 24",
        ),
    ] {
        folder.put("new", image);
        let ran = replay_in(&folder, &row, &row_i(), &with);
        let told = format!("t: same, 1 answer\nnew: differs: {found}\n");
        assert_eq!((ran.status, ran.err.as_str()), (Some(1), ""));
        assert_eq!(ran.text(), told);
        let ran = replay_in(&folder, &row, &row_i(), &["--restored", "new", "--json"]);
        let told: Value = serde_json::from_str(ran.text().lines().last().unwrap()).unwrap();
        let mut object = json!({"answer": "other-image", "file": "new", "found": found});
        if let Some(place) = place {
            object["byte"] = json!(place);
        }
        assert_eq!((told, ran.status), (object, Some(1)));
    }
    folder.put("new", moved);
    let ran = replay_in(&folder, &row, &row_i(), &["--restored", "new", "--json"]);
    let told: Value = serde_json::from_str(ran.text().lines().last().unwrap()).unwrap();
    let same = json!({"answer": "same-image", "file": "new", "bytes": 24});
    assert_eq!((told, ran.status), (same, Some(0)));
}

#[test]
fn calls_and_files_that_are_wrong() {
    let row = Restore::row_i();
    replay(&row, &row_i(), &["--edition", "1"]).failed("", "--store");
    replay(&row, &row_i(), &["--store", "s"]).failed("", "--edition");
    replay(&row, &row_i(), &["--edition", "x", "--store", "s"]).failed("", "decimal number");
    replay(&row, &row_i(), &["t"]).failed("", "'t'");
    let ran = replay(&row, &row_i(), &["--edition", "1", "--store", "s"]);
    ran.failed("s: cannot be read: ", "No such file");
    let ran = replay(&row, &row_i(), &["--restored", "new"]);
    ran.failed("new: cannot be read: ", "No such file");
    let ran = replay(&row, &row_i(), &["--moves", "-", "--restored", "-"]);
    ran.failed("'-' stands there twice", "");
    let bad = Restore {
        moves: "1\n".to_string(),
        ..row.clone()
    };
    replay(&bad, &row_i(), &[]).failed("moves:1: 1 word", "");
    let folder = Folder::new();
    row.put(&folder);
    let ran = Ran::of(call(&row, &mut folder.command()));
    ran.failed("t: cannot be read: ", "No such file");
    folder.run(["replay", "t"]).failed("", "--section <FILE>");
}

/// Any of the files may be standard input, once.
#[test]
fn standard_input() {
    let (row, folder) = (Restore::row_i(), Folder::new());
    row.put(&folder);
    folder.put("t", row_i());
    for (own, name) in [("t", "-"), ("image", "image"), ("section", "section")] {
        let mut command = folder.command();
        command.args("replay --first 7000 --moves moves".split(' '));
        for (option, file) in [("--section", "section"), ("--image", "image")] {
            command.args([option, if file == own { "-" } else { file }]);
        }
        command.arg(if own == "t" { "-" } else { "t" });
        let file = File::open(folder.at(own)).unwrap();
        let ran = Ran::of(command.stdin(Stdio::from(file)));
        let said = if name == "-" { "-" } else { "t" };
        ran.done(&format!("{said}: same, 1 answer\n"));
    }
}

/// The status is the same whether anybody reads the answer or not; where there is nowhere to write it, it is 2.
#[test]
fn nobody_to_tell() {
    let (row, folder) = (Restore::row_i(), Folder::new());
    row.put(&folder);
    folder.put("t", row_i());
    folder.put(
        "other",
        of(&[frame(0, 0x1020, 0, &[(7, 0x7000)]), answer(0, 3)]),
    );
    let status = |trace: &str, more: &str, output: &str| {
        let call = "--section section --image image --first 7000 --moves moves";
        let line = format!(
            "{{ sleep 0.1; \"$0\" replay {call} {trace} {more}; echo $? >status; }} {output}"
        );
        let mut command = Command::new("sh");
        command.args(["-c", &line, PROGRAM]);
        Ran::of(command.current_dir(folder.path()).stdin(Stdio::null()));
        String::from_utf8(folder.get("status")).unwrap()
    };
    for more in ["", "--json", "--restored image"] {
        let same = if more == "--restored image" {
            "1\n"
        } else {
            "0\n"
        };
        assert_eq!(status("t", more, "| true"), same, "{more}");
        assert_eq!(status("other", more, "| true"), "1\n", "{more}");
        for output in [">/dev/full", ">&-"] {
            assert_eq!(status("t", more, output), "2\n", "{more}");
            assert_eq!(status("other", more, output), "2\n", "{more}");
        }
    }
}
