//! Pointers in registers: what the lines of frames tell, the folder that holds image and registers of one
//! moment, and what is refused where they could come apart.

mod ended;
mod receipts;

use super::Restore;
use crate::fixtures::{location, of_pairs, rsp, words};
use crate::run::{Folder, Ran};
use generator::layout::Location;
use serde_json::{json, Value};
use std::fs;
use std::io::Write;
use std::os::unix::fs::PermissionsExt;
use std::process::Stdio;

/// What is in a folder that a restore has made, and what is beside it.
pub const MADE: [&str; 3] = ["frames", "image", "image.receipt.json"];
pub const WITH_NEW: [&str; 5] = ["frames", "image", "moves", "new", "section"];
const SAYS: &str = "new: 1 frame moved, 2 pointers, 1 register changed\n";

/// A slot in a register.
pub fn register(number: u16) -> Location {
    location(1, 8, number, 0)
}

/// Row I with its base in RBX: the pairs (RBX, RBX) and (RBX, RSP+16).
pub fn in_rbx() -> Restore {
    Restore {
        section: of_pairs(24, &[[register(3), register(3)], [register(3), rsp(16)]]),
        frames: "1020 0 7000 rbx=50000\n".to_string(),
        ..Restore::row_i()
    }
}

/// Runs a restore into the folder `new`.
pub fn into(row: &Restore, folder: &Folder, more: &[&str]) -> Ran {
    let mut command = folder.command();
    Ran::of(row.inputs(&mut command).args(["--into", "new"]).args(more))
}

/// The names in a folder that a restore has made.
pub fn made(folder: &Folder) -> Vec<String> {
    let entries = fs::read_dir(folder.at("new")).unwrap();
    let name = |entry: std::io::Result<fs::DirEntry>| entry.unwrap().file_name();
    let mut names: Vec<String> = entries
        .map(|entry| name(entry).into_string().unwrap())
        .collect();
    names.sort();
    names
}

/// The frames and the image of a folder that a restore has made.
fn after(folder: &Folder) -> (String, Vec<u8>) {
    let frames = String::from_utf8(folder.get("new/frames")).unwrap();
    (frames, folder.get("new/image"))
}

const HEAD: &str = "# The frames after the move: ADDRESS RBP RSP REGISTER=VALUE..\n";

#[test]
fn image_and_registers_are_written_together() {
    let (row, folder) = (in_rbx(), Folder::new());
    row.put(&folder);
    into(&row, &folder, &[]).done(SAYS);
    assert_eq!(
        (folder.names(), made(&folder)),
        (
            WITH_NEW.map(String::from).to_vec(),
            MADE.map(String::from).to_vec()
        )
    );
    let (frames, image) = after(&folder);
    assert_eq!(frames, format!("{HEAD}0x1020 0x0 0x7000 rbx=0x90000\n"));
    assert_eq!(image, words(&[0xEEEE_EEEE_EEEE_EEEE, 0x50000, 0x94E20]));
    assert_eq!(
        (folder.get("image"), folder.get("frames")),
        (row.image, row.frames.into_bytes())
    );
}

/// An empty folder is filled; nothing is written over.
#[test]
fn the_folder_is_new_or_empty() {
    let (row, folder) = (in_rbx(), Folder::new());
    row.put(&folder);
    fs::create_dir(folder.at("new")).unwrap();
    fs::set_permissions(folder.at("new"), fs::Permissions::from_mode(0o750)).unwrap();
    into(&row, &folder, &[]).done(SAYS);
    let mode = fs::metadata(folder.at("new")).unwrap().permissions().mode();
    assert_eq!((mode & 0o7777, made(&folder).len()), (0o750, 3));
    let there = "it is there and not empty, and no file is written over";
    into(&row, &folder, &[]).failed("new: cannot be made: ", there);
    fs::remove_dir_all(folder.at("new")).unwrap();
    folder.put("new", "a file");
    into(&row, &folder, &[]).failed("new: cannot be made: ", "");
    assert_eq!(folder.get("new"), b"a file");
    let ran = Ran::of(
        row.inputs(&mut folder.command())
            .args(["--into", "none/new"]),
    );
    ran.failed("none/new: cannot be made: ", "No such file");
}

/// Image and frames may be read by those who may read the old image; of a pipe, by nobody else.
#[test]
fn permissions_are_those_of_the_image() {
    let (row, folder) = (in_rbx(), Folder::new());
    row.put(&folder);
    fs::set_permissions(folder.at("image"), fs::Permissions::from_mode(0o640)).unwrap();
    into(&row, &folder, &[]).done(SAYS);
    let mode = |name: &str| {
        let there = fs::metadata(folder.at(name)).unwrap();
        there.permissions().mode() & 0o7777
    };
    assert_eq!((mode("new/image"), mode("new/frames")), (0o640, 0o640));
    fs::remove_dir_all(folder.at("new")).unwrap();
    let mut command = folder.shell("umask 0");
    command.args("restore --section section --image - --first 7000".split(' '));
    command.args("--moves moves --frames frames --into new".split(' '));
    let command = command.stdin(Stdio::piped()).stdout(Stdio::piped());
    let mut child = command.stderr(Stdio::piped()).spawn().unwrap();
    child.stdin.take().unwrap().write_all(&row.image).unwrap();
    Ran::from(child.wait_with_output().unwrap()).done(SAYS);
    assert_eq!((mode("new/image"), mode("new/frames")), (0o600, 0o600));
    assert_eq!(mode("new/image.receipt.json"), 0o666);
}

/// A restore that moves memory alone can go into a folder too, and its frames are as they were.
#[test]
fn frames_without_registers() {
    let (row, folder) = (Restore::row_i(), Folder::new());
    row.put(&folder);
    into(&row, &folder, &[]).done("new: 1 frame moved, 2 pointers, 0 registers changed\n");
    let (frames, image) = after(&folder);
    assert_eq!(frames, format!("{HEAD}0x1020 0x0 0x7000\n"));
    assert_eq!(image[8..], words(&[0x90000, 0x94E20]));
}

/// The registers of each frame are its own, and those that no pair lists stay.
#[test]
fn threads_with_registers() {
    let (mut row, folder) = (in_rbx(), Folder::new());
    row.image.extend_from_slice(&words(&[1, 2, 0x60010]));
    row.moves = "50000 90000\n60000 30000\n".to_string();
    row.frames =
        "1020 0 7018 R12=9 rbx=60000 # the inner\n\n1020 rbx=50000 rsp=7000 rbp=5 rax=1\n".into();
    row.put(&folder);
    into(&row, &folder, &[]).done("new: 2 frames moved, 4 pointers, 2 registers changed\n");
    let (frames, image) = after(&folder);
    let lines = "0x1020 0x0 0x7018 rbx=0x30000 r12=0x9\n0x1020 0x5 0x7000 rax=0x1 rbx=0x90000\n";
    assert_eq!(frames, format!("{HEAD}{lines}"));
    assert_eq!(image[16..], words(&[0x94E20, 1, 2, 0x30010]));
}

/// The same with the registers of AArch64, the link register among them, and in version 1.
#[test]
fn the_other_machine_and_the_other_version() {
    let (mut row, folder) = (in_rbx(), Folder::new());
    let sp = |offset| location(3, 8, 31, offset);
    row.section = of_pairs(24, &[[register(30), register(30)], [register(30), sp(16)]]);
    row.frames = "1020 0 7000 x30=50000\n".to_string();
    row.put(&folder);
    let aarch64 = ["--machine", "aarch64"];
    into(&row, &folder, &aarch64).done(SAYS);
    let (frames, image) = after(&folder);
    assert!(frames.ends_with(": ADDRESS X29 SP REGISTER=VALUE..\n0x1020 0x0 0x7000 x30=0x90000\n"));
    assert_eq!(image[16..], words(&[0x94E20]));
    fs::remove_dir_all(folder.at("new")).unwrap();
    row.section = older();
    row.frames = "0+20 0 7000 rbx=50000\n".to_string();
    row.put(&folder);
    into(&row, &folder, &[]).done(SAYS);
    let (frames, _) = after(&folder);
    assert!(
        frames.ends_with("\n0+0x20 0x0 0x7000 rbx=0x90000\n"),
        "{frames}"
    );
}

/// The section of [`in_rbx`] in version 1.
fn older() -> Vec<u8> {
    let mut section = generator::layout::Section {
        version: generator::Version::One,
        ..crate::fixtures::one_function(
            24,
            vec![crate::fixtures::statepoint(
                0x20,
                &[[register(3), register(3)], [register(3), rsp(16)]],
            )],
        )
    };
    section.functions[0].record_count = 0;
    section.encode()
}

/// Without a folder nothing is written where a register would change: image and registers would be two
/// files, and could come apart.
#[test]
fn a_register_that_would_change_needs_a_folder() {
    for place in [&["--in-place"][..], &["--output", "new"]] {
        let (row, folder) = (in_rbx(), Folder::new());
        row.put(&folder);
        let ran = Ran::of(row.inputs(&mut folder.command()).args(place));
        assert_eq!((ran.status, ran.text()), (Some(1), ""));
        let line = "frames:1: refused: a register would change; frame 0 (address 0x1020, RBP 0x0, \
                    RSP 0x7000): RBX would hold 0x90000: --into DIR writes the image and the registers \
                    in one step\n";
        assert!(ran.err.starts_with(line), "{}", ran.err);
        assert_eq!(ran.err.lines().count(), 2, "{}", ran.err);
        assert_eq!(folder.names(), super::FILES);
        assert_eq!(folder.get("image"), row.image);
    }
}

/// Where no register changes, the other ways are as they were: a base in a register that nothing is derived
/// in, and a null base.
#[test]
fn registers_that_do_not_change_need_none() {
    let mut row = in_rbx();
    row.section = of_pairs(24, &[[register(3), rsp(16)]]);
    let image = row.done("1 frame moved, 1 pointer");
    assert_eq!(image[16..], words(&[0x94E20]));
    row.section = in_rbx().section;
    row.frames = "1020 0 7000 rbx=0\n".to_string();
    assert_eq!(row.done("1 frame moved, 2 pointers"), row.image);
}

/// A register that a pair is in and the line doesn't tell would count as 0, and its pointer be lost.
#[test]
fn registers_that_are_not_told() {
    let (mut row, folder) = (in_rbx(), Folder::new());
    row.frames = "1020 0 7000 rax=50000\n".to_string();
    row.put(&folder);
    let not_told = |row: &Restore, line: u64, frame: u64, more: &str| {
        row.put(&folder);
        let ran = into(row, &folder, &[]);
        assert_eq!((ran.status, ran.text()), (Some(1), ""));
        let start =
            format!("frames:{line}: refused: a register of the frame is not told; frame {frame} (");
        assert!(ran.err.starts_with(&start), "{}", ran.err);
        let end = format!("): {more}=VALUE\nnew: is not made\n");
        assert!(ran.err.ends_with(&end), "{}", ran.err);
        assert_eq!(folder.names(), super::FILES);
    };
    not_told(&row, 1, 0, "pair 0 is in RBX: say rbx");
    // Before any frame's own refusal, whichever stands first in the list.
    row.frames = "1021 0 7000\n1020 0 7000\n".to_string();
    not_told(&row, 2, 1, "pair 0 is in RBX: say rbx");
    // A derived register, of the second pair.
    row.section = of_pairs(24, &[[rsp(8), rsp(8)], [rsp(8), register(15)]]);
    row.frames = "1020 0 7000 rbx=0\n".to_string();
    not_told(&row, 1, 0, "pair 1 is in R15: say r15");
    row.section = older();
    row.frames = "0+20 0 7000\n".to_string();
    not_told(&row, 1, 0, "pair 0 is in RBX: say rbx");
    // What all frames share comes first.
    row.moves = "0 1\n".to_string();
    row.put(&folder);
    let ran = into(&row, &folder, &[]);
    assert!(ran.err.contains("refused 14 at 0"), "{}", ran.err);
}

/// Registers that are no slots need not be told: 18 says so of the pair. A deopt value is no pair.
#[test]
fn registers_that_no_pair_may_have() {
    for (number, machine) in [
        (6, "x86-64"),
        (7, "x86-64"),
        (16, "x86-64"),
        (29, "aarch64"),
        (31, "aarch64"),
    ] {
        let (mut row, folder) = (in_rbx(), Folder::new());
        row.section = of_pairs(24, &[[register(number), register(number)]]);
        row.frames = "1020 0 7000\n".to_string();
        row.put(&folder);
        let ran = into(&row, &folder, &["--machine", machine]);
        assert!(ran.err.contains("refused 18 at 0: "), "{}", ran.err);
        assert!(ran.err.contains(": pair 0: base Register "), "{}", ran.err);
        assert_eq!(folder.names(), super::FILES);
    }
    let mut record = crate::fixtures::statepoint(0x20, &[[rsp(8), rsp(8)]]);
    record.locations[2].offset = 1;
    record.locations.insert(3, register(3));
    let row = Restore {
        section: crate::fixtures::one_function(24, vec![record]).encode(),
        ..Restore::row_i()
    };
    row.done("1 frame moved, 1 pointer");
}

/// The pair at fault is worked out with the frame's own registers.
#[test]
fn refusals_of_registers() {
    let (mut row, folder) = (in_rbx(), Folder::new());
    row.frames = "1020 0 7000 rbx=50008\n".to_string();
    row.put(&folder);
    let ran = into(&row, &folder, &[]);
    assert!(
        ran.err.contains("frames:1: refused 21 at 0: "),
        "{}",
        ran.err
    );
    assert!(
        ran.err
            .contains(": pair 0: its base slot RBX holds 0x50008; "),
        "{}",
        ran.err
    );
    row.section = of_pairs(24, &[[rsp(8), register(3)], [register(12), register(3)]]);
    row.frames = "1020 0 7000 rbx=50008 r12=60000\n".to_string();
    row.put(&folder);
    let ran = into(&row, &folder, &[]);
    assert!(
        ran.err.contains("frames:1: refused 20 at 0: "),
        "{}",
        ran.err
    );
    assert!(
        ran.err
            .contains(": pair 1: its derived slot RBX is derived from two bases: base slot R12 "),
        "{}",
        ran.err
    );
    assert!(ran.err.ends_with("\nnew: is not made\n"), "{}", ran.err);
    assert_eq!(folder.names(), super::FILES);
}

#[test]
fn for_programs() {
    let (mut row, folder) = (in_rbx(), Folder::new());
    row.put(&folder);
    let object = |ran: &Ran| -> Value { serde_json::from_str(ran.text().trim()).unwrap() };
    let ran = into(&row, &folder, &["--json"]);
    let restored = json!({
        "answer": "restored", "image": "image", "output": "new/image", "new_frames": "new/frames",
        "receipt": "new/image.receipt.json", "frames": 1, "pointers": 2, "registers": 1,
        "edition": {
            "number": null, "pointers": 256, "machine": "x86-64", "versions": [1, 3], "store": null
        },
    });
    assert_eq!((ran.status, object(&ran)), (Some(0), restored));
    let ran = Ran::of(row.call(&mut folder.command()).arg("--json"));
    let refused = object(&ran);
    assert_eq!(
        (
            &refused["file"],
            &refused["line"],
            &refused["frame"],
            &refused["cause"]
        ),
        (
            &json!("frames"),
            &json!(1),
            &json!(0),
            &json!("a register would change")
        )
    );
    assert!(refused.get("number").is_none() && refused.get("pair").is_none());
    row.frames = "1020 0 7000\n".to_string();
    row.put(&folder);
    let refused = object(&Ran::of(row.call(&mut folder.command()).arg("--json")));
    assert_eq!(
        (&refused["pair"], &refused["cause"]),
        (&json!(0), &json!("a register of the frame is not told"))
    );
}
