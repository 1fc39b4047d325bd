//! Folders, and the machines that they are.

use super::{last_object, lines, object, sum, OF_C, OF_H, OF_REFUSED};
use crate::fixtures::{row_h, C};
use crate::run::{is_root, skipped, Folder, Ran, NOBODY, PROGRAM};
use serde_json::{json, Value};
use std::fs::{self, Permissions};
use std::io::ErrorKind;
use std::os::unix::fs::{symlink, PermissionsExt};
use std::os::unix::net::UnixListener;
use std::os::unix::process::CommandExt;
use std::process::{Command, Stdio};

/// A fleet of two machines, with folders below, and a file beside them.
fn fleet() -> Folder {
    fleet_in(Folder::new())
}

fn fleet_in(folder: Folder) -> Folder {
    for name in ["one", "one/deep", "one/deep/deeper", "two", "none"] {
        fs::create_dir(folder.at(name)).unwrap();
    }
    folder.put("one/a", row_h());
    folder.put("one/deep/b", C);
    folder.put("one/deep/deeper/c", "no section");
    folder.put("two/d", row_h());
    folder.put("alone", C);
    folder
}

const OF_ONE: [[u64; 13]; 3] = [OF_H, OF_C, OF_REFUSED];

#[test]
fn all_files_below_a_folder() {
    let folder = fleet();
    folder.run(["report", "one"]).done(&lines(sum(&OF_ONE)));
    let all = sum(&[sum(&OF_ONE), OF_H, OF_C]);
    folder.run(["report", "."]).done(&lines(all));
    folder
        .run(["report", "alone", "two/", "one"])
        .done(&lines(all));
    folder.run(["report", "none"]).done(&lines([0; 13]));
    // Below a folder and named too, a file counts twice.
    let twice = sum(&[sum(&OF_ONE), OF_H]);
    folder.run(["report", "one", "one/a"]).done(&lines(twice));
}

/// Each folder is a machine; files that are named are of one without a name.
#[test]
fn totals_of_each_machine() {
    let folder = fleet();
    let machines = |ran: &Ran| -> Vec<(Value, Value)> {
        assert_eq!((ran.status, ran.err.as_str()), (Some(0), ""));
        assert_eq!(ran.text().lines().count(), 1);
        let report = last_object(ran);
        assert_eq!(report["answer"], "report");
        let machines = report["machines"].as_array().unwrap().clone();
        let machine = |own: Value| (own["machine"].clone(), own["totals"].clone());
        machines.into_iter().map(machine).collect()
    };
    let ran = folder.run(["report", "--json", "two", "alone", "one", "none", "two/d"]);
    let expected = [
        (json!("two"), object(OF_H)),
        (Value::Null, object(sum(&[OF_C, OF_H]))),
        (json!("one"), object(sum(&OF_ONE))),
        (json!("none"), object([0; 13])),
    ];
    assert_eq!(machines(&ran), expected);
    let all = sum(&[OF_H, OF_C, sum(&OF_ONE), OF_H]);
    assert_eq!(last_object(&ran)["totals"], object(all));
    let ran = folder.run(["report", "--json", "--name", "box 7", "one", "alone"]);
    let expected = [(json!("box 7"), object(sum(&[sum(&OF_ONE), OF_C])))];
    assert_eq!(machines(&ran), expected);
}

/// The order of the names decides what is told first, whatever the folder's own order is.
#[test]
fn files_in_the_order_of_their_names() {
    let folder = Folder::new();
    fs::create_dir(folder.at("m")).unwrap();
    let names = ["z", "a", "b-", "b", "B", "\u{e9}", "0"];
    for name in names {
        folder.put(&format!("m/{name}"), "");
    }
    fs::create_dir(folder.at("m/b.d")).unwrap();
    folder.put("m/b.d/x", "");
    for threads in ["1", "2", "7"] {
        let ran = folder.run(["report", "m", "--refused", "--threads", threads]);
        let told: Vec<&str> = ran
            .err
            .lines()
            .filter_map(|line| line.split_once(": "))
            .map(|it| it.0)
            .collect();
        let expected = [
            "m/0", "m/B", "m/a", "m/b", "m/b-", "m/b.d/x", "m/z", "m/\u{e9}",
        ];
        assert_eq!(told, expected, "{threads}");
    }
}

/// Links to files count as they; links to folders, what is no file, and hidden names do not.
#[test]
fn what_is_passed_over_in_a_folder() {
    let folder = fleet();
    symlink("../alone", folder.at("two/link")).unwrap();
    symlink("..", folder.at("two/loop")).unwrap();
    symlink("/dev/zero", folder.at("two/device")).unwrap();
    folder.put("two/.hidden", row_h());
    fs::create_dir(folder.at("two/.git")).unwrap();
    folder.put("two/.git/d", row_h());
    let _socket = UnixListener::bind(folder.at("two/socket")).unwrap();
    let totals = sum(&[OF_H, OF_C]);
    folder.run(["report", "two"]).done(&lines(totals));
    // Named itself, a link to a folder is the folder, and a hidden file is a file.
    let ran = folder.run(["report", "two/loop/two", "two/.hidden"]);
    ran.done(&lines(sum(&[totals, OF_H])));
    symlink("nowhere", folder.at("two/broken")).unwrap();
    let ran = folder.run(["report", "two"]);
    let totals = sum(&[totals, OF_REFUSED]);
    assert_eq!((ran.status, ran.text()), (Some(2), &*lines(totals)));
    assert!(
        ran.err
            .starts_with("treskibben: two/broken: cannot be read: "),
        "{}",
        ran.err
    );
    assert_eq!(ran.err.lines().count(), 1);
}

/// The program in a folder, to be run by a user whom permissions stop.
fn as_a_stranger(folder: &Folder) -> Option<Command> {
    fs::copy(PROGRAM, folder.at("program")).unwrap();
    let program = || {
        let mut command = Command::new(folder.at("program"));
        if is_root() {
            command.uid(NOBODY).gid(NOBODY);
        }
        command.current_dir(folder.path()).stdin(Stdio::null());
        command
    };
    // A process that another test is just starting may still have the copy open.
    let tried = loop {
        match program().arg("--version").output() {
            Err(error) if error.kind() == ErrorKind::ExecutableFileBusy => {}
            tried => break tried,
        }
    };
    let can_run = tried.is_ok_and(|ran| ran.status.success());
    can_run.then(program)
}

/// A folder that cannot be read counts as one refused section, and is told.
#[test]
fn a_folder_that_cannot_be_read() {
    let folder = fleet_in(Folder::within(&std::env::temp_dir()));
    let Some(mut command) = as_a_stranger(&folder) else {
        return skipped("a folder that cannot be read: no other user can run the program");
    };
    let mode = |mode| Permissions::from_mode(mode);
    fs::set_permissions(folder.at("one/deep"), mode(0o000)).unwrap();
    let ran = Ran::of(command.args(["report", "one"]));
    fs::set_permissions(folder.at("one/deep"), mode(0o755)).unwrap();
    let totals = sum(&[OF_H, OF_REFUSED]);
    let told = "treskibben: one/deep: cannot be read: Permission denied";
    assert!(ran.err.starts_with(told), "{}", ran.err);
    assert_eq!((ran.status, ran.text()), (Some(2), &*lines(totals)));
}
