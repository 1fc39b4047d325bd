//! `--add`: saved reports, added up.

use super::{last_object, lines, object, of_sizes, sum, OF_C, OF_H, OF_REFUSED};
use crate::fixtures::{row_h, C};
use crate::run::{Folder, Ran};
use serde_json::{json, Value};
use std::fs;

/// Two machines with their saved reports, and sections that none is of.
fn saved() -> Folder {
    let folder = Folder::new();
    for name in ["one", "two"] {
        fs::create_dir(folder.at(name)).unwrap();
    }
    folder.put("one/a", row_h());
    folder.put("one/b", "");
    folder.put("two/c", C);
    folder.put("alone", row_h());
    for name in ["one", "two", "alone"] {
        let ran = folder.run(["report", "--json", name]);
        assert_eq!((ran.status, ran.err.as_str()), (Some(0), ""));
        folder.put(&format!("{name}.json"), ran.out);
    }
    folder
}

const OF_ONE: [[u64; 13]; 2] = [OF_H, OF_REFUSED];

/// The report of all is the reports of the parts, added in any order, with sections or without.
#[test]
fn parts_add_up_to_the_whole() {
    let folder = saved();
    let whole = folder.run(["report", "--json", "one", "two", "alone"]);
    let totals = sum(&[sum(&OF_ONE), OF_C, OF_H]);
    assert_eq!(last_object(&whole)["totals"], object(totals));
    let added = folder.run([
        "report",
        "--json",
        "--add",
        "one.json",
        "two.json",
        "alone.json",
    ]);
    assert_eq!(
        (added.status, added.text(), &added.err),
        (Some(0), whole.text(), &whole.err)
    );
    for call in [
        &["--add", "two.json", "alone.json", "one.json"][..],
        &["--add", "two.json", "--add", "one.json", "--", "alone"],
        &["one", "two", "--add", "alone.json"],
        &["--add", "one.json", "alone.json", "--", "two/c"],
        &["--threads", "3", "alone", "one", "--add", "two.json"],
    ] {
        let ran = folder.run(["report"].iter().chain(call));
        ran.done(&lines(totals));
    }
    // What was added can be saved and added again, and several reports can stand in one file.
    folder.put("whole.json", &added.out);
    let twice = sum(&[totals, totals]);
    let ran = folder.run(["report", "--add", "whole.json", "whole.json"]);
    ran.done(&lines(twice));
    folder.put("both.json", [&added.out[..], b"\n", &whole.out].concat());
    folder
        .run(["report", "--add", "both.json"])
        .done(&lines(twice));
    let mut command = folder.shell("exec <both.json");
    Ran::of(command.args(["report", "--add", "-"])).done(&lines(twice));
}

/// The machines of all reports, each once.
#[test]
fn machines_are_kept_apart() {
    let folder = saved();
    let ran = folder.run([
        "report", "--json", "--name", "two", "alone", "--add", "one.json", "two.json",
    ]);
    let expected = json!({
        "answer": "report",
        "totals": object(sum(&[sum(&OF_ONE), OF_C, OF_H])),
        "machines": [
            {"machine": "one", "totals": object(sum(&OF_ONE))},
            {"machine": "two", "totals": object(sum(&[OF_C, OF_H]))},
        ],
    });
    assert_eq!(last_object(&ran), expected);
}

/// What was said of single sections beside a report is passed over.
#[test]
fn lines_beside_a_report() {
    let folder = saved();
    let ran = folder.run(["report", "--json", "--refused", "one", "missing"]);
    assert_eq!((ran.status, ran.text().lines().count()), (Some(2), 3));
    folder.put("told.json", &ran.out);
    let totals = sum(&[sum(&OF_ONE), OF_REFUSED]);
    folder
        .run(["report", "--add", "told.json"])
        .done(&lines(totals));
}

/// Sums of reports that pass are 34, and so is a section after them, at a position that counts theirs.
#[test]
fn sums_that_pass() {
    let folder = saved();
    folder.put("large", of_sizes(&[u64::MAX - 30]));
    let ran = folder.run(["report", "--json", "large"]);
    folder.put("large.json", &ran.out);
    let cause = "a total of the report would pass 2^64 - 1";
    let ran = folder.run(["report", "--add", "one.json", "large.json", "alone.json"]);
    let found = ran.refused(34, 0, &format!("alone.json:1: {cause}"));
    assert_eq!(
        found,
        "stack is 18446744073709551609 before, and 24 more are to be added"
    );
    assert_eq!(ran.text(), "");
    let ran = folder.run([
        "report",
        "--add",
        "one.json",
        "large.json",
        "--",
        "two",
        "alone",
    ]);
    ran.refused(34, 4, &format!("alone: {cause}"));
    let ran = folder.run(["report", "--add", "large.json", "--", "two", "alone"]);
    assert_eq!(ran.status, Some(0), "{}", ran.err);
}

/// Files that are no reports, and ones that are damaged, add nothing.
#[test]
fn what_is_no_report_is_refused() {
    let folder = saved();
    let good = String::from_utf8(folder.get("one.json")).unwrap();
    let edited = |edit: fn(&mut Value)| {
        let mut value: Value = serde_json::from_str(&good).unwrap();
        edit(&mut value);
        value.to_string()
    };
    let sums = "its machines don't add up to its totals";
    for (text, found) in [
        (String::new(), "no report stands in it"),
        ("\n \n".to_string(), "no report stands in it"),
        (
            r#"{"answer":"refused","number":34}"#.to_string(),
            "no report stands in it",
        ),
        (
            "sections 1\nrefused 0\n".to_string(),
            "expected value at column 1",
        ),
        (good[..good.len() / 2].to_string(), "EOF while parsing"),
        (
            r#"{"answer":"accepted"}"#.to_string(),
            "its 'answer' is not 'report'",
        ),
        ("[]".to_string(), "its 'answer' is not 'report'"),
        (edited(|it| it["totals"]["pairs"] = json!("0x3")), sums),
        (
            edited(|it| it["machines"][0]["totals"]["stack"] = json!("0x19")),
            sums,
        ),
        (edited(|it| it["machines"] = json!([])), sums),
        (
            edited(|it| it["totals"]["pairs"] = json!(2)),
            "invalid type: integer",
        ),
        (
            edited(|it| it["totals"]["pairs"] = json!("2")),
            "'2' is no number",
        ),
        (
            edited(|it| it["totals"]["pairs"] = json!("0x")),
            "'0x' is no number",
        ),
        (
            edited(|it| it["totals"]["pairs"] = json!("0x10000000000000002")),
            "is no number",
        ),
        (
            edited(|it| it["totals"]["more"] = json!("0x0")),
            "unknown field `more`",
        ),
        (
            edited(|it| it["machines"][0]["machine"] = json!(7)),
            "invalid type: integer",
        ),
        (
            edited(|it| drop(it["totals"].as_object_mut().unwrap().remove("stack"))),
            "missing field",
        ),
    ] {
        folder.put("bad.json", &text);
        let ran = folder.run(["report", "--add", "two.json", "bad.json", "--", "alone"]);
        assert_eq!((ran.status, ran.text()), (Some(1), ""), "{text}");
        let cause = "refused: not a saved report, or a damaged one; ";
        assert!(ran.err.starts_with("bad.json:1: ") || ran.err.starts_with("bad.json: "));
        assert!(
            ran.err.contains(cause) && ran.err.contains(found),
            "{text}: {}",
            ran.err
        );
        assert_eq!(ran.err.lines().count(), 1, "{}", ran.err);
    }
    folder.put("bad.json", b"\xff\xfe");
    let ran = folder.run(["report", "--add", "bad.json"]);
    assert!(ran.err.contains("it is no text"), "{}", ran.err);
    folder.put_sparse("bad.json", good.as_bytes(), 1 << 40);
    let ran = folder.run(["report", "--add", "bad.json"]);
    assert!(
        ran.err.contains("it has over 134217728 bytes"),
        "{}",
        ran.err
    );
    assert_eq!(ran.status, Some(1));
    // A section after '--add' is taken for a report, and so refused and not left out.
    let ran = folder.run(["report", "--add", "two.json", "alone"]);
    assert_eq!((ran.status, ran.text()), (Some(1), ""));
    assert!(
        ran.err.starts_with("alone:1: refused: not a saved report"),
        "{}",
        ran.err
    );
    // A report that cannot be read is not left out.
    let ran = folder.run(["report", "--add", "missing.json", "--", "alone"]);
    ran.failed("missing.json: cannot be read: ", "No such file");
}
