//! `--json`: one object a line, read by a JSON parser.

use crate::fixtures::{row_h, with, C};
use crate::list::rich;
use crate::restore::Restore;
use crate::run::{sample, Folder, Ran};
use serde_json::{json, Value};

/// The objects on standard output, one a line. No number is too large for a reader that has doubles only.
#[track_caller]
fn objects(ran: &Ran) -> Vec<Value> {
    let read = |line: &str| -> Value { serde_json::from_str(line).unwrap() };
    let objects: Vec<Value> = ran.text().lines().map(read).collect();
    for object in &objects {
        assert!(object["answer"].is_string(), "{object}");
        small(object);
    }
    objects
}

fn small(value: &Value) {
    match value {
        Value::Number(number) => {
            let number = number.as_i64().unwrap();
            assert!(number.unsigned_abs() < 1 << 53, "{number}");
        }
        Value::Array(values) => values.iter().for_each(small),
        Value::Object(fields) => fields.values().for_each(small),
        _ => {}
    }
}

#[test]
fn check() {
    let folder = Folder::new();
    folder.put("good", row_h());
    folder.put("bad\n", with(row_h(), 0, 4));
    let ran = folder.run(["check", "--json", "good", "bad\n", "missing"]);
    assert_eq!((ran.status, ran.err.as_str()), (Some(2), ""));
    let objects = objects(&ran);
    assert_eq!(objects[0], json!({"answer": "accepted", "file": "good"}));
    let refused = json!({
        "answer": "refused", "file": "bad\n", "number": 2, "place": 0,
        "cause": "version neither 1 nor 3", "found": "its first byte is 4",
    });
    assert_eq!(objects[1], refused);
    assert_eq!(objects[2]["answer"], "failed");
    assert_eq!(objects[2]["file"], "missing");
    assert!(objects[2]["error"]
        .as_str()
        .unwrap()
        .starts_with("cannot be read: "));
    assert_eq!(objects.len(), 3);
}

#[test]
fn list() {
    let folder = Folder::new();
    folder.put("rich", rich().encode());
    let ran = folder.run(["list", "--json", "rich"]);
    assert_eq!((ran.status, ran.err.as_str()), (Some(0), ""));
    let objects = objects(&ran);
    let section = json!({
        "answer": "section", "file": "rich", "version": 3, "bytes": 336,
        "functions": 3, "constants": 2, "records": 2,
    });
    assert_eq!(objects[0], section);
    let function = json!({
        "answer": "function", "function": 0, "address": "0xffff0000", "stack_size": null, "records": 1,
    });
    assert_eq!(objects[1], function);
    assert_eq!(objects[3]["stack_size"], "0x28");
    let constant = json!({"answer": "constant", "constant": 1, "value": "0x100000000"});
    assert_eq!(objects[5], constant);
    let plain = &objects[6];
    assert_eq!(plain["id"], "0xffffffffffffffff");
    assert_eq!(plain["address"], "0xffff0000");
    assert_eq!(plain["pairs"], Value::Null);
    let locations = json!([
        {"kind": "Register", "size": 4, "register": "RBX", "dwarf": 3, "offset": 0},
        {"kind": "Direct", "size": 8, "register": "RBP", "dwarf": 6, "offset": -16},
        {"kind": "Indirect", "size": 16, "register": "XMM14", "dwarf": 31, "offset": 0},
        {"kind": "Constant", "size": 8, "offset": -1, "value": "0xffffffffffffffff"},
        {"kind": "ConstIndex", "size": 8, "offset": 1, "value": "0x100000000"},
    ]);
    assert_eq!(plain["locations"], locations);
    assert_eq!(
        plain["live_outs"][2],
        json!({"register": "register 999", "dwarf": 999, "size": 1})
    );
    let call = &objects[7];
    assert_eq!(
        (&call["record"], &call["function"], &call["pairs"]),
        (&json!(1), &json!(2), &json!(2))
    );
    let roles: Vec<&Value> = call["locations"]
        .as_array()
        .unwrap()
        .iter()
        .map(|it| &it["role"])
        .collect();
    let expected = [
        "call",
        "call",
        "deopt_count",
        "deopt",
        "deopt",
        "base",
        "derived",
        "base",
        "derived",
    ];
    assert_eq!(roles, expected);
    assert_eq!(call["locations"][8]["pair"], 1);
    assert_eq!(objects.len(), 8);
    folder
        .run(["list", "--json", "rich", "--output", "file"])
        .done("");
    assert_eq!(folder.get("file"), ran.out);
    let ran = folder.run(["list", "--json", "--machine", "aarch64", "rich"]);
    assert!(ran.text().contains("\"register\":\"X3\""));
}

#[test]
fn find() {
    let folder = Folder::new();
    folder.put("rich", rich().encode());
    let found = &objects(&folder.run(["find", "--json", "rich", "3010"]))[0];
    assert_eq!(
        (&found["answer"], &found["asked"]),
        (&json!("found"), &json!("0x3010"))
    );
    assert_eq!(
        (&found["record"]["record"], &found["sharing"]),
        (&json!(1), &json!(1))
    );
    assert_eq!(found["function"]["address"], "0x3000");
    let ran = folder.run(["find", "--json", "rich", "ffffffffffffffff"]);
    assert_eq!((ran.status, ran.err.as_str()), (Some(1), ""));
    let refused = &objects(&ran)[0];
    assert_eq!(refused["number"], 10);
    assert_eq!(refused["found"], "no record at address 0xffffffffffffffff");
    let older = sample("h-version-1.section");
    let ran = folder.run([&"find".into(), &"--json".into(), &older, &"0+20".into()]);
    let found = &objects(&ran)[0];
    assert_eq!(
        (&found["record"]["function"], &found["record"]["address"]),
        (&Value::Null, &Value::Null)
    );
    assert_eq!(found["function"]["records"], Value::Null);
}

#[test]
fn cut() {
    let folder = Folder::new();
    folder.put("maps", [row_h(), C.to_vec()].concat());
    let ran = folder.run(["cut", "--json", "maps", "--into", "parts"]);
    assert_eq!((ran.status, ran.err.as_str()), (Some(0), ""));
    let expected = [
        json!({"answer": "part", "file": "maps", "part": 0, "first": 0, "bytes": 152}),
        json!({"answer": "part", "file": "maps", "part": 1, "first": 152, "bytes": 16}),
        json!({"answer": "written", "file": "maps", "folder": "parts", "parts": 2}),
    ];
    assert_eq!(objects(&ran), expected);
    folder.put("bad", [row_h(), vec![2; 16]].concat());
    let ran = folder.run(["cut", "--json", "bad"]);
    let refused = &objects(&ran)[1];
    assert_eq!(
        (&refused["part"], &refused["first"]),
        (&json!(1), &json!(152))
    );
    assert_eq!((&refused["number"], ran.status), (&json!(2), Some(1)));
}

#[test]
fn restore() {
    let (row, folder) = (Restore::row_i(), Folder::new());
    row.put(&folder);
    let run = |row: &Restore, more: &[&str]| {
        row.put(&folder);
        Ran::of(row.inputs(&mut folder.command()).args(more).arg("--json"))
    };
    let ran = run(&row, &["--output", "new"]);
    let restored = json!({
        "answer": "restored", "image": "image", "output": "new", "receipt": "new.receipt.json",
        "frames": 1, "pointers": 2, "registers": 0,
        "edition": {
            "number": null, "pointers": 256, "machine": "x86-64", "versions": [1, 3], "store": null
        },
    });
    assert_eq!((ran.status, ran.err.as_str()), (Some(0), ""));
    assert_eq!(objects(&ran), [restored]);
    let mut bad = row.clone();
    bad.image[8] = 8;
    let ran = run(&bad, &["--in-place"]);
    assert_eq!((ran.status, ran.err.as_str()), (Some(1), ""));
    let refused = json!({
        "answer": "refused", "file": "frames", "line": 1, "frame": 0, "pair": 0, "number": 21, "place": 0,
        "cause": "base neither 0 nor an old start",
        "found": "frame 0 (address 0x1020, RBP 0x0, RSP 0x7000): pair 0: its base slot RSP+0x8 at 0x7008 \
                  holds 0x50008; the old start below it is 0x50000, 8 bytes before",
    });
    assert_eq!(objects(&ran), [refused]);
    let none = Restore {
        frames: String::new(),
        ..row.clone()
    };
    let refused = &objects(&run(&none, &["--in-place"]))[0];
    assert_eq!(
        (&refused["file"], &refused["cause"]),
        (&json!("frames"), &json!("no frames in the list"))
    );
    assert!(refused.get("number").is_none());
    let bad = Restore {
        moves: "1\n".to_string(),
        ..row.clone()
    };
    let ran = run(&bad, &["--in-place"]);
    let failed = &objects(&ran)[0];
    assert_eq!(
        (&failed["answer"], &failed["file"], &failed["line"]),
        (&json!("failed"), &json!("moves"), &json!(1))
    );
    assert_eq!(ran.status, Some(2));
}
