//! `flat`: the worked section of docs/FLAT.md, sections that are refused, and random ones against the data
//! that they are made of.

use crate::fixtures::{row_h, with};
use crate::run::{sample, Folder};
use generator::flat::{layout, valid, Flat};
use generator::Rng;
use serde_json::{json, Value};

fn worked() -> Vec<u8> {
    std::fs::read(sample("worked.flat")).unwrap()
}

#[test]
fn check() {
    let folder = Folder::new();
    folder.put("whole", worked());
    folder.put("bit", with(worked(), 3, 128));
    folder
        .run(["flat", "check", "whole"])
        .done("whole: accepted\n");
    let ran = folder.run(["flat", "check", "bit", "whole"]);
    assert_eq!(ran.text(), "whole: accepted\n");
    assert_eq!(
        ran.refused(40, 0, "bit: a padding or reserved bit is set"),
        ""
    );

    folder.put("newer", row_h());
    let ran = folder.run(["flat", "check", "newer"]);
    let found = ran.refused(37, 0, "newer: version not 2");
    assert_eq!(found, "its first byte is 3");
    let ran = folder.run(["flat", "check", "/dev/null"]);
    let cause = "flat section under 32 or over 16,777,216 bytes";
    let found = ran.refused(36, 0, &format!("/dev/null: {cause}"));
    assert_eq!(found, "it has 0 bytes");
    folder
        .run(["flat", "check", "missing"])
        .failed("missing: ", "No such file");
}

/// The check of the other versions says what can be done with such a section.
#[test]
fn the_other_check_knows_of_it() {
    let folder = Folder::new();
    folder.put("flat", worked());
    for command in [&["check"][..], &["list", "--text"]] {
        let ran = folder.run(command.iter().chain(&["flat"]));
        let found = ran.refused(2, 0, "flat: version neither 1 nor 3");
        assert!(found.starts_with("its first byte is 2, as in a flat section: "));
        assert!(found.contains("'treskibben flat check'"), "{found}");
    }
}

#[test]
fn find() {
    let folder = Folder::new();
    folder.put("f", worked());
    folder.run(["flat", "find", "f", "402020"]).done(
        "0x402020: record 1 of frame 1\n\
         frame 1 at 0x402000: function size 128, stack size 56, base register RBX, \
         frame registers 1 to 2, records 1 to 2; has an alloca of variable size, has stack realignment\n\
         frame register 1: RBX, offset -24, size 8, spilled\n\
         frame register 2: R12, offset 16, size 4\n\
         record 1: ID 8, offset 0x20, call size 2, locations 3 to 4, no live-outs\n\
         location 3: Constant -1\n\
         location 4: ConstIndex 0, which is 0xfedcba9876543210\n",
    );
    let ran = folder.run(["flat", "find", "f", "0x402030"]);
    let found = ran.refused(41, 0, "f: no record of any frame is at the address");
    assert_eq!(found, "no record at address 0x402030");
    let ran = folder.run(["flat", "find", "--json", "f", "402010"]);
    let object: Value = serde_json::from_str(ran.text()).unwrap();
    assert_eq!(object["answer"], "flat-found");
    assert_eq!(object["frame"]["frame"], 1);
    assert_eq!(object["record"]["record"], 2);
    assert_eq!(object["record"]["id"], "0xffffffffffffffff");
}

fn range(range: layout::Range) -> Value {
    let numbers = range.numbers();
    json!({"start": numbers.start, "end": numbers.end})
}

/// The objects of a section, as its data have them.
fn objects(flat: &Flat) -> Vec<Value> {
    let hex = |number: u64| format!("{number:#x}");
    let constants = (0..).zip(&flat.constants).map(
        |(nth, value): (usize, _)| json!({"answer": "constant", "constant": nth, "value": hex(*value)}),
    );
    let frames = (0..).zip(&flat.frames).map(|(nth, it): (usize, _)| {
        json!({
            "answer": "frame", "frame": nth, "address": hex(it.address), "function_size": it.size,
            "stack_size": it.stack_size, "flags": it.flags, "base": it.base_register,
            "registers": range(it.registers), "records": range(it.records),
        })
    });
    let registers = (0..).zip(&flat.registers).map(|(nth, it): (usize, _)| {
        json!({
            "answer": "frame-register", "frame_register": nth, "dwarf": it.register,
            "offset": it.offset, "size": it.size, "spilled": it.flags == 1,
        })
    });
    let records = (0..).zip(&flat.records).map(|(nth, it): (usize, _)| {
        json!({
            "answer": "flat-record", "record": nth, "id": hex(it.id), "offset": it.offset,
            "call_size": it.call_size, "has_live_out_info": it.flags == 1,
            "locations": range(it.locations), "live_outs": range(it.live_outs),
        })
    });
    let locations = (0..).zip(&flat.locations).map(|(nth, it): (usize, _)| {
        json!({
            "answer": "location", "location": nth, "kind": it.kind, "dwarf": it.register,
            "offset": it.offset,
        })
    });
    let live_outs = (0..).zip(&flat.live_outs).map(|(nth, it): (usize, _)| {
        json!({"answer": "live-out", "live_out": nth, "dwarf": it.register, "size": it.size})
    });
    let first = constants.chain(frames).chain(registers);
    first
        .chain(records)
        .chain(locations)
        .chain(live_outs)
        .collect()
}

#[test]
fn list() {
    let folder = Folder::new();
    let mut rng = Rng::new(13);
    for _ in 0..40 {
        let flat = valid::section(&mut rng);
        folder.put("f", flat.encode());
        let ran = folder.run(["flat", "list", "--json", "f"]);
        let lines: Vec<Value> = ran
            .text()
            .lines()
            .map(|line| serde_json::from_str(line).unwrap())
            .collect();
        assert_eq!(lines[0]["answer"], "flat-section");
        assert_eq!(lines[0]["frame_registers"], flat.registers.len());
        assert_eq!(lines[1..], objects(&flat));
        let text = folder.run(["flat", "list", "f"]);
        assert_eq!(text.text().lines().count(), lines.len());
    }
    folder.put("cut", &worked()[..235]);
    let ran = folder.run(["flat", "list", "cut"]);
    let cause = "an offset or the end isn't the earliest aligned place";
    assert_eq!(ran.refused(38, 0, &format!("cut: {cause}")), "");
}
