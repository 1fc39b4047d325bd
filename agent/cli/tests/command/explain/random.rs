//! Random threads: each slot against what the generator knows of it, and each refusal against the restore's.

use crate::run::{Folder, Ran};
use crate::scenes;
use generator::frames::faults::aim;
use generator::frames::plain::{self, Slot};
use generator::frames::Scene;
use generator::Rng;
use serde_json::Value;

/// A slot as it should be told: its reason with pair, old base and new base, what it holds before and after.
type Told = (Slot, String, [u64; 2]);

/// The slots of a frame, each once, in the order in which its pairs list them.
fn slots(scene: &Scene, stop: usize) -> Vec<Told> {
    let pairs = plain::slots(scene, stop);
    let pointers = || {
        (0..)
            .zip(&pairs)
            .flat_map(|(pair, own)| own.iter().map(move |own| (pair, *own)))
    };
    let mut seen: Vec<Slot> = Vec::new();
    for slot in pointers().flat_map(|(_, slots)| slots) {
        if !seen.contains(&slot) {
            seen.push(slot);
        }
    }
    let told = |slot: Slot| {
        let old = plain::content(scene, stop, slot);
        let derived = pointers().find(|(_, [_, derived])| *derived == slot);
        let Some((pair, [base, _])): Option<(usize, _)> = derived else {
            return (slot, "only_base".to_string(), [old, old]);
        };
        match plain::content(scene, stop, base) {
            0 => (slot, "null_base".to_string(), [old, old]),
            start => {
                let entry = scene.table.olds.iter().position(|old| *old == start);
                let to = scene.table.news[entry.unwrap()];
                let new = old.wrapping_add(to).wrapping_sub(start);
                (slot, format!("moved {pair} {start:#x} {to:#x}"), [old, new])
            }
        }
    };
    seen.into_iter().map(told).collect()
}

/// The slots of a frame as they are told.
fn told(scene: &Scene, stop: usize, objects: &[Value]) -> Vec<Told> {
    let number = |value: &Value| {
        let text = value.as_str().unwrap().strip_prefix("0x").unwrap();
        u64::from_str_radix(text, 16).unwrap()
    };
    let own = |object: &&Value| object["answer"] == "slot" && object["frame"] == stop;
    let slot = |object: &Value| {
        let slot = match object.get("address") {
            None => Slot::Register(object["dwarf"].as_u64().unwrap() as usize),
            Some(address) => {
                let start = i128::from(scene.stack_pointer(stop));
                Slot::Stack(i128::from(number(address)) - start)
            }
        };
        let reason = object["reason"].as_str().unwrap();
        let reason = match object.get("pair") {
            None => reason.to_string(),
            Some(pair) => {
                let [from, to] =
                    ["old_base", "new_base"].map(|base| object[base].as_str().unwrap());
                format!("{reason} {pair} {from} {to}")
            }
        };
        (
            slot,
            reason,
            [number(&object["old"]), number(&object["new"])],
        )
    };
    objects.iter().filter(own).map(slot).collect()
}

fn run(folder: &Folder, scene: &Scene, command: &str, more: &[&str]) -> Ran {
    let first = format!("{:x}", scene.first);
    let mut call = folder.command();
    call.args([
        command,
        "--section",
        "section",
        "--image",
        "image",
        "--first",
        &first,
    ]);
    call.args(["--moves", "moves", "--frames", "frames"]);
    Ran::of(call.args(["--machine", scenes::machine(scene)]).args(more))
}

#[test]
fn threads() {
    let mut rng = Rng::part(0xE8B, 1);
    let (mut accepted, mut refused, mut reasons) = (0, 0, [0; 3]);
    for _ in 0..150 {
        let count = 1 + rng.below(4);
        let scene = Scene::many(&mut rng, count);
        let folder = Folder::new();
        folder.put("section", scene.section.encode());
        folder.put("image", &scene.image);
        folder.put("moves", scenes::moves(&scene.table));
        folder.put("frames", scenes::frames(&scene, &scene.stops));
        let explained = run(&folder, &scene, "explain", &["--json"]);
        let restored = run(&folder, &scene, "restore", &["--into", "new", "--json"]);
        assert_eq!(
            explained.status, restored.status,
            "{explained:?} {restored:?}"
        );
        if explained.status == Some(1) {
            assert_eq!(explained.text(), restored.text());
            refused += 1;
            continue;
        }
        assert_eq!((explained.status, explained.err.as_str()), (Some(0), ""));
        let lines = explained.text().lines();
        let objects: Vec<Value> = lines
            .map(|line| serde_json::from_str(line).unwrap())
            .collect();
        for stop in 0..scene.stops.len() {
            let (told, known) = (told(&scene, stop, &objects), slots(&scene, stop));
            assert_eq!(told, known);
            for (nth, reason) in ["moved", "null_base", "only_base"].iter().enumerate() {
                reasons[nth] += known.iter().filter(|own| own.1.starts_with(reason)).count();
            }
        }
        let total = objects.last().unwrap();
        let image = crate::restore::receipts::digest(&folder.get("new/image"));
        assert_eq!(total["after"]["sha256"], image);
        accepted += 1;
    }
    assert!(accepted > 40, "{accepted} accepted, {refused} refused");
    assert!(reasons.iter().all(|times| *times > 30), "{reasons:?}");
}

/// What was found is told of every frame that is refused, whichever pair and slots are at fault.
#[test]
fn refused_frames() {
    let mut rng = Rng::part(0xE8B, 2);
    for (number, words) in [
        (10, &["no record at ", "no function "][..]),
        (16, &["extent 0x", "the stack size of function "]),
        (
            17,
            &[" pointers; no edition is named, which allows at most 256 "],
        ),
        (18, &[": base "]),
        (19, &[" is not inside the extent 0x"]),
        (
            20,
            &[" shares bytes with the ", " is derived from two bases: "],
        ),
        (21, &[" holds 0x"]),
    ] {
        let mut times = 0;
        while times < 25 {
            let mut scene = Scene::one(&mut rng);
            let Some(place) = aim(&mut rng, number, &mut scene, 0) else {
                continue;
            };
            let folder = Folder::new();
            folder.put("section", scene.section.encode());
            folder.put("image", &scene.image);
            folder.put("moves", scenes::moves(&scene.table));
            folder.put("frames", scenes::frames(&scene, &scene.stops));
            let ran = run(&folder, &scene, "explain", &["--frame", "0", "--json"]);
            // A warning of functions that are all at 0 may come before.
            let last = ran.text().lines().last().unwrap();
            let object: Value = serde_json::from_str(last).unwrap();
            let told = [&object["number"], &object["place"]];
            assert_eq!(told.map(Value::as_u64), [Some(number), Some(place)]);
            let found = object["found"].as_str().unwrap();
            assert!(
                words.iter().any(|word| found.contains(word)),
                "{number}: {found}"
            );
            if number >= 18 {
                assert!(found.contains(&format!("): pair {place}: ")), "{found}");
            }
            times += 1;
        }
    }
}
