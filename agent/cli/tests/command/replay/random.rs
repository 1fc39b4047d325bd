//! Random traces and threads: a replay against what the generator knows, and a restore, its trace and its replay.

use crate::run::{Folder, Ran};
use crate::scenes;
use generator::frames::plain;
use generator::frames::thread::Thread;
use generator::frames::Scene;
use generator::traces::{Known, Trace};
use generator::Rng;

/// Writes the files of a scene, with a store whose edition 1 allows all on its machine.
fn put(folder: &Folder, scene: &Scene, section: &[u8]) {
    folder.put("section", section);
    folder.put("image", &scene.image);
    folder.put("moves", scenes::moves(&scene.table));
    let machine = scenes::machine(scene);
    let make = [
        "edition",
        "make",
        "--new",
        "--store",
        "s",
        "--machine",
        machine,
    ];
    assert_eq!(folder.run(make).status, Some(0));
}

/// Replays the trace `t`.
fn replay(folder: &Folder, scene: &Scene, more: &[&str]) -> Ran {
    let first = format!("{:x}", scene.first);
    let mut command = folder.command();
    command.args(["replay", "--section", "section", "--image", "image", "t"]);
    command.args(["--first", &first, "--moves", "moves"]);
    Ran::of(command.args(more))
}

/// Traces that are right, that differ and that are broken, under an edition. What the replay leaves is known too.
#[test]
fn traces() {
    let mut rng = Rng::part(0x7ACE, 1);
    let mut seen = [0; 3];
    for _ in 0..200 {
        let trace = Trace::any(&mut rng);
        let scene = &trace.scene;
        if scene.table.olds.len() != scene.table.news.len() {
            // Two lists of unequal lengths have no text.
            continue;
        }
        let folder = Folder::new();
        put(&folder, scene, &trace.section);
        folder.put("t", &trace.bytes);
        folder.put("new", &trace.image);
        let more = ["--store", "s", "--edition", "1", "--restored", "new"];
        let ran = replay(&folder, scene, &more);
        let (answers, bytes) = (trace.items.len() / 2, trace.image.len());
        let image = format!(
            "new: same, {bytes} byte{}\n",
            ["s", ""][usize::from(bytes == 1)]
        );
        match trace.known {
            Known::Same => {
                let plural = ["s", ""][usize::from(answers == 1)];
                ran.done(&format!("t: same, {answers} answer{plural}\n{image}"));
                seen[0] += 1;
            }
            Known::Differs(item) => {
                let start = format!("t: differs in answer {item} of {answers}\nframe {item}: ");
                assert!(ran.text().starts_with(&start), "{}", ran.text());
                assert!(ran.text().ends_with(&image), "{}", ran.text());
                assert_eq!((ran.status, ran.err.as_str()), (Some(1), ""));
                seen[1] += 1;
            }
            Known::Broken(place) => {
                ran.refused(35, place, "t: trace breaks its grammar");
                assert_eq!(ran.text(), "");
                seen[2] += 1;
            }
        }
    }
    assert!(seen.iter().all(|count| *count >= 25), "{seen:?}");
}

/// The answers that a trace records, as `trace --json` tells them.
fn recorded(folder: &Folder) -> Vec<(u64, String)> {
    let ran = folder.run(["trace", "--json", "t"]);
    let lines = ran.text().lines().skip(1);
    let answer = |line: &str| {
        let object: serde_json::Value = serde_json::from_str(line).unwrap();
        let own = &object["recorded"];
        let value = own["value"].as_str().unwrap().to_string();
        (own["number"].as_u64().unwrap(), value)
    };
    lines.map(answer).collect()
}

/// A random thread is restored with a trace, which has each frame's own count and is replayed as the same. A
/// refused one leaves none. Gives whether it was accepted.
fn round_trip(rng: &mut Rng) -> bool {
    let thread = loop {
        let thread = Thread::any(rng);
        if (thread.rest, thread.off) == (0, 0) && !thread.order.is_empty() {
            break thread;
        }
    };
    let (scene, folder) = (&thread.scene, Folder::new());
    put(&folder, scene, &scene.section.encode());
    let stops = thread.order.iter().map(|stop| &scene.stops[*stop]);
    folder.put("frames", scenes::frames(scene, stops));
    let first = format!("{:x}", scene.first);
    let by_edition = rng.one_in(2);
    let edition = match by_edition {
        true => vec!["--store", "s", "--edition", "1"],
        false => vec!["--machine", scenes::machine(scene)],
    };
    let mut command = folder.command();
    command.args(["restore", "--section", "section", "--image", "image"]);
    command.args(["--first", &first, "--moves", "moves", "--frames", "frames"]);
    command
        .args(["--into", "new", "--trace", "t"])
        .args(&edition);
    let ran = Ran::of(&mut command);
    let accepted = thread.answer() == (0, 0);
    if !accepted {
        assert_eq!((ran.status, folder.at("t").exists()), (Some(1), false));
        assert!(ran.err.ends_with("new: is not made\nt: is not written\n"));
        return false;
    }
    assert_eq!((ran.status, ran.err.as_str()), (Some(0), ""));
    let counts = thread.order.iter().map(|stop| {
        let pointers = plain::pointers(scene, *stop);
        (0, format!("{pointers:#x}"))
    });
    let frames = thread.order.len();
    assert_eq!(recorded(&folder), counts.collect::<Vec<_>>());
    let mut more = vec!["--restored", "new/image"];
    if by_edition {
        more.extend(edition);
    }
    let ran = replay(&folder, scene, &more);
    let plural = ["s", ""][usize::from(frames == 1)];
    let start = format!("t: same, {frames} answer{plural}\nnew/image: same, ");
    assert!(ran.text().starts_with(&start), "{}", ran.text());
    assert_eq!((ran.status, ran.err.as_str()), (Some(0), ""));
    true
}

#[test]
fn restores() {
    let mut rng = Rng::part(0x7ACE, 2);
    let mut seen = [0; 2];
    for _ in 0..150 {
        seen[usize::from(round_trip(&mut rng))] += 1;
    }
    assert!(seen.iter().all(|count| *count >= 40), "{seen:?}");
}
