//! Random frames: one restore with two tables, and two restores with one each.

use super::ALONE;
use crate::run::{Folder, Ran};
use crate::scenes::{self, names};
use generator::frames::plain::{self, Slot};
use generator::frames::twice::{base_alone, list_bases};
use generator::frames::{Scene, Table};
use generator::Rng;

/// A scene and a second table in a folder.
struct Case {
    scene: Scene,
    second: Table,
    folder: Folder,
}

impl Case {
    fn any(rng: &mut Rng) -> Case {
        let count = 1 + rng.below(3);
        let mut scene = Scene::many(rng, count);
        if !rng.one_in(3) {
            list_bases(&mut scene);
        }
        let (folder, second) = (Folder::new(), scene.table.next(rng));
        folder.put("section", scene.section.encode());
        folder.put("image", &scene.image);
        folder.put("frames", scenes::frames(&scene, &scene.stops));
        folder.put("first", scenes::moves(&scene.table));
        folder.put("second", scenes::moves(&second));
        Case {
            scene,
            second,
            folder,
        }
    }

    /// Runs a restore of image and frames of a folder into another.
    fn restore(&self, from: &str, tables: &[&str], into: &str) -> Ran {
        let machine = scenes::machine(&self.scene);
        let first = format!("{:x}", self.scene.first);
        let [image, frames] = ["image", "frames"].map(|name| format!("{from}/{name}"));
        let mut command = self.folder.command();
        command.args(["restore", "--section", "section", "--machine", machine]);
        command.args(["--image", &image, "--frames", &frames, "--first", &first]);
        command.args(tables.iter().flat_map(|table| ["--moves", table]));
        Ran::of(command.args(["--into", into, "--again"]))
    }

    /// Whether a move by the joined table is accepted, as the generator works it out.
    fn accepted(&self) -> bool {
        let scene = Scene {
            table: self.scene.table.joined(&self.second),
            ..self.scene.clone()
        };
        let mut stops = 0..scene.stops.len();
        stops.all(|stop| plain::own_refusal(&scene, stop) == (0, 0))
    }

    /// What has to be told of a base alone: the line with the frame, and the pair with the slot.
    fn alone(&self) -> Option<[String; 2]> {
        let scene = &self.scene;
        let mut stops = 0..scene.stops.len();
        let (stop, (pair, slot)) = stops.find_map(|stop| Some((stop, base_alone(scene, stop)?)))?;
        let slot = match slot {
            Slot::Stack(at) => format!("at {:#x}", i128::from(scene.stack_pointer(stop)) + at),
            Slot::Register(register) => names(scene)[register].clone(),
        };
        Some([
            format!("./frames:{}: {ALONE}{stop} (", stop + 1),
            format!("): the base slot of pair {pair} is {slot}, and "),
        ])
    }
}

/// What is seen of a random scene: 0 the same by both ways, 1 refused in both, 2 refused for a base alone.
fn compare(rng: &mut Rng) -> usize {
    let case = Case::any(rng);
    let once = case.restore(".", &["first", "second"], "once");
    let (accepted, alone) = (case.accepted(), case.alone());
    if let Some([start, told]) = alone.as_ref().filter(|_| accepted) {
        let (err, made) = (&once.err, case.folder.at("once").exists());
        assert!(err.starts_with(start) && err.contains(told), "{err}");
        assert_eq!((once.status, made), (Some(1), false));
        return 2;
    }
    let one = case.restore(".", &["first"], "one");
    let goes_on = one.status == Some(0);
    let two = goes_on.then(|| case.restore("one", &["second"], "two"));
    let done = two.as_ref().is_some_and(|two| two.status == Some(0));
    assert!(accepted == done || alone.is_some(), "{one:?}, {two:?}");
    let status = if accepted { 0 } else { 1 };
    assert_eq!(once.status, Some(status), "{once:?}");
    if accepted {
        for name in ["image", "frames"] {
            let [once, two] = ["once", "two"].map(|way| case.folder.get(&format!("{way}/{name}")));
            assert!(once == two, "{name}");
        }
    }
    status as usize
}

#[test]
fn as_two_restores_of_random_frames() {
    let mut rng = Rng::part(11, 0);
    let mut seen = [0; 3];
    for _ in 0..200 {
        seen[compare(&mut rng)] += 1;
    }
    assert!(seen.iter().all(|count| *count >= 25), "{seen:?}");
}
