//! Traces of recorded restores: right ones, ones whose answers differ, and broken ones; and what their
//! replay is answered. Everything is made from a seed.

mod broken;
mod items;

#[cfg(test)]
mod tests;

pub use broken::Break;
pub use items::{Item, ANSWER, END, FRAME};

use crate::frames::faults::{self, aim, OWN};
use crate::frames::guests::{self, Lie};
use crate::frames::{plain, Scene, Size, Table};
use crate::rng::Rng;
use crate::{aimed, frames};

/// What the replay of a trace is answered, under an edition of 256 pointers, the scene's machine and both
/// versions.
#[derive(Clone, Copy, Debug, PartialEq, Eq)]
pub enum Known {
    /// Every answer is the recorded one.
    Same,
    /// This answer is the first that differs.
    Differs(u64),
    /// The trace is broken: 35 at this place.
    Broken(u64),
}

/// A trace and what it is replayed on.
#[derive(Clone, Debug)]
pub struct Trace {
    /// Image, first address, table and machine.
    pub scene: Scene,
    /// The bytes of the section, which may be faulty.
    pub section: Vec<u8>,
    /// The trace's items, before it is broken.
    pub items: Vec<Item>,
    /// The trace.
    pub bytes: Vec<u8>,
    pub known: Known,
    /// The image after the replay.
    pub image: Vec<u8>,
    /// How the trace was broken.
    pub broken: Option<Break>,
}

impl Trace {
    /// A random trace.
    pub fn any(rng: &mut Rng) -> Trace {
        let trace = Trace::right(rng);
        match rng.below(4) {
            0 => trace,
            1 => trace.with_differences(rng),
            _ => {
                let way = rng.pick(&Break::ALL);
                trace.broken_by(rng, way)
            }
        }
    }

    /// A random trace with the answers that its frames get, one after the other.
    pub fn right(rng: &mut Rng) -> Trace {
        let count = rng.pick(&[0, 1, 1, 2, 3, 5, 8]);
        Trace::of(rng, count, |rng, frames| rng.below(2 * frames + 1))
    }

    /// A random trace of so many steps, whose frames stand at up to some dozens of statepoints.
    pub fn long(rng: &mut Rng, steps: usize) -> Trace {
        let count = rng.pick(&[1, 8, 24, 40]);
        Trace::of(rng, count, |_, _| steps)
    }

    /// A random trace on a scene of about so many frames, of which it moves as many as `steps` says.
    fn of(rng: &mut Rng, count: usize, steps: impl FnOnce(&mut Rng, usize) -> usize) -> Trace {
        let mut scene = scene(rng, count);
        let shared = match rng.below(8) {
            0 => rng.pick(&[13, 14]),
            _ => 0,
        };
        let mut refused = aim(rng, shared, &mut scene, 0).map(|place| (shared, place));
        let mut built = scene.section.build();
        if rng.one_in(12) {
            let number = rng.pick(aimed::numbers(scene.section.version));
            let place = aimed::aim(rng, number, &scene.section, &mut built);
            refused = place.map(|place| (number, place as u64)).or(refused);
        }
        let mut trace = Trace {
            image: scene.image.clone(),
            scene,
            section: built.bytes,
            items: Vec::new(),
            bytes: Vec::new(),
            known: Known::Same,
            broken: None,
        };
        let steps = steps(rng, trace.scene.stops.len());
        trace.record(rng, refused, steps);
        trace
    }

    /// Moves frames of the scene one after the other, some of them several times or on the other machine,
    /// and records their answers. All are refused where something is wrong with what they share.
    fn record(&mut self, rng: &mut Rng, refused: Option<(u64, u64)>, steps: usize) {
        let mut now = self.scene.clone();
        for _ in 0..steps {
            let stop = rng.below(self.scene.stops.len());
            let other = rng.one_in(8);
            let machine = match other {
                true => 1 - now.machine,
                false => now.machine,
            };
            // The section's own refusal comes before 33, and the other shared ones after it.
            let early = refused.filter(|(number, _)| *number <= 9);
            let (number, value) = match (early, other, refused) {
                (Some(own), ..) => own,
                (None, true, _) => (33, 0),
                (None, false, Some(shared)) => shared,
                (None, false, None) => move_on(&mut now, stop),
            };
            let own = self.scene.stops[stop];
            self.items.push(Item::frame(machine, &own));
            self.items.push(Item::answer(number as u8, value));
        }
        self.items.push(Item::end());
        self.bytes = items::bytes(&self.items);
        self.image = now.image;
    }

    /// The same trace with some answers changed, if it has any.
    pub fn with_differences(mut self, rng: &mut Rng) -> Trace {
        let answers = self.items.len() / 2;
        if answers == 0 {
            return self;
        }
        let first = rng.below(answers);
        let others = rng.pick(&[0, 0, 1, 2]);
        for nth in (first..answers).step_by(1 + rng.below(3)).take(1 + others) {
            let right = self.items[2 * nth + 1].clone();
            self.items[2 * nth + 1] = differing(rng, &right);
        }
        self.bytes = items::bytes(&self.items);
        self.known = Known::Differs(first as u64);
        self
    }

    /// The trace broken in this way; one of none stays as it is where there is nothing to break.
    pub fn broken_by(mut self, rng: &mut Rng, way: Break) -> Trace {
        if let Some((bytes, place)) = way.apply(rng, &self.items) {
            self.bytes = bytes;
            self.known = Known::Broken(place as u64);
            self.image = self.scene.image.clone();
            self.broken = Some(way);
        }
        self
    }
}

/// Moves a frame, and gives number, and count or place.
fn move_on(now: &mut Scene, stop: usize) -> (u64, u64) {
    let answer = plain::refusal(now, stop);
    if answer.0 != 0 {
        return answer;
    }
    let count = plain::pointers(now, stop) as u64;
    now.image = plain::moved(now, [stop]);
    (0, count)
}

/// Another answer than this one: another number, or another value.
fn differing(rng: &mut Rng, right: &Item) -> Item {
    let mut item = right.clone();
    let at = match rng.below(3) {
        0 => 1,
        1 => 2,
        _ => 2 + rng.below(8),
    };
    item.bytes[at] ^= match rng.below(3) {
        0 => 1,
        1 => 1 << rng.below(8),
        _ => 1 + rng.below(255) as u8,
    };
    item
}

/// Frames with faults of their own, also ones that share bytes with others.
fn scene(rng: &mut Rng, count: usize) -> Scene {
    let table = Table::any(rng);
    let sizes: Vec<Size> = (0..count.max(1)).map(|_| Size::few(rng)).collect();
    let mut scene = Scene::of(rng, table, &sizes);
    if count == 0 {
        scene.stops.clear();
        return scene;
    }
    for _ in 0..rng.below(3) {
        let (lie, host) = (rng.pick(&Lie::ALL), rng.below(scene.stops.len()));
        guests::add(rng, &mut scene, lie, host);
    }
    faults::scatter_of(rng, &mut scene, 5, &OWN);
    debug_assert!(scene
        .stops
        .iter()
        .all(|stop| stop.listed == frames::REGISTERS));
    scene
}
