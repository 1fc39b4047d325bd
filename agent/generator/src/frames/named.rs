//! Editions that a restore names: mostly ones that allow it, and ones that are unknown or retired, or made
//! for another machine or version, or for few pointers.

use super::{plain, Scene, MOST_POINTERS};
use crate::editions::Settings;
use crate::layout::Version;
use crate::rng::Rng;

/// A store, and the number of the edition that a restore names.
#[derive(Clone, Debug)]
pub struct Named {
    /// The greatest number ever used.
    pub greatest: u64,
    /// The live editions: fewer than the store has places.
    pub live: Vec<(u64, Settings)>,
    pub edition: u64,
}

impl Named {
    /// A random store, and an edition of it for the frames of a scene.
    pub fn any(rng: &mut Rng, scene: &Scene) -> Named {
        let greatest = 1 + rng.below(9) as u64;
        let mut live = Vec::new();
        for number in 1..=greatest {
            if rng.below(4) > 0 {
                live.push((number, settings(rng, scene)));
            }
        }
        let edition = match live.is_empty() || rng.one_in(8) {
            true => other(rng, greatest, &live),
            false => live[rng.below(live.len())].0,
        };
        Named {
            greatest,
            live,
            edition,
        }
    }

    /// The settings of the edition; `None` where it is unknown or retired.
    pub fn settings(&self) -> Option<Settings> {
        let own = self.live.iter().find(|(number, _)| *number == self.edition);
        own.map(|(_, settings)| *settings)
    }

    /// Whether the edition, which is live, allows the scene's version and machine.
    pub fn allows(&self, scene: &Scene) -> bool {
        self.settings().is_some_and(|own| {
            let version = match scene.section.version {
                Version::One => own.version_1,
                Version::Three => own.version_3,
            };
            version && own.machine == scene.machine
        })
    }

    /// How many pointers a frame may have, where the edition is live.
    pub fn most(&self) -> usize {
        let count = self.settings().map(|own| own.largest_count as usize);
        count.unwrap_or(MOST_POINTERS)
    }

    /// The answer of a frame that is moved alone under the edition, where nothing is wrong with the
    /// section, the image and the table: number and place, both 0 where it is accepted.
    pub fn answer(&self, scene: &Scene, stop: usize) -> (u64, u64) {
        match (self.settings(), self.allows(scene)) {
            (None, _) => (31, 0),
            (_, false) => (33, 0),
            _ => plain::refusal_under(scene, stop, self.most()),
        }
    }
}

/// Settings that mostly allow the scene's version and machine, and often so many pointers as a frame of it
/// has, or one more or less.
fn settings(rng: &mut Rng, scene: &Scene) -> Settings {
    let one = scene.section.version == Version::One;
    let (mut machine, mut allowed) = (scene.machine & 1, [one, !one]);
    match rng.below(8) {
        0 => machine = 1 - machine,
        1 => allowed = [!one, one],
        2..=4 => allowed = [true, true],
        _ => {}
    }
    let own = match scene.stops.len() {
        0 => 1,
        count => pointers(scene, rng.below(count)),
    };
    let near = [
        own,
        own.saturating_sub(1),
        own + 1,
        rng.below(MOST_POINTERS),
    ];
    let count = rng.pick(&[
        MOST_POINTERS,
        MOST_POINTERS,
        near[0],
        near[1],
        near[2],
        near[3],
    ]);
    Settings {
        largest_count: count.clamp(1, MOST_POINTERS) as u64,
        machine,
        version_1: allowed[0],
        version_3: allowed[1],
    }
}

/// The number of pointers of a frame, as far as it stands at a statepoint.
fn pointers(scene: &Scene, stop: usize) -> usize {
    let record = scene.section.records.get(scene.stops[stop].record);
    match record.and_then(plain::first_pair) {
        Some(_) => plain::pointers(scene, stop),
        None => 1,
    }
}

/// A number that no live edition has: 0, the next one, a retired one, or one that only a narrower number
/// would take for a live one.
fn other(rng: &mut Rng, greatest: u64, live: &[(u64, Settings)]) -> u64 {
    let any = 1 + rng.below(greatest as usize) as u64;
    loop {
        let number = match rng.below(6) {
            0 => 0,
            1 => greatest + 1,
            2 | 3 => any + rng.pick(&[0, 1 << 8, 1 << 16, 1 << 32, 1 << 63]),
            4 => u64::MAX,
            _ => rng.number(64),
        };
        if live.iter().all(|(own, _)| *own != number) {
            return number;
        }
    }
}
