//! Lists of frames over linked sections: the functions of a scene dealt out to several maps, other maps between
//! them, of either version, and maps that are there twice; whole, and damaged in any way. And what such a list
//! is answered.

use super::{addresses, case_of, dealt, kin, start, whole, Linked, MOST_MAPS};
use crate::editions::Settings;
use crate::frames::faults::{aim, other_machine, scatter_of};
use crate::frames::thread::Thread;
use crate::frames::{plain, Scene};
use crate::layout::{Section, Version};
use crate::rng::Rng;
use crate::section_in;

/// A list of frames, and the linked section that it is moved over.
#[derive(Clone, Debug)]
pub struct LinkedThread {
    pub thread: Thread,
    pub linked: Linked,
    /// 13 or 14, where the image or the table is refused, and 0 where neither is.
    shared: u64,
}

impl LinkedThread {
    /// A random list over a random linked section, which mostly has the records of its frames.
    pub fn any(rng: &mut Rng) -> LinkedThread {
        let version = match rng.one_in(12) {
            true => Version::One,
            false => Version::Three,
        };
        let mut thread = Thread::any_of(rng, Some(version));
        // Of the refusals of a frame these are the last, and few lists come to them.
        if rng.one_in(4) && thread.answer() == (0, 0) {
            scatter_of(rng, &mut thread.scene, 2, &[19, 20, 21]);
        }
        if rng.one_in(16) {
            other_machine(&mut thread.scene);
        }
        let mut shared = 0;
        for number in [14, 13, 33] {
            if rng.one_in(18) && aim(rng, number, &mut thread.scene, 0).is_some() && number != 33 {
                shared = number;
            }
        }
        let maps = maps(rng, &thread.scene);
        let linked = match rng.one_in(3) {
            true => case_of(rng, maps),
            false => whole(maps),
        };
        LinkedThread {
            thread,
            linked,
            shared,
        }
    }

    /// How many records of all maps have the address.
    pub fn sharing(&self, address: u64) -> usize {
        self.linked.maps.iter().map(|map| has(map, address)).sum()
    }

    /// The number of the first map that has a record with the address.
    pub fn map_of(&self, address: u64) -> Option<usize> {
        let maps = &self.linked.maps;
        maps.iter().position(|map| has(map, address) > 0)
    }

    /// The answer under an edition with these settings, or with none where it is unknown: number and place, both
    /// 0 where the list is accepted. `None` where it isn't known beforehand.
    pub fn answer(&self, settings: Option<Settings>) -> Option<(u64, u64)> {
        let Some(own) = settings else {
            return Some((31, 0));
        };
        let maps = &self.linked.maps;
        let older = maps.iter().position(|map| map.version == Version::One);
        match (self.linked.answer?, older) {
            ((0, _), None) => {}
            ((0, _), Some(nth)) => return Some((27, start(maps, nth) as u64)),
            (refused, _) => return Some(refused),
        }
        if !own.version_3 || own.machine != self.thread.scene.machine {
            return Some((33, 0));
        }
        match (self.shared, self.thread.fits()) {
            (0, true) => self.of_frames(own.largest_count as usize),
            (0, false) => Some((25, 0)),
            (number, _) => Some((number, 0)),
        }
    }

    /// Whether 13 or 14 is there, which an earlier refusal may stand before.
    pub fn is_shared_refused(&self) -> bool {
        self.shared != 0
    }

    /// The answer where nothing but a frame is to blame.
    fn of_frames(&self, most: usize) -> Option<(u64, u64)> {
        for (position, stop) in self.thread.order.iter().enumerate() {
            let number = self.of_frame(*stop, most)?;
            if number != 0 {
                return Some((number, position as u64));
            }
        }
        let shared = self.thread.first_shared();
        Some(shared.map_or((0, 0), |position| (26, position as u64)))
    }

    /// The number of a frame: 10 and 15 by the records of all maps, the rest as on the scene's own section, of
    /// which the one record is. `None` where the scene has none or several.
    fn of_frame(&self, stop: usize, most: usize) -> Option<u64> {
        let scene = &self.thread.scene;
        let address = scene.stops[stop].address;
        match self.sharing(address) {
            0 => Some(10),
            1 => {
                let one = has(&scene.section, address) == 1;
                one.then(|| plain::own_refusal_under(scene, stop, most).0)
            }
            _ => Some(15),
        }
    }
}

/// How many records of a map have the address. One of version 1 has no addresses.
fn has(map: &Section, address: u64) -> usize {
    match map.version {
        Version::One => 0,
        Version::Three => addresses(map).filter(|(_, own)| *own == address).count(),
    }
}

/// The section of a scene in maps: few, one, or as many as there can be. Now and then there is a map twice, and
/// one of other records, in either version.
fn maps(rng: &mut Rng, scene: &Scene) -> Vec<Section> {
    let most = match rng.below(8) {
        0 | 1 => MOST_MAPS,
        2 | 3 => 1,
        _ => 8,
    };
    let mut maps = dealt::maps(rng, &scene.section, most);
    if rng.one_in(10) {
        let nth = rng.below(maps.len());
        let again = match rng.one_in(2) {
            true => maps[nth].clone(),
            false => kin(rng, &maps[nth]),
        };
        insert(rng, &mut maps, again);
    }
    for (version, many) in [(Version::Three, 6), (Version::One, 18)] {
        if rng.one_in(many) {
            let other = section_in(rng, version);
            let away = |address| has(&other, address) == 0;
            if scene.stops.iter().all(|stop| away(stop.address)) {
                insert(rng, &mut maps, other);
            }
        }
    }
    maps
}

/// Puts a map anywhere among the others, as far as there can be one more.
fn insert(rng: &mut Rng, maps: &mut Vec<Section>, map: Section) {
    if maps.len() < MOST_MAPS {
        maps.insert(rng.below(maps.len() + 1), map);
    }
}
