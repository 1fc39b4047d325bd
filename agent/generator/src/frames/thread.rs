//! Lists of frames that are moved in one call, and what the call answers.

use super::guests::{self, Lie};
use super::{faults, plain, shuffle, Scene, Size, Table, MOST_FRAMES, MOST_POINTERS, REGISTERS};
use crate::layout::Version;
use crate::rng::Rng;

/// A list of frames of a scene.
#[derive(Clone, Debug)]
pub struct Thread {
    pub scene: Scene,
    /// The frames, by their numbers in the scene; one may be there several times.
    pub order: Vec<usize>,
    /// How many numbers stand behind the last frame: none, or one to three for which there are no
    /// registers.
    pub rest: usize,
    /// How many registers there are more than 32 a frame, or fewer. It isn't 0 only where the rest is.
    pub off: i64,
}

impl Thread {
    /// The frames of a scene in its order.
    pub fn of(scene: Scene) -> Thread {
        let order = (0..scene.stops.len()).collect();
        Thread {
            scene,
            order,
            rest: 0,
            off: 0,
        }
    }

    /// A random list: whole, with faults in some frames, with frames that share bytes with others,
    /// with a frame several times, or of a wrong length, it or its registers.
    pub fn any(rng: &mut Rng) -> Thread {
        Thread::any_of(rng, None)
    }

    /// A random list whose section is of this version, or of either.
    pub fn any_of(rng: &mut Rng, version: Option<Version>) -> Thread {
        let count = match rng.below(20) {
            0 => 0,
            1 => 40 + rng.below(60),
            2..=4 => 10 + rng.below(20),
            _ => 1 + rng.below(9),
        };
        let mut scene = scene(rng, count, version);
        let (faulty, crowded) = rng.pick(&[
            (false, false),
            (true, false),
            (true, false),
            (false, true),
            (true, true),
        ]);
        if crowded && count > 0 {
            crowd(rng, &mut scene);
        }
        if faulty {
            // In a long list mostly one frame, so that it may stand late.
            let many = rng.pick(&[2.max(count / 2), 4.max(count), count.max(1), 1 + count]);
            faults::scatter(rng, &mut scene, many);
        }
        let mut thread = Thread::of(scene);
        shuffle(rng, &mut thread.order);
        if rng.one_in(12) {
            thread.repeat(rng);
        }
        match rng.below(36) {
            0 => thread.rest = 1 + rng.below(3),
            1 => thread.off = rng.pick(&[1, -1, 16, -16, 31, -31, 32, -32, 33, -33, 64]),
            _ => {}
        }
        thread
    }

    /// Puts a frame of the list at one more position.
    pub fn repeat(&mut self, rng: &mut Rng) {
        if !self.order.is_empty() {
            let stop = rng.pick(&self.order);
            let position = rng.below(self.order.len() + 1);
            self.order.insert(position, stop);
        }
    }

    /// The list: address and function number of each frame.
    pub fn list(&self) -> Vec<u64> {
        let stops = self.order.iter().map(|stop| self.scene.stops[*stop]);
        let mut list: Vec<u64> = stops.flat_map(|stop| [stop.address, stop.named]).collect();
        list.resize(list.len() + self.rest, 0x7000);
        list
    }

    /// The list of registers, 32 a frame; or some fewer, or more, which are like a stack pointer.
    pub fn registers(&self) -> Vec<u64> {
        let stops = self.order.iter().map(|stop| &self.scene.stops[*stop]);
        let mut list: Vec<u64> = stops.flat_map(|stop| stop.registers).collect();
        let length = list.len().saturating_add_signed(self.off as isize);
        list.resize(length, 0x7000);
        list
    }

    /// Whether the lengths of the two lists are right.
    pub(crate) fn fits(&self) -> bool {
        let (numbers, registers) = (self.list().len(), self.registers().len());
        let frames = numbers / 2;
        numbers.is_multiple_of(2) && frames <= MOST_FRAMES && registers == REGISTERS * frames
    }

    /// The answer where nothing is wrong with the section, the machine, the image and the table: number
    /// and place, both 0 where the list is accepted.
    pub fn answer(&self) -> (u64, u64) {
        self.answer_under(MOST_POINTERS)
    }

    /// The answer where a frame may have so many pointers.
    pub fn answer_under(&self, most: usize) -> (u64, u64) {
        assert!(self.rest == 0 || self.off == 0, "frames that are none");
        if !self.fits() {
            return (25, 0);
        }
        for (position, stop) in self.order.iter().enumerate() {
            let (number, _) = plain::own_refusal_under(&self.scene, *stop, most);
            if number != 0 {
                return (number, position as u64);
            }
        }
        match self.first_shared() {
            Some(position) => (26, position as u64),
            None => (0, 0),
        }
    }

    /// The position of the first frame that has a byte which an earlier one has. All frames are inside
    /// the image, whose bytes are marked one by one.
    pub(crate) fn first_shared(&self) -> Option<usize> {
        let mut taken = vec![false; self.scene.image.len()];
        self.order.iter().position(|stop| {
            let start = self.scene.start(*stop) as usize;
            let size = self.scene.stack_size(*stop) as usize;
            let own = &mut taken[start..start + size];
            let shared = own.contains(&true);
            own.fill(true);
            shared
        })
    }

    /// The sum of the pointers of a list that is accepted.
    pub fn pointers(&self) -> u64 {
        let pointers = |stop: &usize| plain::pointers(&self.scene, *stop) as u64;
        self.order.iter().map(pointers).sum()
    }

    /// The image after a list that is accepted.
    pub fn moved(&self) -> Vec<u8> {
        plain::moved(&self.scene, self.order.iter().copied())
    }

    /// The registers after a list that is accepted.
    pub fn moved_registers(&self) -> Vec<u64> {
        let registers = |stop: &usize| plain::moved_registers(&self.scene, *stop);
        self.order.iter().flat_map(registers).collect()
    }
}

/// So many frames. Many pointers take long to compare, so that few of the frames have many.
fn scene(rng: &mut Rng, count: usize, version: Option<Version>) -> Scene {
    let table = Table::any(rng);
    let size = |_| match rng.below(6) {
        0 => Size::any(rng),
        _ => Size::few(rng),
    };
    let sizes: Vec<Size> = (0..count).map(size).collect();
    match version {
        Some(version) => Scene::of_version(rng, version, table, &sizes),
        None => Scene::of(rng, table, &sizes),
    }
}

/// Adds some guests to frames of the scene; now and then only such as share no byte with their host.
fn crowd(rng: &mut Rng, scene: &mut Scene) {
    let apart = rng.one_in(3);
    for _ in 0..1 + rng.below(4) {
        let (lie, host) = (rng.pick(&Lie::ALL), rng.below(scene.stops.len()));
        if !apart || !lie.shares() {
            guests::add(rng, scene, lie, host);
        }
    }
}
