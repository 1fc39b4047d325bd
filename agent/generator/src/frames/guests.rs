//! Frames that lie anywhere on the image, also over others: their pairs are null, or registers whose
//! bases are moved, so that each is accepted wherever it lies.

use super::functions::{self, Taken};
use super::{keys, named, Scene, Stop, REGISTERS};
use crate::rng::Rng;

/// How the extent of a guest lies to that of its host.
#[derive(Clone, Copy, Debug, PartialEq, Eq)]
pub enum Lie {
    /// The same bytes.
    Equal,
    /// Some bytes of the host, and no others.
    Inside,
    /// All bytes of the host, and more.
    Around,
    /// The host's first byte, and bytes before it.
    OverFirst,
    /// The host's last byte, and bytes behind it.
    OverLast,
    /// Bytes up to the host's first.
    TouchesFirst,
    /// Bytes from the host's last on.
    TouchesLast,
    /// No bytes, somewhere from the host's first byte to its end.
    Empty,
}

impl Lie {
    /// All of them.
    pub const ALL: [Lie; 8] = [
        Lie::Equal,
        Lie::Inside,
        Lie::Around,
        Lie::OverFirst,
        Lie::OverLast,
        Lie::TouchesFirst,
        Lie::TouchesLast,
        Lie::Empty,
    ];

    /// Whether such a guest shares a byte with its host, which has some.
    pub fn shares(self) -> bool {
        !matches!(self, Lie::TouchesFirst | Lie::TouchesLast | Lie::Empty)
    }

    /// Where such a guest begins and ends in an image of this length, for a host that begins and ends
    /// there. `None` where the host or the image leaves no room for it.
    fn place(self, rng: &mut Rng, host: [usize; 2], length: usize) -> Option<[usize; 2]> {
        let [start, end] = host;
        // Up to 24 bytes, and at least one, before a place or behind it.
        let before = |rng: &mut Rng, place: usize| {
            let most = place.min(24);
            (most > 0).then(|| place - 1 - rng.below(most))
        };
        let behind = |rng: &mut Rng, place: usize| {
            let most = (length - place).min(24);
            (most > 0).then(|| place + 1 + rng.below(most))
        };
        let bytes = end - start;
        if bytes == 0 && self.shares() {
            return None;
        }
        match self {
            Lie::Equal => Some(host),
            Lie::Inside => {
                let from = start + rng.below(bytes);
                Some([from, from + 1 + rng.below(end - from)])
            }
            Lie::Around => Some([before(rng, start)?, behind(rng, end)?]),
            Lie::OverFirst => Some([before(rng, start)?, start + 1]),
            Lie::OverLast => Some([end - 1, behind(rng, end)?]),
            Lie::TouchesFirst => Some([before(rng, start)?, start]),
            Lie::TouchesLast => Some([end, behind(rng, end)?]),
            Lie::Empty => Some([start + rng.below(bytes + 1); 2]),
        }
    }
}

/// Adds a guest that lies so to a frame with an extent inside the image, and gives its number. `None`
/// where there is no room for it; the scene is then as it was.
pub fn add(rng: &mut Rng, scene: &mut Scene, lie: Lie, host: usize) -> Option<usize> {
    let start = usize::try_from(scene.start(host)).ok()?;
    let end = start.checked_add(usize::try_from(scene.stack_size(host)).ok()?)?;
    let length = scene.image.len();
    if end > length {
        return None;
    }
    let [from, to] = lie.place(rng, [start, end], length)?;
    let stack_pointer = scene.first.checked_add(from as u64)?;
    Some(stand(rng, scene, stack_pointer, (to - from) as u64))
}

/// Adds a frame of this size at this stack pointer, with up to three pairs, null or in registers, and a
/// function of its own, and gives its number. All its registers hold one base.
pub fn stand(rng: &mut Rng, scene: &mut Scene, stack_pointer: u64, size: u64) -> usize {
    let (version, pool) = (scene.section.version, scene.pool());
    let mut record = functions::statepoint(rng, pool);
    for _ in 0..rng.below(4) {
        let pair = match rng.one_in(3) {
            true => [pool.register(rng), pool.register(rng)],
            false => [pool.null(rng), pool.null(rng)],
        };
        record.locations.extend(pair);
    }
    let base = match scene.table.olds.len() {
        0 => 0,
        _ => rng.pick(&scene.table.olds),
    };
    let records = keys(&scene.section).into_iter();
    let mut taken = Taken::new(records, scene.stops.iter().map(|stop| stop.address));
    let number = scene.stops.len();
    let group = functions::standing(rng, version, size, &record, number, &mut taken);
    let function = scene.section.functions.len();
    scene.stops.push(Stop {
        address: group.address(),
        registers: [base; REGISTERS],
        listed: REGISTERS,
        record: scene.section.records.len() + group.at,
        function,
        named: named(rng, version, function, function + 1),
    });
    scene.set_frame_pointer(number, stack_pointer);
    scene.set_stack_pointer(number, stack_pointer);
    scene.section.functions.push(group.function);
    scene.section.records.extend(group.records);
    number
}
