//! What the frames at the stops of a run were like. The tests ask for each shape, so that they
//! cannot become empty unseen.

use crate::frames::Stopped;
use crate::heap::Object;
use crate::maps::Place;
use crate::program::function;
use crate::run::Stop;
use crate::state::Slot;
use std::collections::BTreeSet;

/// How often each shape occurs, by name.
#[derive(Default)]
pub struct Shapes {
    counts: Vec<(&'static str, u64)>,
}

impl Shapes {
    /// The shapes of some stops.
    pub fn of<'a>(stops: impl Iterator<Item = &'a Stop>) -> Shapes {
        let mut shapes = Shapes::default();
        for stop in stops {
            shapes.add_stop(stop);
        }
        shapes
    }

    /// The names and the counts; a shape that never occurs is not there.
    pub fn counts(&self) -> &[(&'static str, u64)] {
        &self.counts
    }

    fn add(&mut self, name: &'static str, count: usize) {
        let more = count as u64;
        match self.counts.iter_mut().find(|(known, _)| *known == name) {
            _ if more == 0 => {}
            Some((_, total)) => *total += more,
            None => self.counts.push((name, more)),
        }
    }

    fn add_stop(&mut self, stop: &Stop) {
        let names: BTreeSet<_> = stop.frames.iter().map(|at| function(at.site.id)).collect();
        let maps: BTreeSet<_> = stop.frames.iter().map(|at| at.site.map).collect();
        self.add("frames", stop.frames.len());
        self.add("functions", names.len());
        self.add("frames-of-recursion", stop.frames.len() - names.len());
        self.add("maps", maps.len());
        for (number, stopped) in stop.frames.iter().enumerate() {
            self.add_frame(stopped);
            self.add_registers(stop, number);
            for &pair in &stopped.site.pairs {
                self.add_pair(stop, number, pair);
            }
        }
    }

    fn add_frame(&mut self, stopped: &Stopped) {
        let slots: Vec<_> = stopped.all_slots().collect();
        let sharing = |base| slots.iter().filter(|[other, _]| *other == base).count();
        let alone = |base| slots.iter().all(|[_, derived]| *derived != base);
        self.add("pairs", stopped.site.pairs.len());
        self.add("pointers", stopped.pointer_count() as usize);
        self.add(
            "base-of-three-or-more",
            slots.iter().filter(|[base, _]| sharing(*base) > 2).count(),
        );
        self.add(
            "base-not-listed-itself",
            slots.iter().filter(|[base, _]| alone(*base)).count(),
        );
        self.add(
            "frames-with-frame-pointer-slots",
            usize::from(stopped.uses_frame_pointer()),
        );
        self.add("deopt-values", stopped.site.deopt as usize);
        self.add("saved-registers", stopped.saved.count());
    }

    /// Where the registers are kept that are slots of a frame.
    fn add_registers(&mut self, stop: &Stop, number: usize) {
        let (below, rest) = stop.frames.split_at(number);
        let own: BTreeSet<u16> = rest[0].register_slots().collect();
        for register in own {
            let home = rest[0].homes.of(register).unwrap_or(0);
            let of = |stopped: &Stopped| (stopped.stack_pointer()..stopped.end()).contains(&home);
            let name = match below.iter().rposition(of) {
                None if number == 0 => "registers-at-the-stop",
                Some(frame) if frame + 1 == number => "registers-in-the-callee",
                None => "registers-through-to-the-stop",
                Some(_) => "registers-through-frames",
            };
            self.add(name, 1);
        }
    }

    fn add_pair(&mut self, stop: &Stop, frame: usize, pair: [Place; 2]) {
        let slots = stop.frames[frame].slots(pair);
        if slots.is_empty() {
            let null = pair == [Place::Constant(0); 2];
            self.add(if null { "null-pair" } else { "other-pair" }, 1);
        }
        self.add("pairs-of-several", usize::from(slots.len() > 1));
        self.add("pairs-of-256", usize::from(slots.len() == 256));
        for slots in slots {
            self.add_pointer(stop, frame, slots);
        }
    }

    fn add_pointer(&mut self, stop: &Stop, frame: usize, slots: [Slot; 2]) {
        self.add(mix_of(slots), 1);
        let [old_base, old] = slots.map(|slot| stop.before.content(frame, slot));
        let object = stop.objects.iter().find(|object| object.start == old_base);
        self.add(shape_of(object, old_base, old), 1);
        let moved = stop.after.content(frame, slots[1]).wrapping_sub(old);
        self.add("slots-moved", usize::from(moved != 0));
    }
}

/// Where base and derived are.
fn mix_of(slots: [Slot; 2]) -> &'static str {
    match slots {
        [Slot::Memory(_), Slot::Memory(_)] => "memory-from-memory",
        [Slot::Memory(_), Slot::Register(_)] => "register-from-memory",
        [Slot::Register(_), Slot::Memory(_)] => "memory-from-register",
        [Slot::Register(base), Slot::Register(derived)] if base == derived => "register-itself",
        [Slot::Register(_), Slot::Register(_)] => "register-from-another",
    }
}

/// What a derived pointer is to its object.
fn shape_of(object: Option<&Object>, base: u64, derived: u64) -> &'static str {
    match object {
        None if base == 0 && derived == 0 => "null-base",
        None if base == 0 => "derived-from-null",
        None => "base-of-no-object",
        Some(_) if derived == base => "object-itself",
        Some(object) if derived == base + object.length => "one-past-the-end",
        Some(_) if derived < base => "before-the-start",
        Some(object) if derived < base + object.length => "inside",
        Some(_) => "far-behind",
    }
}
