//! The slots of a frame, gathered from what the library says of its pointers: each once, in the order in which the
//! pairs list them.

use super::{Base, OfFrame, OfSlot, Stands};
use crate::frames::Naming;
use crate::inputs::slots::{pairs, At, Pair, Place};
use crate::inputs::Inputs;
use crate::library::{ExplainedPointer, ExplainedSlot, Slot};
use crate::listing::stack_size;
use std::collections::HashMap;

/// The pairs of a record that are not null, by their numbers.
type Pairs = HashMap<u64, Pair>;

/// What a record says of the frames that stand there.
pub fn stands(at: &At) -> (Stands, Pairs) {
    let functions = &at.listing.functions;
    let owner = at.owner.map(|owner| (owner, &functions[owner]));
    let stands = Stands {
        record: at.number,
        function: owner.map_or(0, |(number, _)| number as u64),
        stack_size: owner.map_or(0, |(_, function)| function.stack_size),
        pairs: at.record.pairs().unwrap_or_default() as u64,
    };
    let listed = pairs(at).into_iter();
    let listed = listed.map(|pair| (pair.number as u64, pair));
    (stands, listed.collect())
}

/// A frame, of what the library says of its pointers and the records of where frames stand.
pub fn of_frame(
    inputs: &Inputs,
    records: &HashMap<u64, Option<(Stands, Pairs)>>,
    position: usize,
    pointers: &[ExplainedPointer],
) -> OfFrame {
    let frame = inputs.lines[position].value.frame;
    let there = records.get(&frame.address).and_then(Option::as_ref);
    let (stands, pairs) = there.expect("a frame that is accepted stands at one record");
    let mut stands = *stands;
    if inputs.naming == Naming::InFunction {
        // Of version 1 it is the frame that names the function.
        stands.function = frame.function;
        stands.stack_size = stack_size(&inputs.section, frame.function).unwrap_or_default();
    }
    let mut gathered = Gathered {
        inputs,
        position,
        pairs,
        null_pairs: Vec::new(),
        slots: Vec::new(),
        met: HashMap::new(),
    };
    let mut before = None;
    let mut nth = 0;
    for pointer in pointers {
        nth = if before == Some(pointer.pair) {
            nth + 1
        } else {
            0
        };
        gathered.take(pointer, nth);
        before = Some(pointer.pair);
    }
    OfFrame {
        position,
        stands,
        pointers: pointers.len() as u64,
        null_pairs: gathered.null_pairs,
        slots: gathered.slots,
    }
}

/// What is gathered so far.
struct Gathered<'a> {
    inputs: &'a Inputs<'a>,
    position: usize,
    pairs: &'a Pairs,
    null_pairs: Vec<u64>,
    slots: Vec<OfSlot>,
    /// Where each slot stands among them.
    met: HashMap<Slot, usize>,
}

impl Gathered<'_> {
    /// Takes the pointer of this number in its pair.
    fn take(&mut self, pointer: &ExplainedPointer, nth: u16) {
        let pair = pointer.pair;
        let Some((base, derived)) = &pointer.slots else {
            self.null_pairs.push(pair);
            return;
        };
        let named = self.pairs.get(&pair).map(|pair| pair.places(nth));
        let place = |which: usize, slot: Slot| {
            let named = named.map(|places| places[which]);
            self.inputs.place(self.position, slot, named)
        };
        let (from, to) = (place(0, base.slot), place(1, derived.slot));
        let base_of = &mut self.slot(base, from).base_of;
        if base_of.last() != Some(&pair) {
            base_of.push(pair);
        }
        let from = match base.slot == derived.slot {
            true => Base::Itself,
            false => Base::At(from),
        };
        self.slot(derived, to).derived.get_or_insert((pair, from));
    }

    /// The entry of a slot, which is made where it is met for the first time.
    fn slot(&mut self, explained: &ExplainedSlot, place: Place) -> &mut OfSlot {
        let index = *self.met.entry(explained.slot).or_insert(self.slots.len());
        if index == self.slots.len() {
            self.slots.push(OfSlot {
                slot: explained.slot,
                place,
                content: Some([explained.content, explained.new_content()]),
                reason: explained.reason,
                derived: None,
                base_of: Vec::new(),
                beside: None,
            });
        }
        &mut self.slots[index]
    }
}
