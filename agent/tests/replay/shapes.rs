//! Shapes of recorded traces, which random ones must have often enough.

use crate::Wrong;
use generator::frames::named::Named;
use generator::frames::plain;
use generator::traces::Trace;
use reference::replay::{Recorded, Step};

/// A trace under an edition, the answers of its frames, the wrong ones that were put in, and the image after it.
pub struct Replayed<'a> {
    pub trace: &'a Trace,
    /// Nothing where the store is damaged.
    pub named: Option<&'a Named>,
    pub steps: &'a [Step],
    pub answers: &'a [Recorded],
    pub wrong: Option<Wrong>,
    pub image: &'a [u8],
}

/// A shape: its name, and whether a trace has it.
type Shape = (&'static str, fn(&Replayed) -> bool);

pub const SHAPES: [Shape; 26] = [
    ("no frames", |it| it.steps.is_empty()),
    ("one frame", |it| it.steps.len() == 1),
    ("several frames", |it| it.steps.len() > 1),
    ("all frames moved", |it| {
        it.steps.len() > 1 && it.answers.iter().all(|answer| answer.number == 0)
    }),
    ("a changed image", |it| it.image != it.trace.scene.image),
    ("frames of both machines", |it| {
        it.steps.iter().any(|step| step.machine == 0)
            && it.steps.iter().any(|step| step.machine == 1)
    }),
    ("frames of both machines, some moved and some 33", |it| {
        it.with(0) && it.with(33)
    }),
    ("a frame that an earlier one has changed", |it| it.changed()),
    ("the same frame again, with another answer", |it| it.again()),
    ("an edition that is unknown or retired", |it| {
        it.with(31) && it.named.is_some_and(|named| named.settings().is_none())
    }),
    ("an edition of another machine", |it| {
        let own = it.named.and_then(Named::settings);
        it.with(33) && own.is_some_and(|own| own.machine != it.trace.scene.machine)
    }),
    ("an edition of another version", |it| {
        let own = it.named.and_then(Named::settings);
        it.with(33) && own.is_some_and(|own| !(own.version_1 && own.version_3))
    }),
    ("an answer from a damaged store", |it| {
        it.named.is_none() && !it.steps.is_empty()
    }),
    ("17 by the edition's count", |it| {
        it.with(17) && it.named.is_some_and(|named| named.most() < 256)
    }),
    ("a section that is refused", |it| {
        it.answers
            .iter()
            .any(|answer| (1..10).contains(&answer.number))
    }),
    ("a wrong number, the first answer", |it| {
        it.wrong(|wrong, _| wrong.by_number) && it.is_at(0)
    }),
    ("a wrong number, among others", |it| {
        it.wrong(|wrong, _| wrong.by_number) && it.is_among()
    }),
    ("a wrong number, the last answer", |it| {
        it.wrong(|wrong, _| wrong.by_number) && it.is_at(it.last())
    }),
    ("a wrong place, the first answer", |it| {
        it.wrong(|wrong, own| !wrong.by_number && own.number != 0) && it.is_at(0)
    }),
    ("a wrong place, among others", |it| {
        it.wrong(|wrong, own| !wrong.by_number && own.number != 0) && it.is_among()
    }),
    ("a wrong place, the last answer", |it| {
        it.wrong(|wrong, own| !wrong.by_number && own.number != 0) && it.is_at(it.last())
    }),
    ("a wrong count, the first answer", |it| {
        it.wrong(|wrong, own| !wrong.by_number && own.number == 0) && it.is_at(0)
    }),
    ("a wrong count, among others", |it| {
        it.wrong(|wrong, own| !wrong.by_number && own.number == 0) && it.is_among()
    }),
    ("a wrong count, the last answer", |it| {
        it.wrong(|wrong, own| !wrong.by_number && own.number == 0) && it.is_at(it.last())
    }),
    ("several wrong answers", |it| {
        it.wrong(|wrong, _| wrong.more) && !it.is_at(it.last())
    }),
    ("a frame moved after the first difference", |it| {
        let after = it.wrong.and_then(|wrong| it.answers.get(wrong.item + 1..));
        let moved = |answer: &Recorded| answer.number == 0 && answer.value > 0;
        after.is_some_and(|after| after.iter().any(moved))
    }),
];

impl Replayed<'_> {
    /// Whether a frame got this number.
    fn with(&self, number: u8) -> bool {
        self.answers.iter().any(|answer| answer.number == number)
    }

    /// Whether the wrong answer is of this sort.
    fn wrong(&self, is: impl Fn(Wrong, Recorded) -> bool) -> bool {
        self.wrong
            .is_some_and(|wrong| is(wrong, self.answers[wrong.item]))
    }

    fn last(&self) -> usize {
        self.answers.len() - 1
    }

    /// Whether the wrong answer is this one of several.
    fn is_at(&self, item: usize) -> bool {
        self.answers.len() > 1 && self.wrong.is_some_and(|wrong| wrong.item == item)
    }

    fn is_among(&self) -> bool {
        !self.is_at(0) && !self.is_at(self.last()) && self.answers.len() > 2
    }

    /// Whether two steps of the same frame got different answers.
    fn again(&self) -> bool {
        let both = || self.steps.iter().zip(self.answers);
        both().enumerate().any(|(nth, (own, answer))| {
            both().take(nth).any(|(other, before)| {
                let same = (own.machine, own.frame, own.registers)
                    == (other.machine, other.frame, other.registers);
                same && answer != before
            })
        })
    }

    /// Whether a frame got another answer than it would have got on the starting image, where nothing is wrong with
    /// what all frames share.
    fn changed(&self) -> bool {
        let scene = &self.trace.scene;
        let Some(named) = self.named.filter(|named| named.allows(scene)) else {
            return false;
        };
        if self.trace.section != scene.section.encode() {
            return false;
        }
        let shared = [13, 14];
        let mut both = self.steps.iter().zip(self.answers);
        both.any(|(step, answer)| {
            let own = |stop: &usize| {
                let own = &scene.stops[*stop];
                (own.address, own.named) == (step.frame.address, step.frame.function)
                    && own.registers == step.registers
                    && scene.machine == u64::from(step.machine)
            };
            let mut stops = 0..scene.stops.len();
            let first = stops.find(own);
            let alone = first.map(|stop| plain::refusal_under(scene, stop, named.most()));
            let now = u64::from(answer.number);
            alone.is_some_and(|(number, _)| number != now && !shared.contains(&now))
        })
    }
}
