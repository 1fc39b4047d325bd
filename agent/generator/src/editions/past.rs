//! What has been done to a store so far: it decides what the next call is answered, and which
//! numbers are worth asking for.

use super::{settings, Answer, Call, Settings, LAST, PLACES};
use crate::rng::Rng;

/// The editions of a store.
pub struct Past {
    /// The greatest number ever used.
    pub greatest: u64,
    /// The live editions, in no order.
    pub live: Vec<(u64, Settings)>,
    /// Editions that have been retired: of a long past only some.
    retired: Vec<u64>,
}

impl Past {
    /// Of an empty store.
    pub fn empty() -> Past {
        Past {
            greatest: 0,
            live: Vec::new(),
            retired: Vec::new(),
        }
    }

    /// Of a store with this greatest number, over 200, on which the last editions or the first ones
    /// are live, or some of them, or none. It is full only where its greatest is live: where that is
    /// retired, it once had the place that is free.
    pub fn long(rng: &mut Rng, greatest: u64) -> Past {
        let mut past = Past::empty();
        past.greatest = greatest;
        let live = rng.pick(&[0, 1, 4, 7, 8, 8]);
        let last = (greatest - 99..=greatest).rev();
        let mut room = PLACES - 1;
        for number in last.chain(1..=4) {
            let has_place = room > 0 || number == greatest;
            if has_place && rng.below(8) < live {
                past.live.push((number, settings::right(rng)));
                room -= usize::from(number != greatest);
            } else {
                past.retired.push(number);
            }
        }
        past.shuffle(rng);
        past
    }

    /// Puts the live editions into any order.
    fn shuffle(&mut self, rng: &mut Rng) {
        for nth in (1..self.live.len()).rev() {
            self.live.swap(nth, rng.below(nth + 1));
        }
    }

    /// Does what a call does, and gives its answer.
    pub fn answer(&mut self, call: Call) -> Answer {
        match call {
            Call::Make(settings) => self.make(settings),
            Call::Retire(number) => match self.place(number) {
                Some(place) => {
                    self.live.swap_remove(place);
                    self.retired.push(number);
                    Answer::Retired
                }
                None => Answer::Refused(31),
            },
            Call::Read(number) => match self.place(number) {
                Some(place) => Answer::Read(self.live[place].1),
                None => Answer::Refused(31),
            },
        }
    }

    fn make(&mut self, settings: Settings) -> Answer {
        if !settings.are_right() {
            return Answer::Refused(51);
        }
        if self.greatest == LAST {
            return Answer::Refused(32);
        }
        if self.live.len() == PLACES {
            return Answer::Refused(30);
        }
        self.greatest += 1;
        self.live.push((self.greatest, settings));
        Answer::Made(self.greatest)
    }

    /// Where a live edition stands in the list.
    fn place(&self, number: u64) -> Option<usize> {
        self.live.iter().position(|(own, _)| *own == number)
    }

    /// The number of a live edition, often the oldest or the newest in the list; where there is none,
    /// the greatest number.
    pub fn one_of_live(&self, rng: &mut Rng) -> u64 {
        let Some(last) = self.live.len().checked_sub(1) else {
            return self.greatest;
        };
        let any = rng.below(last + 1);
        self.live[rng.pick(&[0, last, any, any, any])].0
    }

    /// The number of a retired edition, often the newest; where there is none, 0.
    fn one_of_retired(&self, rng: &mut Rng) -> u64 {
        let Some(last) = self.retired.len().checked_sub(1) else {
            return 0;
        };
        let any = rng.below(last + 1);
        self.retired[rng.pick(&[last, any, any])]
    }

    /// A number that is mostly not that of a live edition: a retired one, 0, one past the greatest or
    /// past the last, or one that only a narrower number would take for a live one.
    pub fn other(&self, rng: &mut Rng) -> u64 {
        let live = self.one_of_live(rng);
        match rng.below(12) {
            0..=3 => self.one_of_retired(rng),
            4 => 0,
            5 => self.greatest + 1,
            6 => self.greatest + 2 + rng.below(70) as u64,
            7 => LAST + rng.below(3) as u64,
            8 => live + (1 << 32),
            9 => live ^ 1 << rng.below(64),
            10 => u64::MAX - rng.below(3) as u64,
            _ => rng.number(64),
        }
    }
}
