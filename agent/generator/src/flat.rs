//! Random flat sections, source document 002's version 2: whole ones, aimed at one refusal,
//! damaged, at the edges of the rules, and ones that are slow to search. Everything is made from a
//! seed or is the same in every run.

pub mod aimed;
pub mod asked;
mod damage;
pub mod edges;
pub mod largest;
pub mod layout;
pub mod questions;
pub mod slow;
pub mod valid;

#[cfg(test)]
mod tests;
#[cfg(test)]
mod tests_questions;

pub use layout::Flat;

use crate::{Case, Rng};
use layout::{OFFSETS, VERSION};

/// A random case: whole, aimed at one refusal or at several, damaged at random, or noise.
pub fn case(rng: &mut Rng) -> Case {
    let flat = match rng.below(4) {
        0 => valid::crowded(rng),
        _ => valid::section(rng),
    };
    case_of(rng, &flat)
}

/// A random case that is made of this section. Where it is known to be accepted, its bytes are
/// those of the section.
pub fn case_of(rng: &mut Rng, flat: &Flat) -> Case {
    match rng.below(16) {
        0..=2 => Case::known("whole", flat.encode(), 0, 0),
        3..=8 => one_fault(rng, flat),
        9 | 10 => several_faults(rng, flat),
        11 => Case::open("noise", noise(rng)),
        _ => damaged(rng, flat),
    }
}

/// A case with one fault.
fn one_fault(rng: &mut Rng, flat: &Flat) -> Case {
    let mut built = flat.build();
    let number = rng.pick(&aimed::NUMBERS);
    match aimed::aim(rng, number, flat, &mut built) {
        true => Case::known("one fault", built.bytes, number, 0),
        false => Case::known("whole", built.bytes, 0, 0),
    }
}

/// A case with several faults, of which the least number is given: none of them undoes another.
fn several_faults(rng: &mut Rng, flat: &Flat) -> Case {
    let mut built = flat.build();
    let mut answer = 0;
    for number in aimed::NUMBERS.into_iter().rev() {
        if rng.one_in(2) && aimed::aim(rng, number, flat, &mut built) {
            answer = number;
        }
    }
    Case::known("several faults", built.bytes, answer, 0)
}

/// A case with one to three damages.
fn damaged(rng: &mut Rng, flat: &Flat) -> Case {
    let mut built = flat.build();
    let other = valid::section(rng).encode();
    for _ in 0..=rng.below(3) {
        damage::damage(rng, flat, &mut built, &other);
    }
    Case::open("damaged", built.bytes)
}

/// Bytes that are no section, after a header whose offsets rise and are mostly near the start.
fn noise(rng: &mut Rng) -> Vec<u8> {
    let mut bytes = vec![VERSION, 0, 0, 0];
    let mut offset = 32;
    for _ in OFFSETS {
        bytes.extend_from_slice(&(offset as u32).to_le_bytes());
        offset += rng.pick(&[0, 0, 0, 8, 24, 28, 56]);
    }
    bytes.extend_from_slice(&[0; 4]);
    let zeros = 1 + rng.below(8);
    let any = 32 + rng.below(160);
    let end = rng.pick(&[offset, offset, offset + 4, any]);
    while bytes.len() < end {
        bytes.push(if rng.below(8) < zeros { 0 } else { rng.byte() });
    }
    if rng.one_in(8) {
        bytes[0] = rng.byte();
    }
    bytes
}
