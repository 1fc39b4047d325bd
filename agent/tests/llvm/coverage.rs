//! What the sections of one target must show between them.

use reference::section::{Function, Location, Record, Section};

/// Panics unless every shape is among the sections.
pub fn assert_every_shape(target: &str, sections: impl Iterator<Item = Section>) {
    let sections: Vec<Section> = sections.collect();
    let functions: Vec<&Function> = sections
        .iter()
        .flat_map(|section| &section.functions)
        .collect();
    let records: Vec<&Record> = sections
        .iter()
        .flat_map(|section| &section.records)
        .collect();
    let locations: Vec<&Location> = records
        .iter()
        .flat_map(|record| &record.locations)
        .collect();
    for (shape, seen) in shapes_of_functions(&functions)
        .into_iter()
        .chain(shapes_of_records(&records))
        .chain(shapes_of_locations(&locations))
        .chain([(
            "two records at one address",
            sections.iter().any(shares_an_address),
        )])
    {
        assert!(seen, "{target}: no section shows {shape}");
    }
}

type Shape = (&'static str, bool);

fn shapes_of_functions(functions: &[&Function]) -> Vec<Shape> {
    let any = |is: fn(&Function) -> bool| functions.iter().any(|function| is(function));
    vec![
        (
            "an unknown stack size",
            any(|function| function.stack_size == u64::MAX),
        ),
        (
            "a known stack size",
            any(|function| function.stack_size < 1 << 16),
        ),
        (
            "several records in a function",
            any(|function| function.record_count > 1),
        ),
        (
            "an address over 32 bits",
            any(|function| function.address > 1 << 32),
        ),
    ]
}

fn shapes_of_records(records: &[&Record]) -> Vec<Shape> {
    let any = |is: fn(&Record) -> bool| records.iter().any(|record| is(record));
    vec![
        ("no locations", any(|record| record.locations.is_empty())),
        (
            "an even number of locations",
            any(|record| is_even(record.locations.len())),
        ),
        (
            "an odd number of locations",
            any(|record| is_odd(record.locations.len())),
        ),
        ("no live-outs", any(|record| record.live_outs.is_empty())),
        (
            "an even number of live-outs",
            any(|record| is_even(record.live_outs.len())),
        ),
        (
            "an odd number of live-outs",
            any(|record| is_odd(record.live_outs.len())),
        ),
        (
            "both numbers odd",
            any(|record| is_odd(record.locations.len()) && is_odd(record.live_outs.len())),
        ),
        (
            "both numbers even",
            any(|record| is_even(record.locations.len()) && is_even(record.live_outs.len())),
        ),
        (
            "a live-out of size 4",
            any(|record| record.live_outs.iter().any(|live_out| live_out.size == 4)),
        ),
        (
            "a live-out of size 16",
            any(|record| record.live_outs.iter().any(|live_out| live_out.size == 16)),
        ),
        (
            "a statepoint with a base and a derived pointer",
            any(has_derived),
        ),
        ("a statepoint with a null pair", any(has_null_pair)),
        (
            "a statepoint without pairs",
            any(|record| deopt(record).is_some() && pairs(record).count() == 0),
        ),
        (
            "a statepoint with deoptimisation values",
            any(|record| matches!(deopt(record), Some(1..))),
        ),
    ]
}

fn shapes_of_locations(locations: &[&Location]) -> Vec<Shape> {
    let any = |is: fn(&Location) -> bool| locations.iter().any(|location| is(location));
    vec![
        ("a register", any(|location| location.kind == 1)),
        (
            "an address in the frame",
            any(|location| location.kind == 2),
        ),
        ("a slot", any(|location| location.kind == 3)),
        (
            "a small constant",
            any(|location| location.kind == 4 && location.offset > 0),
        ),
        (
            "a constant of the pool",
            any(|location| location.kind == 5 && location.offset > 0),
        ),
        (
            "a negative constant",
            any(|location| location.kind == 4 && location.offset < 0),
        ),
        (
            "a slot below its register",
            any(|location| location.kind == 3 && location.offset < 0),
        ),
        ("a location of size 4", any(|location| location.size == 4)),
        ("a location of size 16", any(|location| location.size == 16)),
        (
            "a slot of three pointers",
            any(|location| location.kind == 3 && location.size == 24),
        ),
        (
            "a slot of 256 pointers",
            any(|location| location.kind == 3 && location.size == 2048),
        ),
        (
            "a slot of 257 pointers",
            any(|location| location.kind == 3 && location.size == 2056),
        ),
    ]
}

fn is_odd(count: usize) -> bool {
    count % 2 == 1
}

/// Even and not 0.
fn is_even(count: usize) -> bool {
    count > 0 && count.is_multiple_of(2)
}

/// The number of deoptimisation values, where the record is a statepoint.
fn deopt(record: &Record) -> Option<usize> {
    let constants = record.locations.get(..3)?;
    let count = usize::try_from(constants[2].offset).ok()?;
    let left = record.locations.len().checked_sub(3 + count)?;
    let is_statepoint = constants.iter().all(|location| location.kind == 4) && left % 2 == 0;
    (is_statepoint && record.live_outs.is_empty()).then_some(count)
}

/// The pairs of a statepoint, base first; none where it is no statepoint.
fn pairs(record: &Record) -> impl Iterator<Item = (&Location, &Location)> {
    let first = deopt(record).map_or(record.locations.len(), |count| 3 + count);
    record.locations[first..]
        .chunks_exact(2)
        .map(|pair| (&pair[0], &pair[1]))
}

/// Both an object that is its own base and a pointer derived from it, in slots of their own.
fn has_derived(record: &Record) -> bool {
    let slot =
        |location: &Location| (location.kind == 3).then_some((location.register, location.offset));
    let slots: Vec<_> = pairs(record)
        .map(|(base, derived)| (slot(base), slot(derived)))
        .collect();
    slots.iter().any(|&(base, derived)| {
        base.is_some() && derived.is_some() && base != derived && slots.contains(&(base, base))
    })
}

fn has_null_pair(record: &Record) -> bool {
    let null = |location: &Location| location.kind == 4 && location.offset == 0;
    pairs(record).any(|(base, derived)| null(base) && null(derived))
}

fn shares_an_address(section: &Section) -> bool {
    section
        .records
        .windows(2)
        .any(|two| two[0].address == two[1].address)
}
