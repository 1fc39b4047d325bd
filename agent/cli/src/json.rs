//! Answers for programs: one JSON object a line, whose field `answer` tells what it is.
//!
//! A field of 64 bits is always a string, hexadecimal with 0x; all other numbers are below 2^53. What a
//! section does not say is null, and what does not belong to an answer is left out.

use crate::library::Found;
use crate::listing::{self, role, Listing, Role};
use crate::names::shown;
use crate::receipt::Edition;
use crate::registers::Machine;
use crate::text::UNKNOWN;
use crate::trouble::{Fault, Refused};
use serde::{Serialize, Serializer};
use std::io::{self, Write};
use std::path::Path;

/// One object.
#[derive(Serialize)]
#[serde(tag = "answer", rename_all = "lowercase")]
pub enum Answer<'a> {
    /// `check`: a section.
    Accepted {
        file: &'a str,
        /// The profile that it was held against too.
        #[serde(skip_serializing_if = "Option::is_none")]
        profile: Option<&'static str>,
        /// How many maps it has, where there are several.
        #[serde(skip_serializing_if = "Option::is_none")]
        maps: Option<u64>,
    },
    /// Any command: what was refused.
    Refused(Refusal<'a>),
    /// Any command: a file that cannot be read or written, or a bad line.
    Failed {
        #[serde(skip_serializing_if = "Option::is_none")]
        file: Option<String>,
        #[serde(skip_serializing_if = "Option::is_none")]
        line: Option<usize>,
        error: &'a str,
    },
    /// `list` and `restore`: something that is allowed and looks wrong.
    Warning {
        file: &'a str,
        warning: &'a str,
    },
    /// `list`: the section as a whole, before the rest.
    Section(Section<'a>),
    Function(Function),
    Record(Record),
    Constant {
        #[serde(skip_serializing_if = "Option::is_none")]
        map: Option<u64>,
        constant: u64,
        value: Hex,
    },
    /// `find`.
    Found {
        file: &'a str,
        asked: &'a str,
        /// The map that it is found in, where there are several.
        #[serde(skip_serializing_if = "Option::is_none")]
        map: Option<u64>,
        sharing: u64,
        function: Function,
        record: Record,
    },
    /// `find`: what is found at an address of a list.
    Located {
        file: &'a str,
        line: usize,
        asked: &'a str,
        #[serde(skip_serializing_if = "Option::is_none")]
        map: Option<u64>,
        record: u64,
        function: u64,
        sharing: u64,
    },
    /// `cut`: a part, and where it lies in the file.
    Part {
        file: &'a str,
        part: u64,
        first: u64,
        bytes: u64,
    },
    /// `cut`: the folder that holds the parts.
    Written {
        file: &'a str,
        folder: &'a str,
        parts: u64,
    },
    /// `restore`.
    Restored {
        image: &'a str,
        output: &'a str,
        #[serde(skip_serializing_if = "Option::is_none")]
        new_frames: Option<String>,
        receipt: &'a str,
        #[serde(skip_serializing_if = "Option::is_none")]
        trace: Option<String>,
        frames: u64,
        pointers: u64,
        registers: u64,
        edition: Option<Edition>,
        #[serde(skip_serializing_if = "Option::is_none")]
        report: Option<String>,
    },
}

#[derive(Serialize)]
pub struct Refusal<'a> {
    file: String,
    #[serde(skip_serializing_if = "Option::is_none")]
    line: Option<usize>,
    #[serde(skip_serializing_if = "Option::is_none")]
    frame: Option<u64>,
    #[serde(skip_serializing_if = "Option::is_none")]
    pair: Option<u64>,
    #[serde(skip_serializing_if = "Option::is_none")]
    part: Option<u64>,
    #[serde(skip_serializing_if = "Option::is_none")]
    map: Option<u64>,
    #[serde(skip_serializing_if = "Option::is_none")]
    first: Option<u64>,
    #[serde(skip_serializing_if = "Option::is_none")]
    number: Option<u64>,
    #[serde(skip_serializing_if = "Option::is_none")]
    place: Option<u64>,
    cause: &'a str,
    #[serde(skip_serializing_if = "Option::is_none")]
    found: Option<&'a str>,
}

#[derive(Serialize)]
pub struct Section<'a> {
    file: &'a str,
    /// Which of several maps it is, and its first byte.
    #[serde(skip_serializing_if = "Option::is_none")]
    map: Option<u64>,
    #[serde(skip_serializing_if = "Option::is_none")]
    first: Option<u64>,
    version: u8,
    bytes: usize,
    functions: usize,
    constants: usize,
    records: usize,
}

#[derive(Serialize)]
pub struct Function {
    #[serde(skip_serializing_if = "Option::is_none")]
    map: Option<u64>,
    function: u64,
    address: Hex,
    stack_size: Option<Hex>,
    records: Option<u64>,
}

#[derive(Serialize)]
pub struct Record {
    #[serde(skip_serializing_if = "Option::is_none")]
    map: Option<u64>,
    record: u64,
    function: Option<u64>,
    address: Option<Hex>,
    id: Hex,
    offset: u32,
    pairs: Option<usize>,
    locations: Vec<Location>,
    live_outs: Vec<LiveOut>,
}

#[derive(Serialize)]
struct Location {
    kind: &'static str,
    size: u16,
    #[serde(skip_serializing_if = "Option::is_none")]
    register: Option<String>,
    #[serde(skip_serializing_if = "Option::is_none")]
    dwarf: Option<u16>,
    offset: i32,
    #[serde(skip_serializing_if = "Option::is_none")]
    value: Option<Hex>,
    #[serde(skip_serializing_if = "Option::is_none")]
    role: Option<&'static str>,
    #[serde(skip_serializing_if = "Option::is_none")]
    pair: Option<usize>,
}

#[derive(Serialize)]
struct LiveOut {
    register: String,
    dwarf: u16,
    size: u8,
}

/// A number of 64 bits.
#[derive(Clone, Copy)]
pub struct Hex(pub u64);

impl Serialize for Hex {
    fn serialize<S: Serializer>(&self, serializer: S) -> Result<S::Ok, S::Error> {
        serializer.collect_str(&format_args!("{:#x}", self.0))
    }
}

/// A file's name: as it is where that is text, else as it is shown.
pub fn name(path: &Path) -> String {
    path.to_str().map_or_else(|| shown(path), str::to_string)
}

impl<'a> Answer<'a> {
    pub fn refused(refused: &'a Refused) -> Answer<'a> {
        Answer::Refused(Refusal {
            file: name(&refused.file),
            line: refused.line,
            frame: refused.frame,
            pair: refused.pair,
            part: refused.part.map(|(part, _)| part),
            map: refused.map.map(|(map, _)| map),
            first: refused.part.or(refused.map).map(|(_, first)| first),
            number: refused.answer.map(|(number, _)| number),
            place: refused.answer.map(|(_, place)| place),
            cause: &refused.cause,
            found: refused.found.as_deref(),
        })
    }

    pub fn failed(fault: &'a Fault) -> Answer<'a> {
        Answer::Failed {
            file: fault.file.as_deref().map(name),
            line: fault.line,
            error: &fault.error,
        }
    }

    /// Writes it on a line of its own.
    fn write(&self, out: &mut dyn Write) -> io::Result<()> {
        serde_json::to_writer(&mut *out, self)?;
        out.write_all(b"\n")
    }
}

/// Writes all that a section says: the section, its functions, its constants, its records. Of several maps each is
/// told so, with its number and its first byte.
pub fn section(
    out: &mut dyn Write,
    file: &Path,
    map: Option<(u64, u64)>,
    listing: &Listing,
    length: usize,
    machine: Machine,
) -> io::Result<()> {
    let (map, first) = map.unzip();
    let head = Section {
        file: &name(file),
        map,
        first,
        version: if listing.version_1 { 1 } else { 3 },
        bytes: length,
        functions: listing.functions.len(),
        constants: listing.constants.len(),
        records: listing.records().count(),
    };
    Answer::Section(head).write(out)?;
    for number in 0..listing.functions.len() {
        Answer::Function(Function {
            map,
            ..function(listing, number)
        })
        .write(out)?;
    }
    for (constant, value) in (0..).zip(&listing.constants) {
        let value = Hex(*value);
        Answer::Constant {
            map,
            constant,
            value,
        }
        .write(out)?;
    }
    for (index, (owner, body)) in (0..).zip(listing.records()) {
        Answer::Record(Record {
            map,
            ..record(listing, index, owner, &body, machine)
        })
        .write(out)?;
    }
    Ok(())
}

/// Writes a record that was found, and its function; of several maps with the number of its own.
pub fn found(
    out: &mut dyn Write,
    file: &Path,
    asked: &str,
    map: Option<u64>,
    listing: &Listing,
    found: &Found,
    machine: Machine,
) -> io::Result<()> {
    let at = |number: u64| usize::try_from(number).unwrap_or(usize::MAX);
    let Some((owner, body)) = listing.records().nth(at(found.record)) else {
        return Ok(());
    };
    let answer = Answer::Found {
        file: &name(file),
        asked,
        map,
        sharing: found.sharing,
        function: function(listing, at(found.function)),
        record: record(listing, found.record, owner, &body, machine),
    };
    answer.write(out)
}

fn function(listing: &Listing, number: usize) -> Function {
    let function = &listing.functions[number];
    let known = function.stack_size != UNKNOWN;
    Function {
        map: None,
        function: number as u64,
        address: Hex(function.address),
        stack_size: known.then_some(Hex(function.stack_size)),
        records: (!listing.version_1).then_some(function.record_count),
    }
}

fn record(
    listing: &Listing,
    index: u64,
    owner: Option<usize>,
    record: &listing::Record,
    machine: Machine,
) -> Record {
    let start = owner.map(|owner| listing.functions[owner].address);
    let address = start.map(|start| Hex(start.wrapping_add(record.offset.into())));
    let deopt = record.deopt_count();
    let role = |number| deopt.map(|deopt| role(number, deopt));
    let locations = record.locations.iter().enumerate();
    Record {
        map: None,
        record: index,
        function: owner.map(|owner| owner as u64),
        address,
        id: Hex(record.id),
        offset: record.offset,
        pairs: record.pairs(),
        locations: locations
            .map(|(number, body)| location(listing, body, role(number), machine))
            .collect(),
        live_outs: record
            .live_outs
            .iter()
            .map(|live_out| LiveOut {
                register: machine.register(live_out.register),
                dwarf: live_out.register,
                size: live_out.size,
            })
            .collect(),
    }
}

fn location(
    listing: &Listing,
    location: &listing::Location,
    role: Option<Role>,
    machine: Machine,
) -> Location {
    let (role, pair) = match role {
        None => (None, None),
        Some(Role::Call) => (Some("call"), None),
        Some(Role::DeoptCount) => (Some("deopt_count"), None),
        Some(Role::Deopt) => (Some("deopt"), None),
        Some(Role::Base(pair)) => (Some("base"), Some(pair)),
        Some(Role::Derived(pair)) => (Some("derived"), Some(pair)),
    };
    let of_register = matches!(location.kind, 1..=3).then_some(location.register);
    Location {
        kind: match location.kind {
            1 => "Register",
            2 => "Direct",
            3 => "Indirect",
            4 => "Constant",
            _ => "ConstIndex",
        },
        size: location.size,
        register: of_register.map(|number| machine.register(number)),
        dwarf: of_register,
        offset: location.offset,
        value: listing.constant(location).map(Hex),
        role,
        pair,
    }
}
