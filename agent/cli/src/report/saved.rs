//! A report as a JSON object, and saved ones read back.

use super::{passing, Report};
use crate::files;
use crate::json::Hex;
use crate::library::{self, Kinds, Totals};
use crate::numbers::hexadecimal;
use crate::trouble::{Refused, Trouble};
use serde::de::{self, Deserialize, Deserializer};
use serde::Serialize;
use serde_json::Value;
use std::path::Path;

/// The object of a report.
#[derive(Serialize, serde::Deserialize)]
#[serde(deny_unknown_fields)]
pub struct Object {
    answer: String,
    totals: Counts,
    machines: Vec<Machine>,
}

#[derive(Serialize, serde::Deserialize)]
#[serde(deny_unknown_fields)]
struct Machine {
    machine: Option<String>,
    totals: Counts,
}

#[derive(Serialize, serde::Deserialize)]
#[serde(deny_unknown_fields)]
struct Counts {
    sections: Hex,
    refused: Hex,
    functions: Hex,
    records: Hex,
    statepoints: Hex,
    pairs: Hex,
    kinds: KindCounts,
    stack: Hex,
    unknown: Hex,
}

#[derive(Serialize, serde::Deserialize)]
#[serde(deny_unknown_fields, rename_all = "PascalCase")]
struct KindCounts {
    register: Hex,
    direct: Hex,
    indirect: Hex,
    constant: Hex,
    const_index: Hex,
}

/// The name of the object.
const REPORT: &str = "report";

impl<'de> Deserialize<'de> for Hex {
    fn deserialize<D: Deserializer<'de>>(deserializer: D) -> Result<Hex, D::Error> {
        let text = String::deserialize(deserializer)?;
        let number = text.starts_with("0x").then(|| hexadecimal(text.as_bytes()));
        let wrong = || de::Error::custom(format!("'{}' is no number", text.escape_debug()));
        number.flatten().map(Hex).ok_or_else(wrong)
    }
}

impl From<Totals> for Counts {
    fn from(totals: Totals) -> Counts {
        let kinds = totals.kinds;
        Counts {
            sections: Hex(totals.sections),
            refused: Hex(totals.refused),
            functions: Hex(totals.functions),
            records: Hex(totals.records),
            statepoints: Hex(totals.statepoints),
            pairs: Hex(totals.pairs),
            kinds: KindCounts {
                register: Hex(kinds.register),
                direct: Hex(kinds.direct),
                indirect: Hex(kinds.indirect),
                constant: Hex(kinds.constant),
                const_index: Hex(kinds.const_index),
            },
            stack: Hex(totals.stack),
            unknown: Hex(totals.unknown),
        }
    }
}

impl From<&Counts> for Totals {
    fn from(counts: &Counts) -> Totals {
        let kinds = &counts.kinds;
        Totals {
            sections: counts.sections.0,
            refused: counts.refused.0,
            functions: counts.functions.0,
            records: counts.records.0,
            statepoints: counts.statepoints.0,
            pairs: counts.pairs.0,
            kinds: Kinds {
                register: kinds.register.0,
                direct: kinds.direct.0,
                indirect: kinds.indirect.0,
                constant: kinds.constant.0,
                const_index: kinds.const_index.0,
            },
            stack: counts.stack.0,
            unknown: counts.unknown.0,
        }
    }
}

/// The object of a report, for programs, and to be saved.
pub fn object(report: &Report) -> Object {
    let machine = |own: &super::Machine| Machine {
        machine: own.name.clone(),
        totals: own.totals.into(),
    };
    Object {
        answer: REPORT.to_string(),
        totals: report.totals.into(),
        machines: report.machines.iter().map(machine).collect(),
    }
}

/// Adds the saved reports of a file, of which there is at least one: 34, and what is no such file is refused.
pub fn add(report: &mut Report, file: &Path) -> Result<(), Trouble> {
    let bytes = files::read(file, files::REPORT)?;
    if bytes.len() as u64 > files::REPORT {
        let long = format!("it has over {} bytes", files::REPORT);
        return Err(Trouble::declined(file, NONE, long));
    }
    let text = std::str::from_utf8(&bytes);
    let text = text.map_err(|_| Trouble::declined(file, NONE, "it is no text".to_string()))?;
    let mut reports = 0;
    for (line, text) in (1..)
        .zip(text.lines())
        .filter(|(_, text)| !text.trim().is_empty())
    {
        let object = read(text).map_err(|found| declined(file, line, found))?;
        if let Some(object) = object {
            add_object(report, file, line, &object)?;
            reports += 1;
        }
    }
    match reports {
        0 => Err(Trouble::declined(
            file,
            NONE,
            "no report stands in it".to_string(),
        )),
        _ => Ok(()),
    }
}

/// The cause where a file is no saved report.
const NONE: &str = "not a saved report, or a damaged one";

fn declined(file: &Path, line: usize, found: String) -> Trouble {
    Trouble::Refused(Box::new(Refused {
        file: file.to_path_buf(),
        line: Some(line),
        cause: NONE.to_string(),
        found: Some(found),
        ..Refused::default()
    }))
}

/// The report of a line. None where the line tells what was said beside it, of single sections.
fn read(line: &str) -> Result<Option<Object>, String> {
    // The line is known, and all of it was read at once.
    let words = |error: serde_json::Error| {
        error
            .to_string()
            .replace(" at line 1 column ", " at column ")
    };
    let value: Value = serde_json::from_str(line).map_err(words)?;
    match value.get("answer").and_then(Value::as_str) {
        Some("refused" | "failed") => return Ok(None),
        Some(REPORT) => {}
        _ => return Err("its 'answer' is not 'report'".to_string()),
    }
    let object: Object = serde_json::from_value(value).map_err(words)?;
    let mut sums = Totals::default();
    let joined = object
        .machines
        .iter()
        .try_for_each(|own| library::join(&mut sums, (&own.totals).into()));
    if joined.is_err() || sums != Totals::from(&object.totals) {
        return Err("its machines don't add up to its totals".to_string());
    }
    Ok(Some(object))
}

fn add_object(
    report: &mut Report,
    file: &Path,
    line: usize,
    object: &Object,
) -> Result<(), Trouble> {
    for own in &object.machines {
        let machine = report.machine(own.machine.clone());
        let (before, more) = (report.totals(), Totals::from(&own.totals));
        report.add(machine, more).map_err(|refusal| {
            Trouble::Refused(Box::new(Refused {
                file: file.to_path_buf(),
                line: Some(line),
                answer: Some((refusal.number, refusal.place)),
                cause: refusal.cause.to_string(),
                found: passing(before, more),
                ..Refused::default()
            }))
        })?;
    }
    Ok(())
}
