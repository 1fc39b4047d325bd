//! The files that a restore leaves with the new image, where it is asked to: its trace, and its report.

use super::ahead::Ahead;
use super::place::Target;
use super::Arguments;
use crate::beside::folder_of;
use crate::files;
use crate::names::shown;
use crate::trouble::Trouble;
use std::ffi::OsStr;
use std::fs::{self, Metadata};
use std::path::{Path, PathBuf};

/// What a file is.
#[derive(Clone, Copy, Debug, PartialEq, Eq)]
pub enum What {
    Trace,
    Report,
}

impl What {
    pub fn name(self) -> &'static str {
        match self {
            What::Trace => "trace",
            What::Report => "report",
        }
    }
}

/// A file that is to be left.
pub struct Left<'a> {
    pub what: What,
    pub path: &'a Path,
    /// Its name in the folder that the restore makes, where it is to stand there.
    inside: Option<&'a OsStr>,
    /// Its bytes; none before the frames are moved.
    pub bytes: Vec<u8>,
}

/// All that a call asks for.
#[derive(Default)]
pub struct Leaves<'a> {
    pub trace: Option<Left<'a>>,
    pub report: Option<Left<'a>>,
}

impl<'a> Leaves<'a> {
    /// The files that a call asks for. Each has a name of its own.
    pub fn open(arguments: &'a Arguments, target: &Target) -> Result<Leaves<'a>, Trouble> {
        let open = |what: What, path: Option<&'a Path>, others: &[PathBuf]| {
            let left = path.map(|path| Left::open(what, path, arguments, others));
            left.transpose()
        };
        let others = [
            Some(target.image()),
            Some(target.receipt()),
            target.frames(),
        ];
        let mut others: Vec<PathBuf> = others.into_iter().flatten().collect();
        let trace = open(What::Trace, arguments.trace.as_deref(), &others)?;
        others.extend(trace.iter().map(|trace| trace.path.to_path_buf()));
        let report = open(What::Report, arguments.report.as_deref(), &others)?;
        Ok(Leaves { trace, report })
    }

    pub fn iter(&self) -> impl Iterator<Item = &Left<'a>> {
        self.trace.iter().chain(&self.report)
    }

    /// The files beside their names, where they are by themselves.
    pub fn prepare(&self, like: Option<&Metadata>) -> Result<Vec<Ahead>, Trouble> {
        let alone = self.iter().filter(|left| left.inside.is_none());
        alone.map(|left| Ahead::prepare(left, like)).collect()
    }
}

impl<'a> Left<'a> {
    fn open(
        what: What,
        path: &'a Path,
        arguments: &Arguments,
        others: &[PathBuf],
    ) -> Result<Left<'a>, Trouble> {
        let option = what.name();
        let (true, Some(name)) = (!files::is_standard_input(path), path.file_name()) else {
            let why = format!("--{option} needs a name: a {option} is a file by itself");
            return Err(Trouble::Usage(why));
        };
        let own = real(path);
        if let Some(other) = others.iter().find(|other| real(other) == own) {
            let (path, other) = (shown(path), shown(other));
            return Err(Trouble::Usage(format!(
                "--{option} {path}: the restore writes {other} there"
            )));
        }
        let folder = arguments.into.as_deref();
        let inside = folder.is_some_and(|folder| real(folder_of(path)) == real(folder));
        if let (What::Report, false, Some(folder)) = (what, inside, folder) {
            let should = shown(&folder.join(name));
            return Err(Trouble::Usage(format!(
                "--report {}: with --into the report stands in that folder, as {should}",
                shown(path)
            )));
        }
        Ok(Left {
            what,
            path,
            inside: inside.then_some(name),
            bytes: Vec::new(),
        })
    }

    /// Its name and its bytes, where it stands in the folder that the restore makes.
    pub fn inside(&self) -> Option<(&'a OsStr, &[u8])> {
        self.inside.map(|name| (name, &self.bytes[..]))
    }
}

/// A name where no link has to be followed to its folder. A folder that is yet to be made is by its own name.
fn real(path: &Path) -> PathBuf {
    let there = fs::canonicalize(path);
    there.unwrap_or_else(
        |_| match (fs::canonicalize(folder_of(path)), path.file_name()) {
            (Ok(folder), Some(name)) => folder.join(name),
            (_, Some(name)) if folder_of(path) != Path::new(".") => {
                real(folder_of(path)).join(name)
            }
            _ => path.to_path_buf(),
        },
    )
}

#[cfg(test)]
mod tests {
    use super::*;

    #[test]
    fn names_of_folders_that_are_not_there() {
        let here = fs::canonicalize(".").unwrap();
        for (path, own) in [
            ("none", "none"),
            ("none/trace", "none/trace"),
            ("./none", "none"),
        ] {
            assert_eq!(real(Path::new(path)), here.join(own), "{path}");
        }
        assert_eq!(real(Path::new("src/..")), here);
    }
}
