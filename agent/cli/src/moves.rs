//! Move tables in files: lines `OLD NEW`. Several of them, one after the other, make one table.

use crate::library::{self, Refusal, Table};
use crate::lists::{self, Entry, Numbers};
use crate::trouble::{Refused, Trouble};
use crate::{found, json, receipt};
use std::path::{Path, PathBuf};

/// A table in a file.
struct Listed<'a> {
    path: &'a Path,
    text: Vec<u8>,
    entries: Vec<Entry<[u64; 2]>>,
}

impl Listed<'_> {
    fn read(path: &Path) -> Result<Listed<'_>, Trouble> {
        let text = lists::text(path)?;
        let entries = lists::read(path, &text, &Numbers("OLD NEW"))?;
        Ok(Listed {
            path,
            text,
            entries,
        })
    }

    fn table(&self) -> Table {
        let column = |nth: usize| self.entries.iter().map(move |entry| entry.value[nth]);
        Table {
            old: column(0).collect(),
            new: column(1).collect(),
        }
    }
}

/// The tables that a call names, at least one.
pub struct Moves<'a> {
    files: Vec<Listed<'a>>,
    /// The table that frames are moved by: the only one, or all of them joined; where one is no table, that one.
    pub table: Table,
    /// The first that 14 is said of.
    refused: Option<(usize, Refusal)>,
}

impl<'a> Moves<'a> {
    pub fn read(paths: &'a [PathBuf]) -> Result<Moves<'a>, Trouble> {
        let files = paths.iter().map(|path| Listed::read(path));
        let files = files.collect::<Result<Vec<Listed>, Trouble>>()?;
        let tables: Vec<Table> = files.iter().map(Listed::table).collect();
        let checked = tables.iter().map(library::check_table);
        let mut refused = checked.enumerate().filter_map(|(nth, checked)| {
            let refusal = checked.err()?;
            Some((nth, refusal))
        });
        let refused = refused.next();
        let table = match refused {
            Some((nth, _)) => tables[nth].clone(),
            None => {
                let mut tables = tables.into_iter();
                let first = tables.next().unwrap_or_default();
                let joined = tables.try_fold(first, |table, next| library::joined(&table, &next));
                joined.expect("the tables are checked, and what is joined of two such is one")
            }
        };
        Ok(Moves {
            files,
            table,
            refused,
        })
    }

    /// Whether they are several.
    pub fn are_joined(&self) -> bool {
        self.files.len() > 1
    }

    /// The refusal of the first that is no table.
    pub fn refusal(&self) -> Option<Refusal> {
        self.refused.map(|(_, refusal)| refusal)
    }

    /// What is said of 14: the file, the line in it, and what was found there.
    pub fn at_fault(&self) -> Refused {
        let file = &self.files[self.refused.map_or(0, |(nth, _)| nth)];
        let (line, found) = found::of_moves(&file.entries).unzip();
        Refused {
            file: file.path.to_path_buf(),
            line,
            found,
            ..Refused::default()
        }
    }

    /// The table that frames are moved by, in the form of a file.
    pub fn text(&self) -> String {
        let mut text = format!("# {HEAD}: OLD NEW\n");
        for (old, new) in self.table.old.iter().zip(&self.table.new) {
            text += &format!("{old:#x} {new:#x}\n");
        }
        text
    }

    /// The table that was used, for a receipt: the file itself, or what [`text`](Moves::text) says of several,
    /// by all their names.
    pub fn used(&self) -> receipt::Entry {
        if let [only] = &self.files[..] {
            return receipt::Entry::of(only.path, &only.text);
        }
        let names = self.files.iter().map(|file| json::name(file.path));
        receipt::Entry {
            file: names.collect::<Vec<String>>().join(" + "),
            ..receipt::Entry::of(Path::new(""), self.text().as_bytes())
        }
    }

    /// The files that the table was joined of, for a receipt; none where it is a file's own.
    pub fn joined_of(&self) -> Vec<receipt::Entry> {
        let files = self.files.iter().filter(|_| self.are_joined());
        files
            .map(|file| receipt::Entry::of(file.path, &file.text))
            .collect()
    }
}

/// What the first line of a table says that is written.
const HEAD: &str = "Where the objects of the heap were, and where they are now";
