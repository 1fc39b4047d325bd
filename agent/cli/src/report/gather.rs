//! Which files a report is of, in the order in which they count.

use super::Report;
use crate::trouble::Trouble;
use crate::{files, json};
use std::fs::{self, DirEntry};
use std::io;
use std::os::unix::ffi::OsStrExt;
use std::path::{Path, PathBuf};

/// A file that counts as one section.
pub struct Entry {
    pub path: PathBuf,
    /// The machine, by its place in the report.
    pub machine: usize,
    /// Why there is nothing to be read: a folder that cannot be.
    pub trouble: Option<Trouble>,
}

/// The files that these paths name, path after path. A folder stands for all files in it and in the folders
/// below, in the order of their names; it is a machine of its own, unless all are of the one that is named.
pub fn all(paths: &[PathBuf], name: Option<&str>, report: &mut Report) -> Vec<Entry> {
    let mut entries = Vec::new();
    for path in paths {
        let folder = !files::is_standard_input(path) && path.is_dir();
        let own = folder.then(|| json::name(path));
        let machine = report.machine(name.map(str::to_string).or(own));
        if folder {
            walk(path, machine, &mut entries);
        } else {
            entries.push(file(path.clone(), machine));
        }
    }
    entries
}

fn file(path: PathBuf, machine: usize) -> Entry {
    let trouble = None;
    Entry {
        path,
        machine,
        trouble,
    }
}

/// The files of a folder and of those below. One that cannot be read stands for itself, as one section.
fn walk(folder: &Path, machine: usize, entries: &mut Vec<Entry>) {
    let inside = match inside(folder) {
        Ok(inside) => inside,
        Err(error) => {
            let trouble = Some(files::unreadable(folder, error));
            let path = folder.to_path_buf();
            return entries.push(Entry {
                path,
                machine,
                trouble,
            });
        }
    };
    for (path, is_folder) in inside {
        if is_folder {
            walk(&path, machine, entries);
        } else {
            entries.push(file(path, machine));
        }
    }
}

/// What counts in a folder, in the order of the names, each with whether it is a folder.
fn inside(folder: &Path) -> io::Result<Vec<(PathBuf, bool)>> {
    let mut inside = Vec::new();
    for entry in fs::read_dir(folder)? {
        let entry = entry?;
        if entry.file_name().as_bytes().starts_with(b".") {
            continue;
        }
        if let Some(is_folder) = counts(&entry) {
            inside.push((entry.path(), is_folder));
        }
    }
    inside.sort();
    Ok(inside)
}

/// Whether it is a folder; none where it doesn't count. A link counts as the file that it leads to, and one to
/// a folder is passed over: it could lead back. What cannot be told is a file that will not be read.
fn counts(entry: &DirEntry) -> Option<bool> {
    let Ok(kind) = entry.file_type() else {
        return Some(false);
    };
    if !kind.is_symlink() {
        return (kind.is_dir() || kind.is_file()).then_some(kind.is_dir());
    }
    match fs::metadata(entry.path()) {
        Ok(target) => target.is_file().then_some(false),
        Err(_) => Some(false),
    }
}
