//! Running the program in a folder of its own, and what came of it.

use std::ffi::OsStr;
use std::fs::{self, File};
use std::os::unix::fs::MetadataExt;
use std::path::{Path, PathBuf};
use std::process::{Child, Command, Output, Stdio};
use std::sync::atomic::{AtomicU64, Ordering};
use std::thread::sleep;
use std::time::Duration;

/// The program.
pub const PROGRAM: &str = env!("CARGO_BIN_EXE_treskibben");

/// The user that has no rights of its own.
pub const NOBODY: u32 = 65534;

/// The samples that the repository ships.
pub fn sample(name: &str) -> PathBuf {
    let samples = Path::new(env!("CARGO_MANIFEST_DIR")).join("../../samples");
    samples.join(name)
}

/// A folder that is removed when the test is over.
pub struct Folder(PathBuf);

impl Folder {
    /// A new, empty folder.
    pub fn new() -> Folder {
        Folder::within(Path::new(env!("CARGO_TARGET_TMPDIR")))
    }

    /// A new, empty folder in another.
    pub fn within(within: &Path) -> Folder {
        static NEXT: AtomicU64 = AtomicU64::new(0);
        let number = NEXT.fetch_add(1, Ordering::Relaxed);
        let name = format!("treskibben.{}.{number}", std::process::id());
        let path = within.join(name);
        fs::create_dir(&path).unwrap();
        Folder(path)
    }

    pub fn path(&self) -> &Path {
        &self.0
    }

    /// The path of a file in the folder.
    pub fn at(&self, name: &str) -> PathBuf {
        self.0.join(name)
    }

    /// Writes a file.
    pub fn put(&self, name: &str, bytes: impl AsRef<[u8]>) -> PathBuf {
        let path = self.at(name);
        fs::write(&path, bytes).unwrap();
        path
    }

    /// Writes a file that claims a length and holds nothing.
    pub fn put_sparse(&self, name: &str, start: &[u8], length: u64) -> PathBuf {
        let path = self.put(name, start);
        let file = File::options().write(true).open(&path).unwrap();
        file.set_len(length).unwrap();
        path
    }

    pub fn get(&self, name: &str) -> Vec<u8> {
        fs::read(self.at(name)).unwrap()
    }

    /// The names of all that is in the folder, in order.
    pub fn names(&self) -> Vec<String> {
        let entries = fs::read_dir(&self.0).unwrap();
        let name = |entry: std::io::Result<fs::DirEntry>| entry.unwrap().file_name();
        let mut names: Vec<String> = entries
            .map(|entry| name(entry).into_string().unwrap())
            .collect();
        names.sort();
        names
    }

    /// Runs the program here.
    pub fn run<S: AsRef<OsStr>>(&self, arguments: impl IntoIterator<Item = S>) -> Ran {
        Ran::of(self.command().args(arguments))
    }

    /// The program, to be run here.
    pub fn command(&self) -> Command {
        let mut command = Command::new(PROGRAM);
        command.current_dir(&self.0).stdin(Stdio::null());
        command
    }

    /// The program, to be run here under a shell that first does as `before` says.
    pub fn shell(&self, before: &str) -> Command {
        let mut command = Command::new("sh");
        let script = format!("{before}; exec \"$0\" \"$@\"");
        command.args(["-c", &script, PROGRAM]);
        command.current_dir(&self.0).stdin(Stdio::null());
        command
    }
}

impl Drop for Folder {
    fn drop(&mut self) {
        let _ = fs::remove_dir_all(&self.0);
    }
}

/// Waits until something in the folder has one of these names, or the run is over.
pub fn until_there(child: &mut Child, folder: &Folder, names: &[&str]) {
    let missing = |name: &&str| fs::symlink_metadata(folder.at(name)).is_err();
    while names.iter().all(missing) && child.try_wait().unwrap().is_none() {
        sleep(Duration::from_micros(10));
    }
}

/// What came of a run.
#[derive(Debug)]
pub struct Ran {
    /// The exit status; none where a signal ended it.
    pub status: Option<i32>,
    pub out: Vec<u8>,
    pub err: String,
}

impl Ran {
    pub fn of(command: &mut Command) -> Ran {
        Ran::from(command.output().unwrap())
    }

    pub fn text(&self) -> &str {
        std::str::from_utf8(&self.out).unwrap()
    }

    /// The run did what was asked, and said this and nothing else.
    #[track_caller]
    pub fn done(&self, out: &str) {
        assert_eq!(self.err, "");
        assert_eq!((self.status, self.text()), (Some(0), out));
    }

    /// The run was refused by this number at this place. `words` are the file and the cause; what was
    /// found, on the same line, is given back.
    #[track_caller]
    pub fn refused(&self, number: u64, place: u64, words: &str) -> &str {
        let (file, cause) = words.split_once(": ").unwrap();
        let start = format!("{file}: refused {number} at {place}: {cause}");
        assert!(self.err.starts_with(&start), "{}", self.err);
        assert_eq!(self.err.lines().count(), 1, "{}", self.err);
        assert_eq!(self.status, Some(1));
        let found = self.err[start.len()..].trim_end();
        assert!(found.is_empty() || found.starts_with("; "), "{found}");
        found.trim_start_matches("; ")
    }

    /// The call or a file was wrong, and the message begins so and has these words in it.
    #[track_caller]
    pub fn failed(&self, start: &str, words: &str) {
        let start = format!("treskibben: {start}");
        assert!(self.err.starts_with(&start), "{}", self.err);
        assert!(self.err.contains(words), "{}", self.err);
        assert!(!self.err.contains("panicked"), "{}", self.err);
        assert_eq!((self.status, self.out.as_slice()), (Some(2), &b""[..]));
    }
}

impl From<Output> for Ran {
    fn from(output: Output) -> Ran {
        Ran {
            status: output.status.code(),
            out: output.stdout,
            err: String::from_utf8(output.stderr).unwrap(),
        }
    }
}

/// Whether the tests run as a user whom no permission stops.
pub fn is_root() -> bool {
    let folder = Folder::new();
    fs::metadata(folder.path()).unwrap().uid() == 0
}

/// Says past the capture of the test why something was not tried.
pub fn skipped(what: &str) {
    use std::io::Write;
    let _ = writeln!(std::io::stderr(), "skipped: {what}");
}
