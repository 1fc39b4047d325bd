//! What the program needs of the system beside the standard library: signals that wait, a rename that
//! replaces nothing, a flush of many files, and whether standard output was there at all.

use nix::fcntl::{fcntl, renameat2, FcntlArg, RenameFlags};
use nix::sys::signal::{raise, SigSet, Signal};
use nix::sys::signalfd::{SfdFlags, SignalFd};
use nix::unistd::syncfs;
use std::fs::{self, File};
use std::io;
use std::os::fd::AsRawFd;
use std::path::Path;
use std::sync::atomic::{AtomicBool, Ordering};

/// The signals that people and terminals send to end a program.
const ENDS: [Signal; 3] = [Signal::SIGHUP, Signal::SIGINT, Signal::SIGTERM];

/// From here until the program has ended, the signals that ask for its end wait, and a file that
/// grows too large is an error of the write. SIGKILL ends it as ever.
pub fn hold_signals() {
    let mut held: SigSet = ENDS.into_iter().collect();
    held.add(Signal::SIGXFSZ);
    let _ = held.thread_block();
}

/// The signals that ask for the end, noticed instead of obeyed.
pub struct Watch(Option<SignalFd>);

impl Watch {
    /// Begins to hold the signals and to watch those that were not ignored from the start.
    pub fn begin() -> Watch {
        hold_signals();
        let ignored = ignored_signals();
        let watched = ENDS
            .into_iter()
            .filter(|signal| ignored & (1 << (*signal as i32 - 1)) == 0);
        let flags = SfdFlags::SFD_NONBLOCK | SfdFlags::SFD_CLOEXEC;
        Watch(SignalFd::with_flags(&watched.collect(), flags).ok())
    }

    /// The signal that has come, if there is one.
    pub fn signal(&mut self) -> Option<Signal> {
        let came = self.0.as_mut()?.read_signal().ok()??;
        Signal::try_from(came.ssi_signo as i32).ok()
    }
}

/// The signals that the program was started to ignore, one bit each, as `nohup` does it.
fn ignored_signals() -> u64 {
    let status = fs::read_to_string("/proc/self/status").unwrap_or_default();
    let line = status.lines().find_map(|line| line.strip_prefix("SigIgn:"));
    let mask = line.and_then(|mask| u64::from_str_radix(mask.trim(), 16).ok());
    mask.unwrap_or(0)
}

/// Ends the program as this signal would have done.
pub fn end_by(signal: Signal) {
    let _ = raise(signal);
    let _ = SigSet::from_iter([signal]).thread_unblock();
}

/// Gives a file a name that nothing has yet, in one step; an error where something has it.
pub fn rename_to_new(from: &Path, to: &Path) -> io::Result<()> {
    match renameat2(None, from, None, to, RenameFlags::RENAME_NOREPLACE) {
        // A file system that cannot do it so can do it by a second name.
        Err(nix::Error::EINVAL | nix::Error::ENOSYS | nix::Error::EOPNOTSUPP) => {
            fs::hard_link(from, to)?;
            fs::remove_file(from)
        }
        done => Ok(done?),
    }
}

/// Flushes all files of the file system on which this one is.
pub fn flush_all(file: &File) -> io::Result<()> {
    Ok(syncfs(file.as_raw_fd())?)
}

static CLOSED: AtomicBool = AtomicBool::new(false);

/// Whether the program was started without standard output. The standard library puts a device
/// that swallows everything in its place, so that it has to be looked for before `main`.
pub fn standard_output_was_closed() -> bool {
    CLOSED.load(Ordering::Relaxed)
}

extern "C" fn look_at_standard_output() {
    let closed = fcntl(1, FcntlArg::F_GETFD).is_err();
    CLOSED.store(closed, Ordering::Relaxed);
}

// The C library calls what stands in this section before `main`. The function calls nothing of the
// standard library that needs its start.
#[allow(unsafe_code)]
#[used]
#[link_section = ".init_array"]
static BEFORE_MAIN: extern "C" fn() = look_at_standard_output;
