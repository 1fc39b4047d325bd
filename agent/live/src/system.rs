//! The few calls of the C library that the harness needs, and a note of where the program died.

use crate::memory::Memory;
use std::ffi::{c_int, c_long, c_void};
use std::sync::atomic::{AtomicU64, AtomicUsize, Ordering};

const PROT_NONE: c_int = 0;
const PROT_READ: c_int = 1;
const PROT_WRITE: c_int = 2;
const MAP_PRIVATE: c_int = 0x02;
const MAP_ANONYMOUS: c_int = 0x20;
const SIGSEGV: c_int = 11;
const SA_SIGINFO: c_int = 4;
const RLIMIT_CORE: c_int = 4;
const STDERR: c_int = 2;

/// The action of a signal, as the C library has it on x86-64 Linux.
#[repr(C)]
struct Action {
    handler: usize,
    mask: [u64; 16],
    flags: c_int,
    restorer: usize,
}

/// The first fields of what a signal handler is told; the address is that of the fault.
#[repr(C)]
struct Fault {
    signal: c_int,
    errno: c_int,
    code: c_int,
    address: u64,
}

/// The limits of a resource.
#[repr(C)]
struct Limit {
    soft: u64,
    hard: u64,
}

extern "C" {
    fn mmap(
        address: *mut c_void,
        length: usize,
        protection: c_int,
        flags: c_int,
        file: c_int,
        offset: c_long,
    ) -> *mut c_void;
    fn mprotect(address: *mut c_void, length: usize, protection: c_int) -> c_int;
    fn sigaction(signal: c_int, new: *const Action, old: *mut Action) -> c_int;
    fn setrlimit(resource: c_int, limit: *const Limit) -> c_int;
    fn write(file: c_int, bytes: *const c_void, length: usize) -> isize;
}

/// The unreadable bytes before and after each mapping: whoever runs off its end dies there.
const GUARD: usize = 65_536;

/// The memory of this process, in which a program of this machine runs.
pub struct Own;

impl Memory for Own {
    fn map(&self, length: usize) -> u64 {
        map(length)
    }

    unsafe fn retire(&self, start: u64, length: usize) {
        // SAFETY: the caller's.
        unsafe { retire(start, length) };
    }

    unsafe fn read(&self, first: u64, bytes: &mut [u8]) {
        let from: *const u8 = std::ptr::with_exposed_provenance(first as usize);
        // SAFETY: the caller says that the bytes can be read, and are elsewhere.
        unsafe { from.copy_to_nonoverlapping(bytes.as_mut_ptr(), bytes.len()) };
    }

    unsafe fn write(&self, first: u64, bytes: &[u8]) {
        let to: *mut u8 = std::ptr::with_exposed_provenance_mut(first as usize);
        // SAFETY: the caller says that the bytes can be written, and are elsewhere.
        unsafe { to.copy_from_nonoverlapping(bytes.as_ptr(), bytes.len()) };
    }
}

/// Fresh bytes between guards, as [`Memory::map`] says.
fn map(length: usize) -> u64 {
    let flags = MAP_PRIVATE | MAP_ANONYMOUS;
    // SAFETY: without an address and MAP_FIXED the call only makes a new mapping, which overlaps
    // nothing that is there.
    let all = unsafe {
        mmap(
            std::ptr::null_mut(),
            length + 2 * GUARD,
            PROT_NONE,
            flags,
            -1,
            0,
        )
    };
    assert_ne!(all.addr(), usize::MAX, "mmap failed");
    let start = all.expose_provenance() + GUARD;
    let address = std::ptr::with_exposed_provenance_mut(start);
    // SAFETY: these bytes are in the middle of the mapping that was just made.
    let failed = unsafe { mprotect(address, length, PROT_READ | PROT_WRITE) };
    assert_eq!(failed, 0, "mprotect failed");
    start as u64
}

/// How many mappings can be retired.
const RETIRED: usize = 16;
static RETIRED_COUNT: AtomicUsize = AtomicUsize::new(0);
static RETIRED_FROM: [AtomicU64; RETIRED] = [const { AtomicU64::new(0) }; RETIRED];
static RETIRED_TO: [AtomicU64; RETIRED] = [const { AtomicU64::new(0) }; RETIRED];

/// Makes a mapping unreadable for good.
///
/// # Safety
///
/// As for [`Memory::retire`].
unsafe fn retire(start: u64, length: usize) {
    let number = RETIRED_COUNT.fetch_add(1, Ordering::SeqCst);
    RETIRED_FROM[number].store(start, Ordering::SeqCst);
    RETIRED_TO[number].store(start + length as u64, Ordering::SeqCst);
    let address = std::ptr::with_exposed_provenance_mut(start as usize);
    // SAFETY: the whole mapping is the caller's and no reference points into it.
    let failed = unsafe { mprotect(address, length, PROT_NONE) };
    assert_eq!(failed, 0, "mprotect failed");
}

/// What [`note_faults`] writes where the program touches a retired mapping.
pub const RETIRED_FAULT: &str = "touched the old heap\n";

/// What [`note_faults`] writes where the program dies at any other address.
pub const OTHER_FAULT: &str = "touched an address that is not of an old heap\n";

/// From now on a SIGSEGV first says on standard error whether a retired mapping was touched, and
/// then ends the process as ever. No core is left.
pub fn note_faults() {
    let action = Action {
        handler: on_fault as *const () as usize,
        mask: [0; 16],
        flags: SA_SIGINFO,
        restorer: 0,
    };
    let none = Limit { soft: 0, hard: 0 };
    // SAFETY: both structs are laid out as x86-64 Linux has them and live during the calls, and
    // `on_fault` has the form that SA_SIGINFO asks for.
    let failed = unsafe {
        setrlimit(RLIMIT_CORE, &none) | sigaction(SIGSEGV, &action, std::ptr::null_mut())
    };
    assert_eq!(failed, 0, "the signal's action cannot be set");
}

/// Says where the fault was, and takes the handler away: the instruction runs again, and kills.
extern "C" fn on_fault(signal: c_int, fault: *const Fault, _context: *mut c_void) {
    // SAFETY: the kernel hands over a pointer to what it tells of the signal.
    let address = unsafe { (*fault).address };
    let retired = (0..RETIRED_COUNT.load(Ordering::SeqCst)).any(|number| {
        let from = RETIRED_FROM[number].load(Ordering::SeqCst);
        (from..RETIRED_TO[number].load(Ordering::SeqCst)).contains(&address)
    });
    let text = if retired { RETIRED_FAULT } else { OTHER_FAULT };
    let default = Action {
        handler: 0,
        mask: [0; 16],
        flags: 0,
        restorer: 0,
    };
    // SAFETY: `text` lives for ever, and `default` during its call; both calls are allowed in a
    // signal handler.
    unsafe {
        write(STDERR, text.as_ptr().cast(), text.len());
        sigaction(signal, &default, std::ptr::null_mut());
    }
}
