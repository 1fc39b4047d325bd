//! The two ends of a stopped program's stack: the function that calls it, and the function that
//! it calls and which stops it.

use crate::frames::Deepest;
use crate::memory::word;
use crate::program::Entry;
use crate::run::Running;
use crate::system::Own;
use std::arch::global_asm;
use std::cell::RefCell;

thread_local! {
    /// The run that is under way on this thread; the stopped program knows nothing of it.
    static RUNNING: RefCell<Option<Running>> = const { RefCell::new(None) };
}

extern "C" {
    fn live_enter(root: u64, seed: u64, entry: Entry) -> u64;
    static live_entered: u8;
}

// The call of a program, with a name for its return address: there the walk has to end.
//
// RBP is pushed to align the stack to 16 bytes at the call.
global_asm!(
    ".globl live_enter, live_entered",
    ".type live_enter, @function",
    "live_enter:",
    "push rbp",
    "call rdx",
    "live_entered:",
    "pop rbp",
    "ret",
    ".size live_enter, . - live_enter",
);

// The registers that a callee has to keep are saved, in the order that `Homes` has from the last one pushed
// on, and taken up again from where they were saved: who writes there changes the caller's registers. The
// others are the caller's to save. RSP of the caller, as it is when the call has returned, is above the
// return address. The stack is aligned to 16 bytes at the call.
global_asm!(
    ".globl live_stop",
    ".type live_stop, @function",
    "live_stop:",
    "push rbp",
    "push rbx",
    "push r12",
    "push r13",
    "push r14",
    "push r15",
    "mov rdi, rsp",
    "lea rsi, [rsp + 56]",
    "sub rsp, 8",
    "call {stopped}",
    "add rsp, 8",
    "pop r15",
    "pop r14",
    "pop r13",
    "pop r12",
    "pop rbx",
    "pop rbp",
    "ret",
    ".size live_stop, . - live_stop",
    stopped = sym stopped,
);

/// Called by `live_stop`. A panic in here ends the process, as it must not pass the program.
extern "C" fn stopped(saved: u64, stack_pointer: u64) {
    let return_address = stack_pointer - 8;
    let deepest = Deepest {
        // SAFETY: the call of `live_stop` put the word there, and `live_stop` waits.
        address: unsafe { word(&Own, return_address) },
        stack_pointer,
        saved,
    };
    RUNNING.with_borrow_mut(|running| {
        let running = running.as_mut().expect("a run is under way");
        // SAFETY: the frame is the one that called `live_stop`, and both wait until it returns.
        unsafe { running.stopped(deepest) };
    });
}

/// The return address of the call that enters a program.
pub(crate) fn entered() -> u64 {
    (&raw const live_entered).addr() as u64
}

/// Calls a program during a run, and gives the run back with the program's result.
///
/// # Safety
///
/// The program reads nothing but objects of the heap that `root` is of, and its own frames, and
/// calls nothing but `live_stop`. The heap can be read until the program ends, or the run moves
/// it together with the program's frames.
pub(crate) unsafe fn during(
    running: Running,
    entry: Entry,
    root: u64,
    seed: u64,
) -> (Running, u64) {
    RUNNING.set(Some(running));
    // SAFETY: the caller's; `live_enter` only hands over the two numbers.
    let result = unsafe { live_enter(root, seed, entry) };
    (RUNNING.take().expect("the run is still there"), result)
}
