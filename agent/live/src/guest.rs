//! A program for AArch64, which runs under qemu-aarch64 and is led through a pipe to it and one from
//! it. `llvm/live/guest.c` is the other end, and says what the messages are.

use crate::frames::Deepest;
use crate::memory::Memory;
use crate::system::{OTHER_FAULT, RETIRED_FAULT};
use std::cell::RefCell;
use std::io::{Read, Write};
use std::os::unix::process::ExitStatusExt;
use std::process::{Child, ChildStdin, ChildStdout, Command, Stdio};

/// The emulator.
const EMULATOR: &str = "qemu-aarch64";

/// What is asked.
const READ: u64 = 1;
const WRITE: u64 = 2;
const MAP: u64 = 3;
const RETIRE: u64 = 4;
const GO: u64 = 5;
const ON: u64 = 6;

/// What is told.
const BEGUN: u64 = 16;
const STOPPED: u64 = 17;
const ENDED: u64 = 18;
const FAULT: u64 = 19;
const DONE: u64 = 20;

const SIGSEGV: i32 = 11;

/// The exit status of a process whose program died in the emulator.
pub const DIED: i32 = 4;

/// Such a program, from its start to its end.
pub(crate) struct Guest {
    /// The return address of the call that enters the program.
    pub(crate) entered: u64,
    /// An address above all frames of the program.
    pub(crate) top: u64,
    pipes: RefCell<Pipes>,
}

struct Pipes {
    child: Child,
    to: ChildStdin,
    from: ChildStdout,
    retired: Vec<std::ops::Range<u64>>,
}

/// What a program that runs comes to.
pub(crate) enum Told {
    /// It was stopped.
    Stopped(Deepest),
    /// It came to its end, with this checksum.
    Ended(u64),
}

impl Guest {
    /// Starts a program of a file; it waits.
    pub(crate) fn start(file: &str) -> Guest {
        let started = Command::new(EMULATOR)
            .arg(file)
            .stdin(Stdio::piped())
            .stdout(Stdio::piped())
            .stderr(Stdio::null())
            .spawn();
        let mut child = started.unwrap_or_else(|error| {
            panic!("{EMULATOR} cannot be started: {error}. Debian's package qemu-user has it.")
        });
        let mut pipes = Pipes {
            to: child.stdin.take().expect("a pipe to it was asked for"),
            from: child.stdout.take().expect("a pipe from it was asked for"),
            child,
            retired: Vec::new(),
        };
        let [begun, entered, top, _] = pipes.told();
        assert_eq!(begun, BEGUN, "the first that it tells");
        Guest {
            entered,
            top,
            pipes: RefCell::new(pipes),
        }
    }

    /// Lets the program begin.
    pub(crate) fn go(&self, root: u64, seed: u64, number: u64) -> Told {
        self.run([GO, root, seed, number])
    }

    /// Lets the stopped program run on.
    pub(crate) fn go_on(&self) -> Told {
        self.run([ON, 0, 0, 0])
    }

    fn run(&self, asked: [u64; 4]) -> Told {
        let mut pipes = self.pipes.borrow_mut();
        pipes.ask(asked, &[]);
        match pipes.told() {
            [STOPPED, address, saved, stack_pointer] => Told::Stopped(Deepest {
                address,
                stack_pointer,
                saved,
            }),
            [ENDED, checksum, _, _] => {
                let status = pipes.child.wait().expect("it can be waited for");
                assert!(status.success(), "{EMULATOR}: {status}");
                Told::Ended(checksum)
            }
            told => panic!("it told {told:?}"),
        }
    }
}

impl Pipes {
    fn ask(&mut self, asked: [u64; 4], bytes: &[u8]) {
        let mut message: Vec<u8> = asked.into_iter().flat_map(u64::to_le_bytes).collect();
        message.extend(bytes);
        self.to.write_all(&message).expect("it reads what is asked");
    }

    fn answered(&mut self, bytes: &mut [u8]) {
        let read = self.from.read_exact(bytes);
        read.unwrap_or_else(|error| match self.child.wait() {
            Ok(status) => panic!("{EMULATOR} ended early: {status}"),
            Err(_) => panic!("it tells nothing: {error}"),
        });
    }

    /// The next message. Where it is one of a fault, this process ends, and says what the fault was.
    fn told(&mut self) -> [u64; 4] {
        let mut bytes = [[0; 8]; 4];
        self.answered(bytes.as_flattened_mut());
        let told = bytes.map(u64::from_le_bytes);
        if told[0] == FAULT {
            self.died(told[1]);
        }
        told
    }

    fn died(&mut self, address: u64) -> ! {
        let status = self.child.wait().expect("it can be waited for");
        assert_eq!(status.signal(), Some(SIGSEGV), "how it ended");
        let retired = self.retired.iter().any(|range| range.contains(&address));
        eprint!("{}", if retired { RETIRED_FAULT } else { OTHER_FAULT });
        std::process::exit(DIED)
    }
}

impl Memory for Guest {
    fn map(&self, length: usize) -> u64 {
        let mut pipes = self.pipes.borrow_mut();
        pipes.ask([MAP, length as u64, 0, 0], &[]);
        let [done, address, _, _] = pipes.told();
        assert_eq!(done, DONE, "the answer");
        address
    }

    unsafe fn retire(&self, start: u64, length: usize) {
        let mut pipes = self.pipes.borrow_mut();
        pipes.retired.push(start..start + length as u64);
        pipes.ask([RETIRE, start, length as u64, 0], &[]);
    }

    unsafe fn read(&self, first: u64, bytes: &mut [u8]) {
        let mut pipes = self.pipes.borrow_mut();
        pipes.ask([READ, first, bytes.len() as u64, 0], &[]);
        pipes.answered(bytes);
    }

    unsafe fn write(&self, first: u64, bytes: &[u8]) {
        let mut pipes = self.pipes.borrow_mut();
        pipes.ask([WRITE, first, bytes.len() as u64, 0], bytes);
    }
}

/// One that is not needed any more is ended.
impl Drop for Guest {
    fn drop(&mut self) {
        let child = &mut self.pipes.get_mut().child;
        let _ = child.kill();
        let _ = child.wait();
    }
}
