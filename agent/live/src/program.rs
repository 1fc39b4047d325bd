//! The programs that `llvm/live/build` compiled, and the stack map sections that came with them.

use crate::library::Machine;
use crate::{by_x29, guest};

/// The entry of a program of this machine: the address of its first object, and a number that takes
/// part in the checksum.
pub(crate) type Entry = unsafe extern "C" fn(root: u64, seed: u64) -> u64;

extern "C" {
    fn live_run_O0(root: u64, seed: u64) -> u64;
    fn live_run_O0_fp(root: u64, seed: u64) -> u64;
    fn live_run_O2(root: u64, seed: u64) -> u64;
    fn live_run_O2_fp(root: u64, seed: u64) -> u64;
    fn live_run_O2_pushed(root: u64, seed: u64) -> u64;
    fn live_vectors_O0(root: u64, seed: u64) -> u64;
    fn live_vectors_O0_fp(root: u64, seed: u64) -> u64;
    fn live_vectors_O2(root: u64, seed: u64) -> u64;
    fn live_vectors_O2_fp(root: u64, seed: u64) -> u64;
    fn live_run_registers_O0(root: u64, seed: u64) -> u64;
    fn live_run_registers_O0_fp(root: u64, seed: u64) -> u64;
    fn live_run_registers_O2(root: u64, seed: u64) -> u64;
    fn live_run_registers_O2_fp(root: u64, seed: u64) -> u64;
    fn live_run_few_registers_O2_fp(root: u64, seed: u64) -> u64;
    fn live_vectors_registers_O0(root: u64, seed: u64) -> u64;
    fn live_vectors_registers_O0_fp(root: u64, seed: u64) -> u64;
    fn live_vectors_registers_O2(root: u64, seed: u64) -> u64;
    fn live_vectors_registers_O2_fp(root: u64, seed: u64) -> u64;
    static live_maps_begin: u8;
    static live_maps_end: u8;
}

/// Where a program is.
#[derive(Debug)]
pub(crate) enum Code {
    /// In this process.
    Here(Entry),
    /// In a file for AArch64, which has two programs.
    Guest(Guest),
}

/// Where a program for AArch64 is, and how its slots are addressed.
#[derive(Debug)]
pub(crate) struct Guest {
    /// The file.
    pub(crate) file: &'static str,
    /// The program's number in it.
    pub(crate) number: u64,
    /// Whether the maps are changed so that each slot that was addressed by sp is addressed by x29. It
    /// is where it was.
    pub(crate) by_x29: bool,
}

/// One compilation of the program.
#[derive(Debug)]
pub struct Program {
    /// Its name on the command line.
    pub name: &'static str,
    /// How it was compiled, for people.
    pub compiled: &'static str,
    /// The machine that it was compiled for.
    pub machine: Machine,
    /// Whether the frame pointer is one in every function.
    pub frame_pointers: bool,
    pub(crate) code: Code,
}

impl Program {
    /// A program of this machine.
    const fn here(name: &'static str, how: How, entry: Entry) -> Program {
        Program {
            name,
            compiled: how.0,
            machine: Machine::Amd64,
            frame_pointers: how.1,
            code: Code::Here(entry),
        }
    }

    /// A program for AArch64.
    const fn guest(name: &'static str, how: How, file: &'static str, number: u64) -> Program {
        Program {
            name,
            compiled: how.0,
            machine: Machine::Aarch64,
            frame_pointers: how.1,
            code: Code::Guest(Guest {
                file,
                number,
                by_x29: false,
            }),
        }
    }

    /// The same program, with slots that are addressed by x29.
    const fn by_x29(self) -> Program {
        let Code::Guest(Guest { file, number, .. }) = self.code else {
            panic!("it is not for AArch64");
        };
        Program {
            code: Code::Guest(Guest {
                file,
                number,
                by_x29: true,
            }),
            ..self
        }
    }
}

/// How a program was compiled, and whether with frame pointers.
type How = (&'static str, bool);
const O0: How = ("-O0, without frame pointers", false);
const O0_FP: How = ("-O0, with frame pointers", true);
const O2: How = ("-O2, without frame pointers", false);
const O2_FP: How = ("-O2, with frame pointers", true);
const O2_PUSHED: How = (
    "-O2, without frame pointers and without -no-x86-call-frame-opt",
    false,
);
const O0_3: How = (
    "-O0, without frame pointers, up to 3 pointers a call in registers",
    false,
);
const O0_FP_3: How = (
    "-O0, with frame pointers, up to 3 pointers a call in registers",
    true,
);
const O2_8: How = (
    "-O2, without frame pointers, up to 8 pointers a call in registers",
    false,
);
const O2_FP_8: How = (
    "-O2, with frame pointers, up to 8 pointers a call in registers",
    true,
);
const O2_FP_3: How = (
    "-O2, with frame pointers, up to 3 pointers a call in registers",
    true,
);
const AARCH64_O0: How = ("for AArch64 at -O0, without frame pointers", false);
const AARCH64_O0_FP: How = ("for AArch64 at -O0, with frame pointers", true);
const AARCH64_O2: How = ("for AArch64 at -O2, without frame pointers", false);
const AARCH64_O2_FP: How = ("for AArch64 at -O2, with frame pointers", true);
const AARCH64_O0_3: How = (
    "for AArch64 at -O0, without frame pointers, up to 3 pointers a call in registers",
    false,
);
const AARCH64_O0_FP_3: How = (
    "for AArch64 at -O0, with frame pointers, up to 3 pointers a call in registers",
    true,
);
const AARCH64_O2_8: How = (
    "for AArch64 at -O2, without frame pointers, up to 8 pointers a call in registers",
    false,
);
const AARCH64_O2_FP_8: How = (
    "for AArch64 at -O2, with frame pointers, up to 8 pointers a call in registers",
    true,
);
const AARCH64_O0_X29: How = ("for AArch64 at -O0, with slots at frame pointers", true);
const AARCH64_O2_X29: How = ("for AArch64 at -O2, with slots at frame pointers", true);

/// The programs that walk objects, and have pairs of one pointer.
pub static PROGRAMS: [Program; 4] = [
    Program::here("O0", O0, live_run_O0),
    Program::here("O0-fp", O0_FP, live_run_O0_fp),
    Program::here("O2", O2, live_run_O2),
    Program::here("O2-fp", O2_FP, live_run_O2_fp),
];

/// The programs whose frames hold vectors: their pairs have up to 256 pointers.
pub static VECTORS: [Program; 4] = [
    Program::here("vectors-O0", O0, live_vectors_O0),
    Program::here("vectors-O0-fp", O0_FP, live_vectors_O0_fp),
    Program::here("vectors-O2", O2, live_vectors_O2),
    Program::here("vectors-O2-fp", O2_FP, live_vectors_O2_fp),
];

/// The programs that walk objects, with up to 3 or 8 pointers of each statepoint in registers.
pub static REGISTERS: [Program; 4] = [
    Program::here("registers-O0", O0_3, live_run_registers_O0),
    Program::here("registers-O0-fp", O0_FP_3, live_run_registers_O0_fp),
    Program::here("registers-O2-fp", O2_FP_8, live_run_registers_O2_fp),
    Program::here("few-registers-O2-fp", O2_FP_3, live_run_few_registers_O2_fp),
];

/// The programs with vectors, in which one object of the uppermost frame is in a register.
pub static REGISTERS_VECTORS: [Program; 4] = [
    Program::here("vectors-registers-O0", O0_3, live_vectors_registers_O0),
    Program::here(
        "vectors-registers-O0-fp",
        O0_FP_3,
        live_vectors_registers_O0_fp,
    ),
    Program::here("vectors-registers-O2", O2_8, live_vectors_registers_O2),
    Program::here(
        "vectors-registers-O2-fp",
        O2_FP_8,
        live_vectors_registers_O2_fp,
    ),
];

/// The program in which RBP is no frame pointer and holds a pointer: it must not be moved.
pub static IN_RBP: Program = Program::here("registers-O2", O2_8, live_run_registers_O2);

/// The files for AArch64, beside each of which its section lies.
const FILE_O0: &str = concat!(env!("OUT_DIR"), "/guest.O0");
const FILE_O0_FP: &str = concat!(env!("OUT_DIR"), "/guest.O0_fp");
const FILE_O2: &str = concat!(env!("OUT_DIR"), "/guest.O2");
const FILE_O2_FP: &str = concat!(env!("OUT_DIR"), "/guest.O2_fp");

const FILE_REGISTERS_O0: &str = concat!(env!("OUT_DIR"), "/guest.registers_O0");
const FILE_REGISTERS_O0_FP: &str = concat!(env!("OUT_DIR"), "/guest.registers_O0_fp");
const FILE_REGISTERS_O2: &str = concat!(env!("OUT_DIR"), "/guest.registers_O2");
const FILE_REGISTERS_O2_FP: &str = concat!(env!("OUT_DIR"), "/guest.registers_O2_fp");

/// The programs that walk objects, for AArch64.
pub static AARCH64: [Program; 4] = [
    Program::guest("aarch64-O0", AARCH64_O0, FILE_O0, 0),
    Program::guest("aarch64-O0-fp", AARCH64_O0_FP, FILE_O0_FP, 0),
    Program::guest("aarch64-O2", AARCH64_O2, FILE_O2, 0),
    Program::guest("aarch64-O2-fp", AARCH64_O2_FP, FILE_O2_FP, 0),
];

/// The programs whose frames hold vectors, for AArch64.
pub static AARCH64_VECTORS: [Program; 4] = [
    Program::guest("aarch64-vectors-O0", AARCH64_O0, FILE_O0, 1),
    Program::guest("aarch64-vectors-O0-fp", AARCH64_O0_FP, FILE_O0_FP, 1),
    Program::guest("aarch64-vectors-O2", AARCH64_O2, FILE_O2, 1),
    Program::guest("aarch64-vectors-O2-fp", AARCH64_O2_FP, FILE_O2_FP, 1),
];

/// The programs for AArch64 with frame pointers, whose maps are changed: LLVM 14 addresses the slots of
/// statepoints by sp wherever the stack size is known, and in these maps they are addressed by x29.
pub static AARCH64_BY_X29: [Program; 4] = [
    Program::guest("aarch64-O0-fp-x29", AARCH64_O0_X29, FILE_O0_FP, 0).by_x29(),
    Program::guest("aarch64-O2-fp-x29", AARCH64_O2_X29, FILE_O2_FP, 0).by_x29(),
    Program::guest("aarch64-vectors-O0-fp-x29", AARCH64_O0_X29, FILE_O0_FP, 1).by_x29(),
    Program::guest("aarch64-vectors-O2-fp-x29", AARCH64_O2_X29, FILE_O2_FP, 1).by_x29(),
];

/// The programs that walk objects, for AArch64, with up to 3 or 8 pointers of each statepoint in registers.
pub static AARCH64_REGISTERS: [Program; 4] = [
    Program::guest("aarch64-registers-O0", AARCH64_O0_3, FILE_REGISTERS_O0, 0),
    Program::guest(
        "aarch64-registers-O0-fp",
        AARCH64_O0_FP_3,
        FILE_REGISTERS_O0_FP,
        0,
    ),
    Program::guest("aarch64-registers-O2", AARCH64_O2_8, FILE_REGISTERS_O2, 0),
    Program::guest(
        "aarch64-registers-O2-fp",
        AARCH64_O2_FP_8,
        FILE_REGISTERS_O2_FP,
        0,
    ),
];

/// The programs with vectors, for AArch64, in which one object of the uppermost frame is in a register.
pub static AARCH64_REGISTERS_VECTORS: [Program; 4] = [
    Program::guest(
        "aarch64-vectors-registers-O0",
        AARCH64_O0_3,
        FILE_REGISTERS_O0,
        1,
    ),
    Program::guest(
        "aarch64-vectors-registers-O0-fp",
        AARCH64_O0_FP_3,
        FILE_REGISTERS_O0_FP,
        1,
    ),
    Program::guest(
        "aarch64-vectors-registers-O2",
        AARCH64_O2_8,
        FILE_REGISTERS_O2,
        1,
    ),
    Program::guest(
        "aarch64-vectors-registers-O2-fp",
        AARCH64_O2_FP_8,
        FILE_REGISTERS_O2_FP,
        1,
    ),
];

/// The program whose calls push their arguments: the stack size of such a function leaves the
/// pushed bytes out, so that the frames above cannot be found by it and the program must not be
/// moved.
pub static PUSHED: Program = Program::here("O2-pushed", O2_PUSHED, live_run_O2_pushed);

/// How many maps the section of the programs of this machine has: of those that walk objects each is
/// two objects, of those with vectors one.
pub const MAPS: usize = 28;

/// How many maps a section for AArch64 has: one file is both programs.
pub const GUEST_MAPS: usize = 3;

/// The function of each statepoint, by its ID from 1.
const FUNCTIONS: [&str; 13] = [
    "live_run",
    "choose",
    "descend",
    "descend",
    "descend",
    "sum",
    "gather",
    "measure",
    "live_vectors",
    "four",
    "three",
    "three",
    "many",
];

/// The function with the statepoint of an ID, as `llvm/live/*.ll` give them.
pub fn function(id: u64) -> &'static str {
    let index = usize::try_from(id).ok().and_then(|id| id.checked_sub(1));
    index
        .and_then(|index| FUNCTIONS.get(index))
        .copied()
        .unwrap_or("?")
}

impl Program {
    /// The program of a name.
    pub fn named(name: &str) -> Option<&'static Program> {
        PROGRAMS
            .iter()
            .chain(&VECTORS)
            .chain(&AARCH64)
            .chain(&AARCH64_VECTORS)
            .chain(&AARCH64_BY_X29)
            .chain(&REGISTERS)
            .chain(&REGISTERS_VECTORS)
            .chain(&AARCH64_REGISTERS)
            .chain(&AARCH64_REGISTERS_VECTORS)
            .chain([&PUSHED, &IN_RBP])
            .find(|program| program.name == name)
    }

    /// The bytes of the `.llvm_stackmaps` that the program's maps are in, one after the other. They
    /// are never given back.
    pub fn section(&self) -> &'static [u8] {
        let Code::Guest(guest) = &self.code else {
            return section();
        };
        let file = format!("{}.section", guest.file);
        let read = std::fs::read(&file);
        let section = read.unwrap_or_else(|error| panic!("{file} cannot be read: {error}"));
        if guest.by_x29 {
            by_x29::changed(section, &guest::Guest::start(guest.file)).leak()
        } else {
            section.leak()
        }
    }
}

/// The bytes of `.llvm_stackmaps`, all maps of all programs of this machine.
fn section() -> &'static [u8] {
    let (begin, end) = (&raw const live_maps_begin, &raw const live_maps_end);
    // SAFETY: `llvm/live/build` put the two symbols at the first byte of the section and after its
    // last. The loader wrote its addresses before `main`, and nobody writes it any more.
    unsafe { std::slice::from_raw_parts(begin, end.addr() - begin.addr()) }
}
