//! What a function saves before all else, read from its first instructions.

use crate::library::Machine;

/// What a function saves.
#[derive(Clone, Debug, Default, PartialEq, Eq)]
pub struct Saved {
    /// The general registers by DWARF number, each with how far below the end of the frame it stands.
    pub general: Vec<(u16, u64)>,
    /// How many others.
    pub others: usize,
}

impl Saved {
    /// How far below the end of the frame a register stands, where it is saved.
    pub fn place(&self, register: u16) -> Option<u64> {
        let mut saved = self.general.iter();
        let found = saved.find(|(number, _)| *number == register);
        found.map(|(_, below)| *below)
    }

    /// How far below the end of the frame the return address stands. On AMD64 nothing: there the
    /// call puts it above the frame.
    pub fn return_address(&self) -> Option<u64> {
        self.place(LR)
    }

    /// How many registers are saved, the frame pointer and the return address not counted.
    pub fn count(&self) -> usize {
        let counted = |number: &u16| ![RBP, FP, LR].contains(number);
        let general = self.general.iter().map(|(number, _)| number);
        general.filter(|number| counted(number)).count() + self.others
    }
}

/// How many bytes of code are looked at. Every function of ours has more.
pub fn length(machine: Machine) -> usize {
    match machine {
        Machine::Amd64 => 16,
        Machine::Aarch64 => 48,
    }
}

/// What the function saves that begins with this code.
pub fn saved(machine: Machine, code: &[u8]) -> Saved {
    match machine {
        Machine::Amd64 => pushed(code),
        Machine::Aarch64 => stored(code),
    }
}

/// The DWARF numbers of RBX, RBP and R12.
const RBX: u16 = 3;
const RBP: u16 = 6;
const R12: u16 = 12;

/// The registers that are pushed, one below the other from the end of the frame on.
fn pushed(code: &[u8]) -> Saved {
    let mut saved = Saved::default();
    let mut rest = code;
    loop {
        let (register, after) = match rest {
            [0x48, 0x89, 0xe5, after @ ..] => {
                rest = after; // mov rbp, rsp
                continue;
            }
            [0x55, after @ ..] => (RBP, after),
            [0x53, after @ ..] => (RBX, after),
            [0x41, code @ 0x54..=0x57, after @ ..] => (R12 + u16::from(code - 0x54), after),
            _ => return saved,
        };
        let depth = 8 * (saved.general.len() as u64 + 1);
        saved.general.push((register, depth));
        rest = after;
    }
}

/// The numbers of x29, x30 and sp, the same in AArch64's instructions and in DWARF.
const FP: u16 = 29;
const LR: u16 = 30;
const SP: u16 = 31;

/// One of the first instructions of a function for AArch64.
enum First {
    /// `sub sp, sp, #by`
    Lowers(u64),
    /// `add x29, sp, #by`
    SetsFramePointer,
    /// `str` or `stp` of registers that a callee has to keep: the general ones, and how many others;
    /// where they go from sp; and whether sp is set to that place first.
    Stores([Option<u16>; 2], usize, i64, bool),
}

/// What is stored, and where.
fn stored(code: &[u8]) -> Saved {
    let mut saved = Saved::default();
    let mut depth = 0_u64; // how far sp is below the end of the frame
    for four in code.chunks_exact(4) {
        let bytes = four.try_into().expect("four bytes");
        match first(u32::from_le_bytes(bytes)) {
            Some(First::Lowers(by)) => depth += by,
            Some(First::SetsFramePointer) => {}
            Some(First::Stores(general, others, mut at, before)) => {
                if before {
                    depth = depth.wrapping_sub(at as u64);
                    at = 0;
                }
                saved.others += others;
                for (register, at) in general.into_iter().zip([at, at + 8]) {
                    let below = depth.wrapping_sub(at as u64);
                    saved.general.extend(register.map(|number| (number, below)));
                }
            }
            None => break,
        }
    }
    saved
}

/// An instruction, where it is one of those.
fn first(code: u32) -> Option<First> {
    let field = |from: u32, bits: u32| (code >> from) & ((1 << bits) - 1);
    let register = |from: u32| field(from, 5) as u16;
    let signed =
        |from: u32, bits: u32| i64::from((code << (32 - from - bits)) as i32 >> (32 - bits));
    let immediate = u64::from(field(10, 12)) << (12 * field(22, 1));
    match (code & 0xFF80_0000, register(0), register(5)) {
        (0xD100_0000, SP, SP) => return Some(First::Lowers(immediate)),
        (0x9100_0000, FP, SP) => return Some(First::SetsFramePointer),
        _ => {}
    }
    // Which bits say what is stored: two, or one at a place above sp, or one with sp set before.
    let (general, pair, at, before) = match (code & 0xFFC0_0000, code & 0xFFE0_0C00) {
        (0xA900_0000, _) => (true, true, 8 * signed(15, 7), false),
        (0xA980_0000, _) => (true, true, 8 * signed(15, 7), true),
        (0x6D00_0000, _) => (false, true, 8 * signed(15, 7), false),
        (0x6D80_0000, _) => (false, true, 8 * signed(15, 7), true),
        (0xF900_0000, _) => (true, false, 8 * i64::from(field(10, 12)), false),
        (0xFD00_0000, _) => (false, false, 8 * i64::from(field(10, 12)), false),
        (_, 0xF800_0C00) => (true, false, signed(12, 9), true),
        (_, 0xFC00_0C00) => (false, false, signed(12, 9), true),
        _ => return None,
    };
    let registers = [Some(register(0)), pair.then(|| register(10))];
    let kept = if general { 19..=LR } else { 8..=15 };
    let all_kept = registers
        .iter()
        .flatten()
        .all(|register| kept.contains(register));
    if register(5) != SP || !all_kept {
        return None;
    }
    let others = if general {
        0
    } else {
        registers.iter().flatten().count()
    };
    let general = if general { registers } else { [None; 2] };
    Some(First::Stores(general, others, at, before))
}

#[cfg(test)]
mod tests {
    use super::*;

    fn aarch64(code: &[u32]) -> Saved {
        let bytes: Vec<u8> = code.iter().flat_map(|code| code.to_le_bytes()).collect();
        saved(Machine::Aarch64, &bytes)
    }

    #[test]
    fn registers_are_found_where_they_are_stored() {
        // sub sp, sp, #80; stp x30, x21, [sp, #48]; stp x20, x19, [sp, #64]; ldr x8, [x0]
        let saved = aarch64(&[0xD101_43FF, 0xA903_57FE, 0xA904_4FF4, 0xF940_0008]);
        assert_eq!(saved.general, [(30, 32), (21, 24), (20, 16), (19, 8)]);
        assert_eq!((saved.count(), saved.return_address()), (3, Some(32)));
        // sub sp, sp, #48; stp x29, x30, [sp, #16]; add x29, sp, #16; str x19, [sp, #32]; str x1, [sp, #8]
        let saved = aarch64(&[
            0xD100_C3FF,
            0xA901_7BFD,
            0x9100_43FD,
            0xF900_13F3,
            0xF900_07E1,
        ]);
        assert_eq!(saved.general, [(29, 32), (30, 24), (19, 16)]);
        assert_eq!((saved.count(), saved.return_address()), (1, Some(24)));
        // stp d15, d14, [sp, #-80]!; stp x29, x30, [sp, #64]; sub sp, sp, #3, lsl #12
        let saved = aarch64(&[0x6DBB_3BEF, 0xA904_7BFD, 0xD140_0FFF]);
        assert_eq!(saved.general, [(29, 16), (30, 8)]);
        assert_eq!((saved.count(), saved.return_address()), (2, Some(8)));
        // str x30, [sp, #-16]!; bl
        let saved = aarch64(&[0xF81F_0FFE, 0x9400_0000]);
        assert_eq!((saved.count(), saved.return_address()), (0, Some(16)));
        // A leaf saves nothing: add x8, x0, x1, lsl #3
        assert_eq!(aarch64(&[0x8B01_0C08]), Saved::default());
    }

    #[test]
    fn registers_are_found_where_they_are_pushed() {
        // push rbp; mov rbp, rsp; push r15; push r12; push rbx; push rax
        let code = [
            0x55, 0x48, 0x89, 0xe5, 0x41, 0x57, 0x41, 0x54, 0x53, 0x50, 0x48,
        ];
        let saved = saved(Machine::Amd64, &code);
        assert_eq!(saved.general, [(6, 8), (15, 16), (12, 24), (3, 32)]);
        assert_eq!((saved.count(), saved.return_address()), (3, None));
    }
}
