//! The names of registers by their DWARF numbers.

/// A machine whose registers have names here, and whose frames are moved.
#[derive(Clone, Copy, Debug, Default, PartialEq, Eq, clap::ValueEnum)]
pub enum Machine {
    #[default]
    #[value(name = "x86-64", aliases = ["amd64", "x86_64"])]
    X86_64,
    #[value(name = "aarch64", alias = "arm64")]
    Aarch64,
}

/// Names of registers that follow each other: the first number, and how they are called.
struct Row {
    first: u16,
    names: &'static [&'static str],
}

/// Registers that have a letter and a number: the first DWARF number, how many, the letter, and
/// the number of the first.
struct Bank {
    first: u16,
    length: u16,
    letter: &'static str,
    from: u16,
}

const fn bank(first: u16, length: u16, letter: &'static str, from: u16) -> Bank {
    Bank {
        first,
        length,
        letter,
        from,
    }
}

/// The System V ABI for AMD64, figure 3.36.
const X86_64_ROWS: &[Row] = &[
    Row {
        first: 0,
        names: &["RAX", "RDX", "RCX", "RBX", "RSI", "RDI", "RBP", "RSP"],
    },
    Row {
        first: 16,
        names: &["RIP"],
    },
    Row {
        first: 49,
        names: &["RFLAGS", "ES", "CS", "SS", "DS", "FS", "GS"],
    },
    Row {
        first: 58,
        names: &["FS.BASE", "GS.BASE"],
    },
    Row {
        first: 62,
        names: &["TR", "LDTR", "MXCSR", "FCW", "FSW"],
    },
];
const X86_64_BANKS: &[Bank] = &[
    bank(8, 8, "R", 8),
    bank(17, 16, "XMM", 0),
    bank(33, 8, "ST", 0),
    bank(41, 8, "MM", 0),
    bank(67, 16, "XMM", 16),
    bank(118, 8, "K", 0),
];

/// DWARF for the Arm 64-bit architecture, section 4.1.
const AARCH64_ROWS: &[Row] = &[
    Row {
        first: 31,
        names: &["SP", "PC", "ELR_mode", "RA_SIGN_STATE"],
    },
    Row {
        first: 46,
        names: &["VG", "FFR"],
    },
];
const AARCH64_BANKS: &[Bank] = &[
    bank(0, 31, "X", 0),
    bank(48, 16, "P", 0),
    bank(64, 32, "V", 0),
    bank(96, 32, "Z", 0),
];

impl Machine {
    /// How it is called.
    pub fn name(self) -> &'static str {
        match self {
            Machine::X86_64 => "x86-64",
            Machine::Aarch64 => "aarch64",
        }
    }

    /// The name of a register; its number where it has no name.
    pub fn register(self, number: u16) -> String {
        let (rows, banks) = match self {
            Machine::X86_64 => (X86_64_ROWS, X86_64_BANKS),
            Machine::Aarch64 => (AARCH64_ROWS, AARCH64_BANKS),
        };
        let beyond = |first: u16| number.checked_sub(first);
        let mut names = rows.iter().filter_map(|row| {
            let names = row.names;
            names.get(usize::from(beyond(row.first)?))
        });
        if let Some(name) = names.next() {
            return name.to_string();
        }
        let mut numbered = banks.iter().filter_map(|bank| {
            let index = beyond(bank.first).filter(|index| *index < bank.length)?;
            Some(format!("{}{}", bank.letter, bank.from + index))
        });
        let name = numbered.next();
        name.unwrap_or_else(|| format!("register {number}"))
    }

    /// The numbers of the registers that a frame brings: the general ones, and the stack pointer.
    pub fn of_frames(self) -> std::ops::Range<u16> {
        match self {
            Machine::X86_64 => 0..16,
            Machine::Aarch64 => 0..32,
        }
    }

    /// The register of a frame that has this name, in whichever letters.
    pub fn named(self, name: &[u8]) -> Option<u16> {
        let is_it = |number: &u16| {
            let own = self.register(*number);
            own.as_bytes().eq_ignore_ascii_case(name)
        };
        self.of_frames().find(is_it)
    }
}

#[cfg(test)]
mod tests {
    use super::*;

    /// Numbers and names in turn.
    const X86_64: &str = "0 RAX 1 RDX 2 RCX 3 RBX 4 RSI 5 RDI 6 RBP 7 RSP 8 R8 15 R15 16 RIP \
        17 XMM0 32 XMM15 33 ST0 40 ST7 41 MM0 48 MM7 49 RFLAGS 50 ES 55 GS 58 FS.BASE 59 GS.BASE \
        62 TR 64 MXCSR 66 FSW 67 XMM16 82 XMM31 118 K0 125 K7";
    const AARCH64: &str = "0 X0 29 X29 30 X30 31 SP 32 PC 33 ELR_mode 34 RA_SIGN_STATE 46 VG \
        47 FFR 48 P0 63 P15 64 V0 95 V31 96 Z0 127 Z31";

    #[test]
    fn names_stand_at_their_numbers() {
        for (machine, names) in [(Machine::X86_64, X86_64), (Machine::Aarch64, AARCH64)] {
            let words: Vec<&str> = names.split_whitespace().collect();
            for pair in words.chunks(2) {
                let number = pair[0].parse().unwrap();
                assert_eq!(machine.register(number), pair[1]);
            }
        }
    }

    #[test]
    fn registers_of_a_frame_by_their_names() {
        for (machine, last) in [(Machine::X86_64, "R15"), (Machine::Aarch64, "SP")] {
            let numbers = machine.of_frames();
            assert_eq!(machine.register(numbers.end - 1), last);
            for number in numbers {
                let name = machine.register(number);
                assert_eq!(machine.named(name.as_bytes()), Some(number));
                let name = name.to_lowercase();
                assert_eq!(machine.named(name.as_bytes()), Some(number));
            }
            for name in [
                "",
                "rip",
                "PC",
                "register 5",
                "5",
                "x32",
                "r16",
                "eax",
                "xmm0",
            ] {
                assert_eq!(machine.named(name.as_bytes()), None, "{name}");
            }
        }
        assert_eq!(Machine::X86_64.named(b"x0"), None);
        assert_eq!(Machine::Aarch64.named(b"rbx"), None);
    }

    #[test]
    fn the_others_have_their_numbers_for_names() {
        for number in [56, 57, 60, 83, 117, 126, 65535] {
            let name = format!("register {number}");
            assert_eq!(Machine::X86_64.register(number), name);
        }
        for number in [35, 45, 128, 65535] {
            let name = format!("register {number}");
            assert_eq!(Machine::Aarch64.register(number), name);
        }
    }

    #[test]
    fn no_two_registers_have_one_name() {
        for machine in [Machine::X86_64, Machine::Aarch64] {
            let names: std::collections::BTreeSet<String> =
                (0..1000).map(|number| machine.register(number)).collect();
            assert_eq!(names.len(), 1000);
        }
    }
}
