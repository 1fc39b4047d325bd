use super::*;
use crate::lists::entry;

fn line(naming: Naming, machine: Machine, line: &str) -> Result<Option<Line>, String> {
    entry(line.as_bytes(), &Lines(naming, machine))
}

/// Address, function and the registers that a line tells.
fn told(line: Line) -> (u64, u64, Vec<(u16, u64)>) {
    let registers = (0..32).filter(|register| line.tells(*register));
    let registers = registers.map(|register| (register, line.registers[usize::from(register)]));
    (line.frame.address, line.frame.function, registers.collect())
}

#[test]
fn the_version_decides() {
    for (section, naming) in [
        (&[][..], Naming::Address),
        (&[3], Naming::Address),
        (&[1, 3], Naming::InFunction),
        (&[2], Naming::Address),
    ] {
        assert_eq!(Naming::of(section), naming, "{section:?}");
    }
}

#[test]
fn each_version_has_its_lines() {
    let address = |text| line(Naming::Address, Machine::Aarch64, text);
    let function = |text| line(Naming::InFunction, Machine::Aarch64, text);
    let both = vec![(29, 1), (31, 0x7000)];
    let one = address("1020 1 0x7000").unwrap().unwrap();
    assert_eq!(told(one), (0x1020, 0, both.clone()));
    let one = function("10+20 1 0x7000 # 5").unwrap().unwrap();
    assert_eq!(told(one), (0x20, 10, both));
    assert_eq!(address(" # 1 2 3"), Ok(None));
    assert_eq!(function(" # 1+2 3 4"), Ok(None));
    assert_eq!(address("1 2 3 4"), Err("4 words".to_string()));
    assert_eq!(address("1"), Err("1 word".to_string()));
    assert_eq!(function("1+2 3"), Err("2 words".to_string()));
    assert_eq!(function("1+2 3 4 5"), Err("4 words".to_string()));
    for (line, bad) in [("0+20 0 7000", "0+20"), ("20 0 7000+1", "7000+1")] {
        let start = format!("'{bad}' is not a hexadecimal number");
        assert!(
            address(line).is_err_and(|why| why.starts_with(&start)),
            "{line}"
        );
    }
    for (line, bad) in [
        ("1020 0 7000", "1020"),
        ("a+20 0 7000", "a+20"),
        ("0+ 20 0", "0+"),
    ] {
        let start = format!("'{bad}' is not a function's decimal number");
        assert!(
            function(line).is_err_and(|why| why.starts_with(&start)),
            "{line}"
        );
    }
}

#[test]
fn registers_by_name() {
    let good = |machine, text| told(line(Naming::Address, machine, text).unwrap().unwrap()).2;
    let amd64 = |text| good(Machine::X86_64, text);
    assert_eq!(
        amd64("1 2 3 rbx=4 R15=0x5"),
        [(3, 4), (6, 2), (7, 3), (15, 5)]
    );
    assert_eq!(amd64("1 rsp=3 rbx=4 RBP=2"), [(3, 4), (6, 2), (7, 3)]);
    assert_eq!(amd64("1 rbx=4 2 3"), [(3, 4), (6, 2), (7, 3)]);
    let aarch64 = |text| good(Machine::Aarch64, text);
    assert_eq!(
        aarch64("1 2 3 x19=4 x30=5"),
        [(19, 4), (29, 2), (30, 5), (31, 3)]
    );
    assert_eq!(aarch64("1 x29=2 sp=3"), [(29, 2), (31, 3)]);
}

#[test]
fn registers_that_are_none() {
    let bad = |text| line(Naming::Address, Machine::X86_64, text).unwrap_err();
    assert_eq!(bad("1 2 3 rip=4"), "'rip' is not a register of x86-64");
    assert_eq!(bad("1 2 3 x19=4"), "'x19' is not a register of x86-64");
    assert_eq!(bad("1 2 3 =4"), "'' is not a register of x86-64");
    assert!(bad("1 2 3 rbx=").starts_with("'' is not a hexadecimal number"));
    assert!(bad("1 2 3 rbx=4=5").starts_with("'4=5' is not a hexadecimal number"));
    assert!(bad("1 2 3 rbx").starts_with("'rbx' is not a hexadecimal number"));
    assert_eq!(bad("1 2 3 rbx=4 RBX=4"), "RBX is told twice");
    assert_eq!(bad("1 2 3 rsp=3"), "RSP is told twice");
    assert_eq!(bad("1 rsp=3 rbx=4"), "RBP is not told");
    assert_eq!(bad("1 rbp=3"), "RSP is not told");
    assert_eq!(bad("1 2 rsp=3"), "2 words");
    assert_eq!(bad("1 2 3 4 rbx=5"), "4 words");
    let bad = |text| line(Naming::Address, Machine::Aarch64, text).unwrap_err();
    assert_eq!(bad("1 2 3 fp=4"), "'fp' is not a register of aarch64");
    assert_eq!(bad("1 2 3 X29=2"), "X29 is told twice");
}

#[test]
fn frames_in_words() {
    let read = |machine| {
        let line = line(Naming::InFunction, machine, "10+20 1 7000 ");
        line.unwrap().unwrap()
    };
    let frame = read(Machine::X86_64);
    let words = Naming::InFunction.words(Machine::X86_64, &frame);
    assert_eq!(words, "function 10, offset 0x20, RBP 0x1, RSP 0x7000");
    let words = Naming::Address.words(Machine::X86_64, &frame);
    assert_eq!(words, "address 0x20, RBP 0x1, RSP 0x7000");
    let words = Naming::Address.words(Machine::Aarch64, &read(Machine::Aarch64));
    assert_eq!(words, "address 0x20, X29 0x1, SP 0x7000");
}

/// What is written is read again, with the registers that it was written with.
#[test]
fn lists_after_a_move() {
    for (naming, machine, text, after) in [
        (
            Naming::Address,
            Machine::X86_64,
            "1020 r12=5 rbp=1 rsp=7000 RBX=50000\n# none\n1040 2 7018\n",
            "# The frames after the move: ADDRESS RBP RSP REGISTER=VALUE..\n\
             0x1020 0x1 0x7000 rbx=0x90000 r12=0x5\n0x1040 0x2 0x7018\n",
        ),
        (
            Naming::InFunction,
            Machine::Aarch64,
            "7+20 1 7000 x3=50000 x30=6\n8+20 1 7018\n",
            "# The frames after the move: FUNCTION+OFFSET X29 SP REGISTER=VALUE..\n\
             7+0x20 0x1 0x7000 x3=0x90000 x30=0x6\n8+0x20 0x1 0x7018\n",
        ),
    ] {
        let lines = naming.read(machine, Path::new("a"), text.as_bytes());
        let lines = lines.unwrap();
        let mut registers: Vec<Registers> = lines.iter().map(|line| line.value.registers).collect();
        registers[0][3] = 0x90000;
        let written = naming.text(machine, &lines, &registers);
        assert_eq!(written, after);
        let again = naming.read(machine, Path::new("a"), written.as_bytes());
        let again: Vec<Line> = again.unwrap().into_iter().map(|line| line.value).collect();
        for ((before, again), now) in lines.iter().zip(&again).zip(&registers) {
            assert_eq!(
                (again.frame, again.told),
                (before.value.frame, before.value.told)
            );
            assert_eq!(&again.registers, now);
        }
    }
}
