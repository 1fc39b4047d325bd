//! A restore in one page, for a host that is written in Rust: reads a section of version 3, a stack
//! image, the moves and the frames from files, moves the frames, and writes the new image.
//!
//! `restore --section S --image I --output NEW --first ADDRESS --moves M --frames F`
//!
//! The options and the files are those of the program `treskibben`, which does the same with more
//! care for files and better messages: docs/COMMAND.md. Registers that a move changes are printed here; the
//! program writes them beside the image, in one step.

use std::collections::HashMap;
use std::error::Error;
use std::fs;
use std::process::ExitCode;
use treskibben::{Frame, Machine, MoveTable, Registers};

type Outcome<T> = Result<T, Box<dyn Error>>;

/// A number in hexadecimal, with or without 0x.
fn number(word: &str) -> Outcome<u64> {
    let digits = word.strip_prefix("0x").unwrap_or(word);
    u64::from_str_radix(digits, 16).map_err(|error| format!("{word}: {error}").into())
}

/// The lines of a list; a `#` begins a comment.
fn lines(text: &str) -> impl Iterator<Item = &str> {
    let lines = text.lines();
    let lines = lines.map(|line| line.split('#').next().unwrap_or("").trim());
    lines.filter(|line| !line.is_empty())
}

/// The first `N` words of a line, which are numbers, and the rest.
fn numbers<const N: usize>(line: &str) -> Outcome<([u64; N], Vec<&str>)> {
    let mut words: Vec<&str> = line.split_whitespace().collect();
    let rest = words.split_off(N.min(words.len()));
    let first: Vec<u64> = words.into_iter().map(number).collect::<Outcome<_>>()?;
    let count = |_| format!("{line}: a line has {N} numbers");
    Ok((first.try_into().map_err(count)?, rest))
}

/// The names of the registers, by their DWARF numbers.
const NAMES: [&str; 16] = [
    "rax", "rdx", "rcx", "rbx", "rsi", "rdi", "rbp", "rsp", "r8", "r9", "r10", "r11", "r12", "r13",
    "r14", "r15",
];

/// A frame and its registers, of a line `ADDRESS RBP RSP` with others by name behind them.
fn frame(line: &str) -> Outcome<(Frame, Registers)> {
    let ([address, rbp, rsp], others) = numbers(line)?;
    let mut registers = Machine::Amd64.registers(rbp, rsp);
    for word in others {
        let bad = || format!("{word}: a register is NAME=VALUE");
        let (name, value) = word.split_once('=').ok_or_else(bad)?;
        let nth = NAMES.iter().position(|own| name.eq_ignore_ascii_case(own));
        registers[nth.ok_or_else(bad)?] = number(value)?;
    }
    Ok((Frame::new(address), registers))
}

fn restore() -> Outcome<String> {
    let words: Vec<String> = std::env::args().skip(1).collect();
    let options: HashMap<&str, &str> = words
        .chunks_exact(2)
        .map(|pair| (pair[0].as_str(), pair[1].as_str()))
        .collect();
    let option = |name: &str| options.get(name).ok_or(format!("{name} is missing"));

    let section = fs::read(option("--section")?)?;
    let mut image = fs::read(option("--image")?)?;
    let first = number(option("--first")?)?;
    let moves = fs::read_to_string(option("--moves")?)?;
    let frames = fs::read_to_string(option("--frames")?)?;

    let start = |line| numbers(line).map(|([old, new], _)| (old, new));
    let (old, new): (Vec<u64>, Vec<u64>) = lines(&moves).map(start).collect::<Outcome<_>>()?;
    let frames = lines(&frames).map(frame).collect::<Outcome<Vec<_>>>()?;
    let (frames, before): (Vec<Frame>, Vec<Registers>) = frames.into_iter().unzip();
    let (table, mut after) = (MoveTable::new(&old, &new), before.clone());
    let (machine, registers) = (Machine::Amd64, after.as_flattened_mut());
    let pointers = treskibben::relocate_thread(
        &section, &mut image, first, table, machine, &frames, registers,
    )?;

    let output = option("--output")?;
    fs::write(output, &image)?;
    let word = if frames.len() == 1 { "frame" } else { "frames" };
    let count = frames.len();
    let mut words = format!("{output}: {count} {word} moved, {pointers} pointers");
    for (nth, (before, after)) in before.iter().zip(&after).enumerate() {
        let changed = (0..NAMES.len()).filter(|own| before[*own] != after[*own]);
        changed
            .for_each(|own| words += &format!("\nframe {nth}: {}={:#x}", NAMES[own], after[own]));
    }
    Ok(words)
}

fn main() -> ExitCode {
    match restore() {
        Ok(words) => println!("{words}"),
        Err(error) => {
            eprintln!("restore: {error}");
            return ExitCode::FAILURE;
        }
    }
    ExitCode::SUCCESS
}
