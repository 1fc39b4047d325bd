//! The program, run as a process: what it writes is what the second implementation says.
//!
//! It is `crates/list_section/out/list_section` of the repository, where `rt ci` and `rt run` leave it, or what
//! `TRESKIBBEN_PROGRAM` names. The random sections follow from a seed. It is printed; `TRESKIBBEN_SEED` sets it.

#[allow(dead_code)] // Nothing is counted here.
mod common;
mod rows;
#[allow(dead_code)] // What llvm-readobj printed is not needed here.
#[path = "llvm/sections.rs"]
mod sections;

use common::{differ, say, seed};
use generator::layout::Function;
use generator::{case, largest, of_length_in, Rng, Section, Version};
use reference::program::{self, MAX_INPUT};
use rows::{c_and_zero, c_with, h_1_listing, C, H, H_1, H_LISTING};
use std::env;
use std::fs::File;
use std::io::{ErrorKind, Write};
use std::path::{Path, PathBuf};
use std::process::{Command, Stdio};
use std::thread;
use std::time::Duration;

/// Random sections that the program is run on.
const RANDOM: usize = 400;

/// The program, which must be there.
fn program() -> PathBuf {
    let path = match env::var_os("TRESKIBBEN_PROGRAM") {
        Some(named) => PathBuf::from(named),
        None => {
            Path::new(env!("CARGO_MANIFEST_DIR")).join("../crates/list_section/out/list_section")
        }
    };
    assert!(
        path.is_file(),
        "{} is missing: run `rt run < stdin` in the crate's folder, or let \
         TRESKIBBEN_PROGRAM name the program",
        path.display()
    );
    path
}

/// Writes the input in pieces of this length, with a pause after each where there are several. The
/// program need not read what is beyond the most that it takes.
fn feed(mut to: impl Write, input: &[u8], piece: usize) {
    for bytes in input.chunks(piece) {
        match to.write_all(bytes) {
            Ok(()) => {}
            Err(error) if error.kind() == ErrorKind::BrokenPipe && input.len() > MAX_INPUT => {
                return
            }
            Err(error) => panic!("the input of {} bytes is not read: {error}", input.len()),
        }
        if piece < input.len() {
            thread::sleep(Duration::from_micros(200));
        }
    }
}

/// What the program writes for an input that comes in pieces of this length. It must end well and
/// have nothing to say on standard error.
fn run(input: &[u8], piece: usize) -> Vec<u8> {
    let mut command = Command::new(program());
    command
        .stdin(Stdio::piped())
        .stdout(Stdio::piped())
        .stderr(Stdio::piped());
    let mut child = command.spawn().expect("the program starts");
    let stdin = child.stdin.take().expect("its input is a pipe");
    thread::scope(|scope| {
        scope.spawn(|| feed(stdin, input, piece));
        let output = child.wait_with_output().expect("the program ends");
        assert!(output.status.success(), "{}", output.status);
        assert_eq!(output.stderr, b"", "standard error");
        output.stdout
    })
}

/// The program's output is the second implementation's.
fn compare_in_pieces(name: &str, input: &[u8], piece: usize) {
    let (written, second) = (run(input, piece), program::run(input));
    if written != second {
        let answers = format!(
            "{} bytes are written, the second implementation has {}: {:?} and {:?}",
            written.len(),
            second.len(),
            String::from_utf8_lossy(&written[..written.len().min(100)]),
            String::from_utf8_lossy(&second[..second.len().min(100)]),
        );
        differ(name, input, &answers);
    }
}

fn compare(name: &str, input: &[u8]) {
    compare_in_pieces(name, input, input.len().max(1));
}

#[test]
fn worked_rows() {
    let mut older_f = c_with(12, 1);
    older_f[0] = 1;
    for (name, input, output) in [
        ("A", &[][..], &b"refused 1 at 0\n"[..]),
        ("B", &C[..15], b"refused 1 at 0\n"),
        ("C", &C, &[6]),
        ("D", &c_with(0, 2), b"refused 2 at 0\n"),
        ("E", &c_and_zero(), b"refused 9 at 16\n"),
        ("F", &c_with(12, 1), b"refused 5 at 12\n"),
        ("G", &c_with(4, 1), b"refused 4 at 16\n"),
        ("H", &H, &H_LISTING),
        ("C of version 1", &c_with(0, 1), &[7, 1, 6]),
        ("F of version 1", &older_f, b"refused 4 at 16\n"),
        ("H of version 1", &H_1, &h_1_listing()),
    ] {
        assert_eq!(run(input, 1_000), output, "{name}");
        compare(name, input);
    }
}

#[test]
fn sections_of_llvm() {
    for built in sections::all() {
        compare(&built.name, &built.bytes);
        compare(&built.name, &built.bytes[..built.bytes.len() - 1]);
    }
}

#[test]
fn random_sections() {
    let mut rng = Rng::new(seed("random sections"));
    let mut listings = 0;
    for _ in 0..RANDOM {
        let case = case(&mut rng);
        compare(case.name, &case.bytes);
        listings += usize::from(treskibben::check(&case.bytes).is_ok());
    }
    say(&format!("{RANDOM} sections, {listings} accepted"));
}

/// The sections of this length and version that have the longest listings: nothing but constants, or in
/// version 1 functions.
fn with_the_longest_listing(rng: &mut Rng, version: Version, length: usize) -> Section {
    let function = |_| Function {
        address: rng.word(),
        stack_size: rng.word(),
        record_count: 0,
    };
    let functions = match version {
        Version::One => (0..(length - 16) / 16).map(function).collect(),
        Version::Three => Vec::new(),
    };
    let left = length - 16 - 16 * functions.len();
    Section {
        version,
        functions,
        constants: (0..left / 8).map(|_| rng.word()).collect(),
        ..Section::default()
    }
}

/// Sections of these lengths with the longest listings, and random ones; each whole, with its last byte
/// cut, with a byte more, and with its last byte damaged.
#[test]
fn inputs_about_as_long_as_a_section_may_be() {
    let mut rng = Rng::new(seed("inputs about as long as a section may be"));
    for length in [
        MAX_INPUT - 8,
        MAX_INPUT,
        MAX_INPUT + 8,
        57_344,
        65_536,
        65_544,
    ] {
        for version in Version::ALL {
            let longest = with_the_longest_listing(&mut rng, version, length);
            for section in [longest, of_length_in(&mut rng, version, length)] {
                let mut bytes = section.encode();
                assert_eq!(bytes.len(), length);
                compare("whole", &bytes);
                compare("cut", &bytes[..length - 1]);
                bytes.push(0);
                compare("a byte more", &bytes);
                bytes.truncate(length);
                bytes[length - 1] ^= 1;
                compare("last byte", &bytes);
            }
        }
    }
    for (version, listing) in [(Version::One, 63_978), (Version::Three, 46_063)] {
        let section = with_the_longest_listing(&mut rng, version, MAX_INPUT).encode();
        assert_eq!(run(&section, MAX_INPUT).len(), listing);
    }
}

/// A section's length is a multiple of 8, so that only one of these lengths can be that of a section.
#[test]
fn inputs_of_40959_to_40961_bytes() {
    for version in Version::ALL {
        let section = of_length_in(&mut Rng::new(1), version, 40_960).encode();
        for length in 40_959..=40_961 {
            compare("zeros", &vec![0; length]);
            let mut bytes = section.clone();
            bytes.resize(length, 0);
            compare("a section, cut or grown", &bytes);
            let refused = run(&bytes, length) == b"refused 1 at 0\n";
            assert_eq!(refused, length > 40_960);
            bytes[2] = 1;
            compare("a section, damaged", &bytes);
        }
    }
}

/// Several megabytes, of which the program reads no more than it must.
#[test]
fn inputs_of_megabytes() {
    for length in [
        57_344,
        65_535,
        65_536,
        65_537,
        1 << 20,
        5 << 20,
        (16 << 20) + 1,
    ] {
        compare("zeros", &vec![0; length]);
    }
    largest::sections(1, &mut |section| compare("largest", &section.encode()));
}

/// Input that comes bit by bit, so that reads give less than is asked for.
#[test]
fn inputs_in_pieces() {
    for piece in [1, 7, 151] {
        compare_in_pieces("H", &H, piece);
        compare_in_pieces("H of version 1", &H_1, piece);
    }
    for version in Version::ALL {
        let long = of_length_in(&mut Rng::new(2), version, MAX_INPUT).encode();
        let longer = [&long[..], &[0]].concat();
        for piece in [1_000, 4_096, 40_959] {
            compare_in_pieces("the longest", &long, piece);
            compare_in_pieces("too long", &longer, piece);
        }
    }
}

#[test]
fn input_from_a_file_and_from_nowhere() {
    let sample = Path::new(env!("CARGO_MANIFEST_DIR")).join("../samples/h-statepoint.section");
    let sample = File::open(sample).expect("the sample");
    for (input, expected) in [
        (Stdio::from(sample), &H_LISTING[..]),
        (Stdio::null(), b"refused 1 at 0\n"),
    ] {
        let output = Command::new(program()).stdin(input).output();
        let output = output.expect("the program starts");
        assert!(output.status.success(), "{}", output.status);
        assert_eq!(output.stdout, expected);
    }
}
