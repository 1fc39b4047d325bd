//! The report's tool, run as a process on files: what it writes is what the second implementation says, and what the
//! safe crate's totals are as text.
//!
//! It is `crates/report_sections/out/report_sections` of the repository, where `rt ci` and `rt run` leave it, or what
//! `TRESKIBBEN_REPORT` names.

use crate::common::{say, seed};
use crate::rows::{C, H};
use generator::layout::Section;
use generator::reports::{of_length, Kind};
use generator::Rng;
use reference::report::{self as second, MAX_FILE};
use std::env;
use std::fs;
use std::path::{Path, PathBuf};
use std::process::{Command, Stdio};
use treskibben::report::Totals;

/// Random lists of files that the tool is run on.
const RANDOM: usize = 200;

/// The tool, which must be there.
fn tool() -> PathBuf {
    let path = match env::var_os("TRESKIBBEN_REPORT") {
        Some(named) => PathBuf::from(named),
        None => Path::new(env!("CARGO_MANIFEST_DIR"))
            .join("../crates/report_sections/out/report_sections"),
    };
    assert!(
        path.is_file(),
        "{} is missing: run `rt run` in the crate's folder, or let \
         TRESKIBBEN_REPORT name the tool",
        path.display()
    );
    path
}

/// What an argument names: a file with these bytes, nothing, or a folder.
#[derive(Clone, Debug)]
enum Named {
    File(Vec<u8>),
    Nothing,
    Folder,
}

/// A fresh folder for a test.
fn folder(name: &str) -> PathBuf {
    let folder = Path::new(env!("CARGO_TARGET_TMPDIR")).join(name);
    let _ = fs::remove_dir_all(&folder);
    fs::create_dir_all(&folder).unwrap();
    folder
}

/// What the tool writes for these arguments, in a folder of its own. It has to end well, with nothing on
/// standard error.
fn run(folder: &Path, named: &[Named]) -> Vec<u8> {
    let names: Vec<String> = (0..named.len()).map(|nth| nth.to_string()).collect();
    for (name, named) in names.iter().zip(named) {
        match named {
            Named::File(bytes) => fs::write(folder.join(name), bytes).unwrap(),
            Named::Nothing => {}
            Named::Folder => fs::create_dir(folder.join(name)).unwrap(),
        }
    }
    let mut command = Command::new(tool());
    command
        .args(&names)
        .current_dir(folder)
        .stdin(Stdio::null());
    let output = command.output().expect("the tool starts");
    assert!(output.status.success(), "{}", output.status);
    assert_eq!(output.stderr, b"", "standard error");
    output.stdout
}

/// The tool's bytes are the second implementation's, and the safe crate has the same totals.
fn compare(folder: &Path, named: &[Named]) -> String {
    let written = run(folder, named);
    let held = |named: &Named| match named {
        Named::File(bytes) => Some(bytes.clone()),
        Named::Nothing | Named::Folder => None,
    };
    let held: Vec<Option<Vec<u8>>> = named.iter().map(held).collect();
    let files: Vec<Option<&[u8]>> = held.iter().map(Option::as_deref).collect();
    let expected = second::run(&files);
    assert_eq!(written, expected, "{named:?}");
    let short = |file: &Option<Vec<u8>>| file.clone().filter(|bytes| bytes.len() <= MAX_FILE);
    let text = match Totals::of(held.iter().map(|file| short(file).unwrap_or_default())) {
        Ok(totals) => totals.to_string(),
        Err(refusal) => format!("refused {} at {}\n", refusal.number(), refusal.place()),
    };
    assert_eq!(String::from_utf8_lossy(&written), text);
    text
}

/// A section of constants alone, of this length.
fn of_bytes(length: usize) -> Vec<u8> {
    let constants = vec![7; (length - 16) / 8];
    let section = Section {
        constants,
        ..Section::default()
    };
    section.encode()
}

#[test]
fn files_at_the_edge() {
    let file = |bytes: &[u8]| Named::File(bytes.to_vec());
    let folder = folder("tool-edges");
    let longest = of_bytes(MAX_FILE);
    let one_more = [&longest[..], &[0]].concat();
    for (nth, named) in [
        vec![],
        vec![file(&C)],
        vec![file(&H), file(&C), file(&H)],
        vec![file(&longest)],
        vec![file(&one_more)],
        vec![file(&of_bytes(MAX_FILE + 8)), file(&of_bytes(MAX_FILE - 8))],
        vec![file(&vec![3; 300_000]), file(&H)],
        vec![Named::Nothing],
        vec![Named::Folder, file(&H), Named::Nothing, file(&[])],
    ]
    .into_iter()
    .enumerate()
    {
        let own = folder.join(nth.to_string());
        fs::create_dir(&own).unwrap();
        compare(&own, &named);
    }
}

#[test]
fn random_lists_of_files() {
    let mut rng = Rng::new(seed("lists of files"));
    let folder = folder("tool-random");
    let (mut whole, mut passed) = (0, 0);
    for nth in 0..RANDOM {
        let kind = rng.pick(&[Kind::Small, Kind::Any, Kind::Damaged]);
        let length = rng.below(12);
        let report = of_length(&mut rng, kind, length);
        let named: Vec<Named> = report
            .parts
            .into_iter()
            .map(|part| match rng.below(12) {
                0 => Named::Nothing,
                1 => Named::Folder,
                _ => Named::File(part.bytes),
            })
            .collect();
        let own = folder.join(nth.to_string());
        fs::create_dir(&own).unwrap();
        let text = compare(&own, &named);
        fs::remove_dir_all(&own).unwrap();
        whole += u64::from(text.starts_with("sections "));
        passed += u64::from(text.starts_with("refused 34 at "));
    }
    say(&format!(
        "{RANDOM} lists of files: {whole} counted, {passed} with 34"
    ));
    assert!(whole >= 50 && passed >= 10, "{whole}, {passed}");
}
