//! Runs `llvm/build`, once for all tests, and hands out what it made.

use std::path::{Path, PathBuf};
use std::process::Command;
use std::sync::Mutex;

pub const TARGETS: &[&str] = &["x86_64", "aarch64"];
pub const LEVELS: &[&str] = &["O0", "O0-fp", "O2", "O2-fp"];

/// The levels at which pointers may stay in registers.
pub const REGISTERS: &[&str] = &[
    "O0-registers",
    "O0-fp-registers",
    "O2-registers",
    "O2-fp-registers",
];

/// What must be made for every target and level; there may be more. `two` is two maps in one section.
const SOURCES: &[&str] = &[
    "constants",
    "patchpoint",
    "registers",
    "rewrite",
    "stackmap",
    "statepoint",
    "two",
    "vectors",
];

/// What must be made for every target where pointers may stay in registers.
const WITH_PAIRS: &[&str] = &["registers", "rewrite", "statepoint", "vectors"];

/// One section and what llvm-readobj printed of it.
pub struct Built {
    pub name: String,
    pub target: String,
    pub bytes: Vec<u8>,
    pub printed: String,
}

/// The sections with one map.
pub fn single() -> impl Iterator<Item = &'static Built> {
    all().iter().filter(|built| !built.name.starts_with("two."))
}

pub fn named(source: &str, target: &str, level: &str) -> &'static Built {
    let name = format!("{source}.{target}.{level}");
    all()
        .iter()
        .find(|built| built.name == name)
        .unwrap_or_else(|| panic!("llvm/build did not make {name}"))
}

/// All that one run of `llvm/build` made; where it failed, the test fails and says why.
pub fn all() -> &'static [Built] {
    static ALL: Mutex<Option<&Result<Vec<Built>, String>>> = Mutex::new(None);
    let run = || -> &Result<_, _> {
        Box::leak(Box::new(build().and_then(|folder| complete(load(&folder)))))
    };
    let made = *ALL.lock().unwrap().get_or_insert_with(run);
    made.as_deref()
        .unwrap_or_else(|fault| panic!("llvm/build: {fault}"))
}

/// A fresh folder with the sections of this run.
fn build() -> Result<PathBuf, String> {
    let out = Path::new(env!("CARGO_TARGET_TMPDIR")).join(format!("llvm.{}", std::process::id()));
    let script = Path::new(env!("CARGO_MANIFEST_DIR")).join("../llvm/build");
    let ran = Command::new(script)
        .arg(&out)
        .output()
        .map_err(|fault| fault.to_string())?;
    if ran.status.success() {
        return Ok(out);
    }
    Err(format!(
        "{}\n{}",
        ran.status,
        String::from_utf8_lossy(&ran.stderr)
    ))
}

/// The same sections, where none is missing.
fn complete(built: Vec<Built>) -> Result<Vec<Built>, String> {
    for target in TARGETS {
        for (sources, levels) in [(SOURCES, LEVELS), (WITH_PAIRS, REGISTERS)] {
            for source in sources {
                for level in levels {
                    let name = format!("{source}.{target}.{level}");
                    if !built.iter().any(|built| built.name == name) {
                        return Err(format!("{name} is missing"));
                    }
                }
            }
        }
    }
    Ok(built)
}

/// All sections of the folder in the order of their names. The folder is removed.
fn load(folder: &Path) -> Vec<Built> {
    let mut built = Vec::new();
    for entry in std::fs::read_dir(folder).unwrap() {
        let path = entry.unwrap().path();
        if let Some(name) = path
            .file_name()
            .unwrap()
            .to_str()
            .unwrap()
            .strip_suffix(".section")
        {
            built.push(Built {
                name: name.to_string(),
                target: name.split('.').nth(1).unwrap().to_string(),
                bytes: std::fs::read(&path).unwrap(),
                printed: std::fs::read_to_string(path.with_extension("readobj")).unwrap(),
            });
        }
    }
    built.sort_by(|one, other| one.name.cmp(&other.name));
    std::fs::remove_dir_all(folder).unwrap();
    built
}
