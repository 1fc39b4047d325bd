//! Links `libtreskibben.a`, the static library that `tools/staticlib treskibben` writes, if it is of the
//! version that this crate is written for.
//!
//! It is looked for in `target/staticlib` of the repository, or in the folder that the environment
//! variable `TRESKIBBEN_LIB` names. A relative name counts from the folder where cargo was called.

use std::env;
use std::fs;
use std::os::unix::process::parent_id;
use std::path::{Path, PathBuf};
use std::process::exit;

const ARCHIVE: &str = "libtreskibben.a";

/// The name that only a library of this crate's version has: see `src/ffi.rs`.
const OF_THIS_VERSION: &str = "treskibben_version_3";

/// The names of all versions begin with this, and a number follows.
const OF_A_VERSION: &str = "treskibben_version_";

/// Tells what is wrong, and ends the build.
fn fail(lines: &[&str]) -> ! {
    lines.iter().for_each(|line| eprintln!("{line}"));
    exit(1)
}

/// The folder where cargo was called, which is the parent of this process. A build script itself is
/// started in the folder of its package.
fn called_in() -> PathBuf {
    let folder = fs::read_link(format!("/proc/{}/cwd", parent_id()));
    folder.unwrap_or_else(|error| {
        let trouble = format!("The folder where cargo was called cannot be told: {error}.");
        fail(&[&trouble, "Let TRESKIBBEN_LIB begin with a slash."])
    })
}

fn folder() -> PathBuf {
    match env::var_os("TRESKIBBEN_LIB").map(PathBuf::from) {
        Some(named) if named.is_absolute() => named,
        Some(named) => {
            // Called in another folder, cargo has to ask again.
            println!("cargo:rerun-if-env-changed=PWD");
            called_in().join(named)
        }
        None => {
            let package = env::var_os("CARGO_MANIFEST_DIR").expect("cargo sets CARGO_MANIFEST_DIR");
            Path::new(&package).join("../target/staticlib")
        }
    }
}

/// The names in the index that an archive begins with: a head of 60 bytes, of which ten tell the
/// length, a count of four bytes, as many places of four bytes, and the names, each with a zero byte
/// after it.
fn names(archive: &[u8]) -> Option<Vec<String>> {
    let (head, rest) = archive.strip_prefix(b"!<arch>\n")?.split_at_checked(60)?;
    head.starts_with(b"/ ").then_some(())?;
    let length = std::str::from_utf8(&head[48..58]).ok()?.trim().parse();
    let index = rest.get(..length.ok()?)?;
    let (count, index) = index.split_first_chunk::<4>()?;
    let names = index.get(4 * u32::from_be_bytes(*count) as usize..)?;
    let name = |bytes: &[u8]| String::from_utf8_lossy(bytes).into_owned();
    Some(names.split(|byte| *byte == 0).map(name).collect())
}

/// The version of a library by its names, in words.
fn version(names: &[String]) -> String {
    let number = |name: &String| {
        let number = name.strip_prefix(OF_A_VERSION)?;
        Some(format!("of version {number}"))
    };
    let from_before = || "of no version, or from before versions".to_string();
    names.iter().find_map(number).unwrap_or_else(from_before)
}

fn main() {
    println!("cargo:rerun-if-env-changed=TRESKIBBEN_LIB");
    println!("cargo:rerun-if-changed=build.rs");
    let folder = folder();
    let archive = folder.join(ARCHIVE);
    println!("cargo:rerun-if-changed={}", archive.display());
    let remedy = [
        "Run `tools/staticlib treskibben` in the root of the repository, or let",
        "TRESKIBBEN_LIB name the folder that holds libtreskibben.a.",
    ];
    if !archive.is_file() {
        let missing = format!("{} is missing.", archive.display());
        fail(&[&missing, remedy[0], remedy[1]]);
    }
    let bytes = fs::read(&archive).unwrap_or_else(|error| {
        fail(&[&format!("{} cannot be read: {error}.", archive.display())])
    });
    let names = names(&bytes).unwrap_or_default();
    if !names.iter().any(|name| name == OF_THIS_VERSION) {
        let wanted = OF_THIS_VERSION.trim_start_matches(OF_A_VERSION);
        let is = format!("{} is {},", archive.display(), version(&names));
        let wants = format!("and this crate is written for version {wanted}.");
        fail(&[&is, &wants, remedy[0], remedy[1]]);
    }
    println!("cargo:rustc-link-search=native={}", folder.display());
    println!("cargo:rustc-link-lib=static=treskibben");
}
