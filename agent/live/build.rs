//! Runs `llvm/live/build`, which compiles the programs that are stopped, and links what it makes.

use std::env;
use std::path::PathBuf;
use std::process::{exit, Command};

const FOLDER: &str = "../../llvm/live";
const FILES: [&str; 5] = ["build", "guest.c", "walk.ll", "pairs.ll", "vectors.ll"];

fn main() {
    println!("cargo:rerun-if-changed=build.rs");
    for file in FILES {
        println!("cargo:rerun-if-changed={FOLDER}/{file}");
    }
    let out = PathBuf::from(env::var_os("OUT_DIR").expect("cargo sets OUT_DIR"));
    let script = format!("{FOLDER}/build");
    let ran = Command::new("bash").arg(&script).arg(&out).status();
    if !ran.is_ok_and(|status| status.success()) {
        eprintln!("{script} failed, or bash is missing: see above.");
        exit(1);
    }
    println!("cargo:rustc-link-search=native={}", out.display());
    println!("cargo:rustc-link-lib=static=live");
}
