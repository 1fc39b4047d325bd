//! Compiles `parser.cpp` against LLVM 14's headers. LLVM's stack map parser is all in its header, so that only the
//! C++ runtime is linked and no library of LLVM. Compiles `check.c`, the check in unproved C.
//!
//! Links `target/staticlib/libreads.a` too, where `tools/staticlib reads` has written it. Only `bench reads` needs it.

use std::ffi::OsStr;
use std::path::{Path, PathBuf};
use std::process::Command;

const FLAGS: &[&str] = &[
    "-std=c++14",
    "-O3",
    "-fPIC",
    "-fno-exceptions",
    "-fno-rtti",
    // LLVM's own release builds have no assertions either.
    "-DNDEBUG",
    // Else the headers ask for a symbol of LLVM's library.
    "-DLLVM_DISABLE_ABI_BREAKING_CHECKS_ENFORCING=1",
];

const C_FLAGS: [&str; 5] = ["-std=c11", "-O3", "-fPIC", "-Wall", "-Wextra"];

fn main() {
    for file in ["parser.cpp", "check.c", "build.rs"] {
        println!("cargo:rerun-if-changed={file}");
    }
    let out = PathBuf::from(std::env::var("OUT_DIR").unwrap());
    let (parser, check) = (out.join("parser.o"), out.join("check.o"));
    let mut flags: Vec<&OsStr> = FLAGS.iter().map(OsStr::new).collect();
    let headers = headers();
    flags.extend([OsStr::new("-isystem"), headers.as_os_str()]);
    let parser_compiler = compile(&["g++", "clang++"], &flags, "parser.cpp", &parser);
    let check_compiler = compile(
        &["gcc", "clang"],
        &C_FLAGS.map(OsStr::new),
        "check.c",
        &check,
    );
    let library = out.join("libothers.a");
    let archived = Command::new("ar")
        .arg("crs")
        .arg(&library)
        .args([&parser, &check])
        .status();
    assert!(
        archived.is_ok_and(|status| status.success()),
        "ar failed: the Debian package binutils has it"
    );
    println!("cargo:rustc-env=PARSER_COMPILER={parser_compiler} -O3");
    println!("cargo:rustc-env=CHECK_COMPILER={check_compiler} -O3");
    println!("cargo:rustc-link-search=native={}", out.display());
    println!("cargo:rustc-link-lib=static=others");
    println!("cargo:rustc-link-lib=dylib=stdc++");
    link_reads();
}

/// Links `libreads.a` and sets the cfg `libreads`, if it is there. The folder is watched and not the file: a watched
/// file that is missing would have all of this run at every build.
fn link_reads() {
    let package = std::env::var("CARGO_MANIFEST_DIR").unwrap();
    let folder = Path::new(&package).join("../../target/staticlib");
    println!("cargo:rerun-if-changed={}", folder.display());
    println!("cargo:rustc-check-cfg=cfg(libreads)");
    if folder.join("libreads.a").is_file() {
        println!("cargo:rustc-cfg=libreads");
        println!("cargo:rustc-link-search=native={}", folder.display());
        println!("cargo:rustc-link-lib=static=reads");
    }
}

/// The folder with LLVM 14's headers: where llvm-config says, else where Debian has it.
fn headers() -> PathBuf {
    let said = Command::new("llvm-config-14").arg("--includedir").output();
    let said = said
        .map(|output| String::from_utf8_lossy(&output.stdout).trim().to_string())
        .unwrap_or_default();
    [
        said.as_str(),
        "/usr/lib/llvm-14/include",
        "/usr/include/llvm-14",
    ]
    .iter()
    .map(PathBuf::from)
    .find(|folder| folder.join("llvm/Object/StackMapParser.h").is_file())
    .expect("LLVM 14's StackMapParser.h is missing: the Debian package llvm-14-dev has it")
}

/// Compiles a file with the first of these compilers that is there, and says which.
fn compile(
    compilers: &[&'static str],
    flags: &[&OsStr],
    file: &str,
    object: &Path,
) -> &'static str {
    for compiler in compilers {
        let mut command = Command::new(compiler);
        command.args(flags).args(["-c", file, "-o"]).arg(object);
        if let Ok(status) = command.status() {
            assert!(status.success(), "{compiler} failed on {file}");
            return compiler;
        }
    }
    panic!("no compiler for {file}: the Debian packages g++ and clang have one")
}
