//! The library and who links it: where it is looked for, and that one of another version is refused,
//! by the build, by the linker, and in C.
//!
//! Each test makes a small crate of a stranger, outside this workspace, that depends on this one.

mod readme;

use std::fs;
use std::path::{Path, PathBuf};
use std::process::{Command, Output};

/// The folder of this package, and the library that it was built with by itself.
const PACKAGE: &str = env!("CARGO_MANIFEST_DIR");
const LIBRARY: &str = concat!(
    env!("CARGO_MANIFEST_DIR"),
    "/../target/staticlib/libtreskibben.a"
);

const NAME: &[u8] = b"treskibben_version_3";
const OTHER_NAME: &[u8] = b"treskibben_version_4";

/// A program that asks the library two things.
const MAIN: &str = r#"fn main() {
    println!("version {}: {:?}", treskibben::version(), treskibben::check(&[]).map_err(|r| r.number()));
}
"#;

const ANSWER: &str = "version 3: Err(1)\n";

/// A fresh folder for a test.
fn folder(name: &str) -> PathBuf {
    let folder = Path::new(env!("CARGO_TARGET_TMPDIR")).join(name);
    let _ = fs::remove_dir_all(&folder);
    fs::create_dir_all(&folder).unwrap();
    folder
}

/// A stranger's crate in a folder, with these lines in its manifest, that finds this one at a path.
fn stranger(folder: &Path, path: &str, manifest: &str) {
    let dependency = format!("[dependencies]\ntreskibben = {{ path = \"{path}\" }}\n");
    let package = "[package]\nname = \"stranger\"\nversion = \"0.1.0\"\nedition = \"2021\"\n\n";
    fs::create_dir_all(folder.join("src")).unwrap();
    fs::write(folder.join("src/main.rs"), MAIN).unwrap();
    fs::write(
        folder.join("Cargo.toml"),
        format!("{package}{dependency}{manifest}"),
    )
    .unwrap();
}

/// Runs a stranger's crate by cargo, called in a folder, with the library of `lib` or without a word.
fn cargo_run(called_in: &Path, manifest: &Path, target: &Path, lib: Option<&str>) -> Output {
    let mut cargo = Command::new(env!("CARGO"));
    cargo.args(["run", "--quiet", "--offline", "--manifest-path"]);
    cargo
        .arg(manifest.join("Cargo.toml"))
        .arg("--target-dir")
        .arg(target);
    cargo.current_dir(called_in).env("PWD", called_in);
    match lib {
        Some(lib) => cargo.env("TRESKIBBEN_LIB", lib),
        None => cargo.env_remove("TRESKIBBEN_LIB"),
    };
    cargo.output().expect("cargo can be started")
}

fn text(bytes: &[u8]) -> String {
    String::from_utf8_lossy(bytes).into_owned()
}

/// Writes the library with another name in place of one of its names, of the same length.
fn renamed(library: &Path, from: &[u8], to: &[u8]) {
    let mut bytes = fs::read(LIBRARY).unwrap();
    let places: Vec<usize> = (0..=bytes.len() - from.len())
        .filter(|at| bytes[*at..].starts_with(from))
        .collect();
    // Once in the archive's index, and once among the object's own names.
    assert_eq!(places.len(), 2);
    for at in places {
        bytes[at..at + to.len()].copy_from_slice(to);
    }
    fs::create_dir_all(library.parent().unwrap()).unwrap();
    fs::write(library, bytes).unwrap();
}

#[test]
fn the_library_is_of_this_version() {
    assert_eq!(treskibben::version(), treskibben::VERSION);
    let name = format!("treskibben_version_{}", treskibben::VERSION);
    assert_eq!(name.as_bytes(), NAME);
}

/// The header's number is the crate's.
#[test]
fn the_header_has_the_same_version() {
    let header = fs::read_to_string(Path::new(PACKAGE).join("../include/treskibben.h")).unwrap();
    let defined = format!("#define TRESKIBBEN_VERSION {}\n", treskibben::VERSION);
    assert!(header.contains(&defined));
    let declared = format!("uint32_t {}(void);", text(NAME));
    assert!(header.contains(&declared));
}

/// A relative TRESKIBBEN_LIB counts from where cargo is called: here two folders with one name, of which
/// the second has a library of another version. It is asked again when cargo is called elsewhere.
#[test]
fn a_relative_folder_counts_from_where_cargo_is_called() {
    let folder = folder("relative");
    stranger(&folder.join("crate"), PACKAGE, "[workspace]\n");
    let (here, there) = (folder.join("here"), folder.join("there"));
    fs::create_dir_all(here.join("lib")).unwrap();
    fs::copy(LIBRARY, here.join("lib/libtreskibben.a")).unwrap();
    renamed(&there.join("lib/libtreskibben.a"), NAME, OTHER_NAME);
    let (manifest, target) = (folder.join("crate"), folder.join("target"));

    let ran = cargo_run(&here, &manifest, &target, Some("lib"));
    assert_eq!(text(&ran.stdout), ANSWER, "{}", text(&ran.stderr));
    let ran = cargo_run(&there, &manifest, &target, Some("lib"));
    let said = text(&ran.stderr);
    assert!(!ran.status.success(), "{said}");
    let path = there.join("lib/libtreskibben.a");
    let words = format!("{} is of version 4,", path.display());
    assert!(said.contains(&words), "{said}");
    assert!(
        said.contains("and this crate is written for version 3."),
        "{said}"
    );
    let ran = cargo_run(&here, &manifest, &target, Some("../here/lib"));
    assert_eq!(text(&ran.stdout), ANSWER, "{}", text(&ran.stderr));
}

/// Copies a folder, but not what cargo has built in it.
fn copy(from: &Path, to: &Path) {
    fs::create_dir_all(to).unwrap();
    for entry in fs::read_dir(from).unwrap() {
        let (path, name) = entry
            .map(|entry| (entry.path(), entry.file_name()))
            .unwrap();
        match path.is_dir() {
            true if name == "target" => (),
            true => copy(&path, &to.join(name)),
            false => drop(fs::copy(&path, to.join(name)).unwrap()),
        }
    }
}

/// A checkout inside the workspace of a stranger has to be left out of it.
#[test]
fn a_workspace_around_the_checkout_excludes_it() {
    let folder = folder("around");
    copy(Path::new(PACKAGE), &folder.join("treskibben/agent"));
    fs::create_dir_all(folder.join("treskibben/target/staticlib")).unwrap();
    let library = "treskibben/target/staticlib/libtreskibben.a";
    fs::copy(LIBRARY, folder.join(library)).unwrap();
    stranger(&folder.join("app"), "../treskibben/agent", "");
    let run = |exclude: &str| {
        let workspace = format!("[workspace]\nmembers = [\"app\"]\nresolver = \"2\"\n{exclude}\n");
        fs::write(folder.join("Cargo.toml"), workspace).unwrap();
        cargo_run(&folder, &folder, &folder.join("target"), None)
    };
    let ran = run("");
    let said = text(&ran.stderr);
    assert!(said.contains("multiple workspace roots"), "{said}");
    let ran = run("exclude = [\"treskibben\"]");
    assert_eq!(text(&ran.stdout), ANSWER, "{}", text(&ran.stderr));
}

#[test]
fn a_library_that_is_none_is_told() {
    let folder = folder("none");
    stranger(&folder.join("crate"), PACKAGE, "[workspace]\n");
    let run = |lib: &str| {
        let ran = cargo_run(
            &folder,
            &folder.join("crate"),
            &folder.join("target"),
            Some(lib),
        );
        assert!(!ran.status.success());
        text(&ran.stderr)
    };
    let missing = folder.join("lib/libtreskibben.a");
    let said = run("lib");
    assert!(
        said.contains(&format!("{} is missing.", missing.display())),
        "{said}"
    );
    fs::create_dir(folder.join("lib")).unwrap();
    fs::write(&missing, "no archive").unwrap();
    let said = run("lib");
    let words = format!(
        "{} is of no version, or from before versions,",
        missing.display()
    );
    assert!(said.contains(&words), "{said}");
}

/// Where nothing looks at the archive first, the linker refuses it: the crate by itself, built without
/// its build script, and a program that uses one function only.
#[test]
fn another_version_cannot_be_linked() {
    let folder = folder("linked");
    let source = Path::new(PACKAGE).join("src/lib.rs");
    let main = folder.join("main.rs");
    fs::write(
        &main,
        "fn main() { println!(\"{:?}\", treskibben::check(&[]).is_ok()); }\n",
    )
    .unwrap();
    let rustc = |arguments: &[&str]| {
        let mut rustc = Command::new("rustc");
        rustc
            .args(["--edition", "2021", "-O", "-L", "."])
            .args(arguments);
        rustc
            .current_dir(&folder)
            .output()
            .expect("rustc can be started")
    };
    let link = |from: &[u8], to: &[u8]| {
        renamed(&folder.join("libtreskibben.a"), from, to);
        let crate_type = [
            "--crate-type",
            "rlib",
            "--crate-name",
            "treskibben",
            "-ldylib=treskibben",
        ];
        let built = rustc(&[&crate_type[..], &[source.to_str().unwrap()]].concat());
        assert!(built.status.success(), "{}", text(&built.stderr));
        rustc(&[
            "--extern",
            "treskibben=libtreskibben.rlib",
            main.to_str().unwrap(),
        ])
    };
    let same = link(NAME, NAME);
    assert!(same.status.success(), "{}", text(&same.stderr));
    let ran = Command::new(folder.join("main")).output().unwrap();
    assert_eq!(text(&ran.stdout), "false\n");
    let other = link(NAME, OTHER_NAME);
    let said = text(&other.stderr);
    assert!(!other.status.success(), "{said}");
    assert!(said.contains("treskibben_version_3"), "{said}");
}

/// In C a program with TRESKIBBEN_REQUIRE_VERSION() is refused by the linker, and only such a one.
#[test]
fn another_version_cannot_be_linked_in_c() {
    let folder = folder("c");
    renamed(&folder.join("libtreskibben.a"), NAME, OTHER_NAME);
    let include = Path::new(PACKAGE).join("../include");
    let compile = |required: &str, library: &str| {
        let body = "return (int)treskibben_version() - TRESKIBBEN_VERSION;";
        let source = format!("#include \"treskibben.h\"\nint main(void) {{ {required} {body} }}\n");
        fs::write(folder.join("main.c"), source).unwrap();
        let mut cc = Command::new("cc");
        cc.args([
            "-O2",
            "-ffunction-sections",
            "-fdata-sections",
            "-Wl,--gc-sections",
        ]);
        cc.arg("-I")
            .arg(&include)
            .args(["main.c", library, "-o", "main"]);
        cc.current_dir(&folder).output().expect("cc can be started")
    };
    for required in ["", "TRESKIBBEN_REQUIRE_VERSION();"] {
        let same = compile(required, LIBRARY);
        assert!(same.status.success(), "{}", text(&same.stderr));
        let ran = Command::new(folder.join("main")).status().unwrap();
        assert!(ran.success());
    }
    assert!(compile("", "libtreskibben.a").status.success());
    let other = compile("TRESKIBBEN_REQUIRE_VERSION();", "libtreskibben.a");
    assert!(!other.status.success());
    assert!(text(&other.stderr).contains("treskibben_version_3"));
}

/// What the README's lines of Rust leave open.
const AROUND_RUST: [&str; 2] = [
    "fn restore(section: Vec<u8>, mut image: Vec<u8>, first: u64, old_starts: Vec<u64>, new_starts: Vec<u64>,
         address: u64, rbp: u64, rsp: u64, frames: Vec<Frame>, mut registers_of_all: Vec<treskibben::Registers>)
         -> Result<usize, Box<dyn std::error::Error>> {",
    "    Ok(bytes.len() + listing.len() + pointers)
     }
     fn main() {
         let answer = restore(vec![], vec![], 0, vec![], vec![], 0, 0, 0, vec![], vec![]);
         println!(\"{}\", answer.unwrap_err());
     }",
];

/// The same for C.
const AROUND_C: [&str; 2] = [
    "uint64_t restore(const uint8_t *bytes, size_t length, uint8_t *image, size_t image_length, uint64_t first,
                      const uint64_t *old_starts, const uint64_t *new_starts, size_t count, uint64_t address,
                      uint64_t rbp, uint64_t rsp, uint64_t rbx, uint64_t caller_address, uint64_t *registers_of_both) {",
    "return a.value; }",
];

/// The README's lines of Rust are a program, with what they leave open put around them.
#[test]
fn the_readmes_lines_of_rust_compile() {
    let folder = folder("readme-rust");
    stranger(&folder, PACKAGE, "[workspace]\n");
    let lines = readme::code("From Rust");
    let begin = lines.iter().position(|line| line.starts_with("if let"));
    let (uses, body) = lines.split_at(begin.unwrap());
    assert_eq!(body.len(), 12);
    let program = [
        &uses.join("\n"),
        AROUND_RUST[0],
        &body.join("\n"),
        AROUND_RUST[1],
    ]
    .join("\n");
    fs::write(folder.join("src/main.rs"), program).unwrap();
    let ran = cargo_run(&folder, &folder, &folder.join("target"), None);
    let said = text(&ran.stdout);
    assert!(
        said.starts_with("refused 1 at 0: "),
        "{said}{}",
        text(&ran.stderr)
    );
}

/// The README's lines of C, likewise.
#[test]
fn the_readmes_lines_of_c_compile() {
    let folder = folder("readme-c");
    let lines = readme::code("From C");
    let (include, body) = lines.split_first().unwrap();
    assert_eq!(body.len(), 12);
    let program = [include, AROUND_C[0], &body.join("\n"), AROUND_C[1], ""].join("\n");
    fs::write(folder.join("yours.c"), program).unwrap();
    let mut cc = Command::new("cc");
    cc.args(["-std=c99", "-Wall", "-Wextra", "-Werror", "-c", "-I"]);
    cc.arg(Path::new(PACKAGE).join("../include")).arg("yours.c");
    let ran = cc.current_dir(&folder).output().expect("cc can be started");
    assert!(ran.status.success(), "{}", text(&ran.stderr));
}
