//! The lines of the README, run as they stand there: a moved frame, and a program that gdb stops, from
//! which section, frames and image are taken, and which runs on with its frames moved.
//!
//! In place of the program `treskibben` the example `restore` runs, which has the same options; where
//! the environment variable `TRESKIBBEN_COMMAND` names the program, that runs itself.

mod readme;

use readme::{in_order, steps, Step};
use std::fs;
use std::io::Write;
use std::os::unix::fs::{symlink, PermissionsExt};
use std::path::{Path, PathBuf};
use std::process::{Command, Output};

const PACKAGE: &str = env!("CARGO_MANIFEST_DIR");

/// A folder in which `samples` and `tools` are those of the repository. It stands outside, and goes with the test: `rt` refuses a
/// repository that has a link.
struct Place(PathBuf);

impl Drop for Place {
    fn drop(&mut self) {
        let _ = fs::remove_dir_all(&self.0);
    }
}

impl Place {
    fn new(name: &str) -> Place {
        let own = format!("treskibben-{name}.{}", std::process::id());
        let folder = std::env::temp_dir().join(own);
        let _ = fs::remove_dir_all(&folder);
        fs::create_dir_all(folder.join("bin")).unwrap();
        for name in ["samples", "tools"] {
            symlink(Path::new(PACKAGE).join("..").join(name), folder.join(name)).unwrap();
        }
        let place = Place(folder);
        place.command();
        for tool in ["opt", "llc", "llvm-extract"] {
            let own = Path::new("/usr/bin").join(format!("{tool}-14"));
            if own.exists() {
                symlink(own, place.0.join("bin").join(tool)).unwrap();
            }
        }
        place
    }

    /// Puts `treskibben` into the place's own folder of programs.
    fn command(&self) {
        let file = self.0.join("bin/treskibben");
        if let Some(command) = std::env::var_os("TRESKIBBEN_COMMAND") {
            return symlink(command, file).unwrap();
        }
        let cargo = env!("CARGO");
        let script = format!(
            "#!/bin/sh\n[ \"$1\" = restore ] || exit 2\nshift\nexec '{cargo}' run --quiet --offline \
             --manifest-path '{PACKAGE}/Cargo.toml' --example restore -- \"$@\"\n"
        );
        fs::write(&file, script).unwrap();
        fs::set_permissions(&file, fs::Permissions::from_mode(0o755)).unwrap();
    }

    /// Runs a line of a shell: its output, errors too.
    fn run(&self, line: &str) -> Output {
        let path = std::env::var("PATH").unwrap();
        let path = format!("{}:{path}", self.0.join("bin").display());
        let mut shell = Command::new("bash");
        shell.args(["-c", &format!("exec 2>&1; {line}")]);
        shell.current_dir(&self.0).env("PATH", path);
        // No question for the net's debug symbols.
        shell.env("DEBUGINFOD_URLS", "");
        shell.output().expect("bash can be started")
    }

    /// Runs a line that goes well, and gives what it said.
    fn says(&self, line: &str) -> String {
        let ran = self.run(line);
        let said = String::from_utf8_lossy(&ran.stdout).into_owned();
        assert!(ran.status.success(), "{line}: {}\n{said}", ran.status);
        said
    }

    /// Runs steps of the README, and compares.
    fn follow(&self, steps: &[Step]) {
        for Step { line, output } in steps {
            let said = self.says(line);
            assert!(
                in_order(output, &said),
                "{line}\nsaid\n{said}\nand not\n{output:#?}"
            );
        }
    }

    /// The 8 bytes of the section's first function address, as it is in a file.
    fn first_address(&self, file: &str) -> u64 {
        self.says(&format!(
            "objcopy --dump-section .llvm_stackmaps=dumped {file} copy"
        ));
        let section = fs::read(self.0.join("dumped")).unwrap();
        u64::from_le_bytes(section[16..24].try_into().unwrap())
    }
}

/// Whether gdb is there and may stop programs; if not, says that a test is skipped.
fn gdb(test: &str) -> bool {
    let ran = Command::new("gdb")
        .args(["--batch", "-nx", "-ex", "run", "/bin/true"])
        .output();
    let why = match ran {
        Err(error) => format!("gdb cannot be started: {error}"),
        Ok(ran) if String::from_utf8_lossy(&ran.stdout).contains("exited normally") => return true,
        Ok(ran) => format!(
            "gdb cannot run a program here: {}",
            String::from_utf8_lossy(&ran.stderr).trim()
        ),
    };
    // Not by a macro, whose output a test that passes doesn't show.
    let _ = writeln!(std::io::stderr(), "SKIPPED {test}: {why}");
    false
}

#[test]
fn a_frame_is_moved_by_the_lines_of_the_readme() {
    let steps = steps("A moved frame in five minutes");
    let (built, rest) = steps.split_first().unwrap();
    let builds = built.line.contains("tools/cargo-command build");
    assert!(builds, "{}", built.line);
    assert_eq!(rest.len(), 4);
    Place::new("frame").follow(rest);
}

#[test]
fn a_stopped_program_is_moved_by_the_lines_of_the_readme() {
    if !gdb("a_stopped_program_is_moved_by_the_lines_of_the_readme") {
        return;
    }
    let steps = steps("From a stopped process or a core");
    let sessions = steps.iter().filter(|step| step.line.starts_with("gdb "));
    assert_eq!((steps.len(), sessions.count()), (10, 3));
    let place = Place::new("stopped");
    place.follow(&steps);
    // What is saved of the core is what was saved of the process, but for another run's addresses.
    for file in ["0.section", "0.frames", "first", "image"] {
        assert!(place.0.join("saved").join(file).exists());
        assert!(place.0.join("cored").join(file).exists());
    }
    place.says("cmp saved/0.section cored/0.section");
}

/// The program of the README, linked in some way.
fn build(place: &Place, link: &str) {
    place.says("opt -passes=rewrite-statepoints-for-gc -spp-rematerialization-threshold=0 samples/stopped/sum.ll -o sum.bc");
    place.says("llc -filetype=obj -relocation-model=pic -no-x86-call-frame-opt sum.bc -o sum.o");
    let writable = "objcopy --set-section-flags .llvm_stackmaps=alloc,load,data,contents sum.o";
    place.says(&format!("cp sum.o read-only.o && {writable}"));
    place.says(&format!("clang {link} samples/stopped/main.c -o program"));
}

#[test]
fn without_the_move_it_dies() {
    if !gdb("without_the_move_it_dies") {
        return;
    }
    let place = Place::new("unmoved");
    build(&place, "-no-pie sum.o");
    assert_eq!(place.says("./program"), "the sum is 93\n");
    place.says("sed '/^shell/d;/^restore/d' samples/stopped/session.gdb >unmoved.gdb");
    let said = place.says("gdb --batch -x tools/stopped.py -x unmoved.gdb program");
    assert!(said.contains("Program received signal SIGSEGV"), "{said}");
    assert!(!said.contains("the sum is"), "{said}");
}

/// The rows of the README's table of links: which address stands in the file, and whether the program can
/// be moved by the section that is in its memory.
#[test]
fn the_section_in_memory_is_right_where_the_file_is_not() {
    if !gdb("the_section_in_memory_is_right_where_the_file_is_not") {
        return;
    }
    let session = "gdb --batch -x tools/stopped.py -x samples/stopped/session.gdb program";
    let inner = "nm program | sed -n 's/ T inner$//p'";
    for (name, link) in [
        ("no-pie", "-no-pie sum.o"),
        ("bfd-pie", "-fuse-ld=bfd -pie sum.o"),
        ("lld-pie", "-fuse-ld=lld -pie sum.o"),
        ("read-only-pie", "-fuse-ld=lld -pie read-only.o"),
    ] {
        let place = Place::new(name);
        build(&place, link);
        assert_eq!(place.first_address("sum.o"), 0);
        let in_file = place.first_address("program");
        let linked = u64::from_str_radix(place.says(inner).trim(), 16).ok();
        match name {
            "no-pie" | "bfd-pie" => assert_eq!(Some(in_file), linked),
            "lld-pie" => assert_eq!(in_file, 0),
            _ => assert_ne!(Some(in_file), linked),
        }
        let said = String::from_utf8_lossy(&place.run(session).stdout).into_owned();
        let right = name != "read-only-pie";
        assert_eq!(
            said.contains("2 frames moved, 4 pointers"),
            right,
            "{name}: {said}"
        );
        assert_eq!(said.contains("the sum is 93"), right, "{name}: {said}");
        assert_eq!(
            said.contains("no frame of this thread stands at a record"),
            !right,
            "{name}: {said}"
        );
    }
}

/// The program of the README in two objects, which this call of llc makes.
fn build_in_two(place: &Place, llc: &str) {
    for function in ["inner", "outer"] {
        place.says(&format!(
            "llvm-extract -func={function} samples/stopped/sum.ll -o {function}.ll"
        ));
        place.says(&format!(
            "opt -passes=rewrite-statepoints-for-gc -spp-rematerialization-threshold=0 {function}.ll -o {function}.bc"
        ));
        place.says(&format!("{llc} {function}.bc -o {function}.o"));
    }
    place.says("cc -no-pie samples/stopped/main.c inner.o outer.o -o program");
}

/// Two objects, each with a map of its own, which the linker puts one after the other: of each map the
/// section and its frames are saved.
#[test]
fn frames_of_several_maps_are_saved_by_map() {
    if !gdb("frames_of_several_maps_are_saved_by_map") {
        return;
    }
    let place = Place::new("maps");
    build_in_two(&place, "llc -filetype=obj -no-x86-call-frame-opt");
    let saved = "gdb --batch -x tools/stopped.py -ex 'break stop' -ex run -ex 'treskibben-save saved' program";
    let said = place.says(saved);
    assert!(said.contains("saved: 2 frames, an image of "), "{said}");
    for map in 0..2 {
        let file = |kind: &str| place.0.join(format!("saved/{map}.{kind}"));
        let section = fs::read(file("section")).unwrap();
        assert_eq!(treskibben::check(&section), Ok(()));
        let frames = fs::read_to_string(file("frames")).unwrap();
        let lines: Vec<&str> = frames.lines().collect();
        assert_eq!(lines.len(), 1, "{frames}");
        let address = lines[0].split(' ').next().unwrap().trim_start_matches("0x");
        let address = u64::from_str_radix(address, 16).unwrap();
        assert_eq!(treskibben::find(&section, address).unwrap().sharing, 1);
    }
}

/// Whether the command itself is there, which alone can write registers; if not, says that a test is skipped.
fn command(test: &str) -> bool {
    let there = std::env::var_os("TRESKIBBEN_COMMAND").is_some();
    if !there {
        let why = "TRESKIBBEN_COMMAND names no program";
        let _ = writeln!(std::io::stderr(), "SKIPPED {test}: {why}");
    }
    there
}

/// llc for a program that keeps up to so many pointers of a call in registers.
fn in_registers(pointers: u64) -> String {
    format!(
        "llc -filetype=obj -no-x86-call-frame-opt -frame-pointer=all \
         -max-registers-for-gc-values={pointers} -fixup-allow-gcptr-in-csr"
    )
}

/// Pointers in registers, all of them or some. gdb reads each frame's registers, and sets them, by the program's unwind
/// tables. With the image alone put back, the program dies.
#[test]
fn a_program_with_pointers_in_registers_is_moved() {
    let test = "a_program_with_pointers_in_registers_is_moved";
    if !gdb(test) || !command(test) {
        return;
    }
    let session = "gdb --batch -x tools/stopped.py -x samples/stopped/registers.gdb program";
    for (pointers, registers) in [(8, 4), (1, 2)] {
        let place = Place::new(&format!("registers-{pointers}"));
        place.says("opt -passes=rewrite-statepoints-for-gc -spp-rematerialization-threshold=0 samples/stopped/sum.ll -o sum.bc");
        place.says(&format!("{} sum.bc -o sum.o", in_registers(pointers)));
        place.says("cc -no-pie samples/stopped/main.c sum.o -o program");
        assert_eq!(place.says("./program"), "the sum is 93\n");
        let said = place.says(session);
        let changed = format!("{registers} registers changed");
        for words in ["2 frames moved, 4 pointers", &changed, "the sum is 93"] {
            assert!(said.contains(words), "{said}");
        }
        assert_eq!(said.matches(&changed).count(), 2, "{said}");
        place.says("rm -r saved");
        place.says("sed 's/^treskibben-load.*/restore saved\\/moved\\/image binary $first/' samples/stopped/registers.gdb >left.gdb");
        let said = place.says("gdb --batch -x tools/stopped.py -x left.gdb program");
        assert!(said.contains("Restoring binary file"), "{said}");
        assert!(said.contains("Program received signal SIGSEGV"), "{said}");
        assert!(!said.contains("the sum is"), "{said}");
    }
}

/// As before, with a map for each of the two frames: one restore after the other, each on the image before, and all registers
/// put back with the last image.
#[test]
fn registers_of_several_maps_are_put_back_together() {
    let test = "registers_of_several_maps_are_put_back_together";
    if !gdb(test) || !command(test) {
        return;
    }
    let place = Place::new("register-maps");
    build_in_two(&place, &in_registers(8));
    let restore = |map: u64, image: &str, more: &str| {
        format!(
            "shell treskibben restore --section saved/{map}.section --image {image} --into saved/moved{map} \
             --first $(cat saved/first) --moves moves --frames saved/{map}.frames{more}\n"
        )
    };
    let session = |load: &str| {
        let first = restore(0, "saved/image", "");
        let second = restore(1, "saved/moved0/image", " --again");
        let begin = "break stop\nrun\ntreskibben-save saved\nset {int}&move_wanted = 1\ntbreak moved\ncontinue\n";
        let script = format!("{begin}{first}{second}treskibben-load {load}\ncontinue\n");
        fs::write(place.0.join("session.gdb"), script).unwrap();
        place.says("rm -rf saved; gdb --batch -x tools/stopped.py -x session.gdb program")
    };
    let said = session("saved/moved0 saved/moved1");
    assert_eq!(
        said.matches("1 frame moved, 2 pointers").count(),
        2,
        "{said}"
    );
    assert!(said.contains("saved/moved1: 4 registers changed"), "{said}");
    assert!(said.contains("the sum is 93"), "{said}");
    let said = session("saved/moved1");
    assert!(said.contains("saved/moved1: 2 registers changed"), "{said}");
    assert!(said.contains("Program received signal SIGSEGV"), "{said}");
}
