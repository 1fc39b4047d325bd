//! A live restore, told to people.

use live::frames::Stopped;
use live::guest::DIED;
use live::library::Machine;
use live::maps::Place;
use live::mover::{Mover, FATAL, WRONG};
use live::program::{function, Program};
use live::run::{maps, run, Stop, Stops, Trouble};
use live::state::State;
use std::io::Write;
use std::process::{Command, ExitCode, Output};

/// How many pointers of one pair are shown.
const SHOWN: usize = 4;

/// Why nothing was moved.
pub fn trouble(trouble: &Trouble) -> String {
    match trouble {
        Trouble::Lost(lost) => format!(
            "lost after {} frames: no record at {:#x}",
            lost.frames, lost.address
        ),
        Trouble::Refused(refused) => {
            let (number, place) = refused.refusal;
            format!("refused {number} at {place}, frame {}", refused.frame)
        }
    }
}

/// Runs a program and shows its stops; nothing where its name is not known.
pub fn show(name: &str) -> Option<ExitCode> {
    let program = Program::named(name)?;
    let maps = maps(program);
    println!(
        "{name}: compiled with {}. The section has {} maps.",
        program.compiled,
        maps.count()
    );
    let plain = run(&maps, program, Mover::Library, Stops::None);
    let moved = run(&maps, program, Mover::Library, Stops::All);
    for stop in &moved.stops {
        match stop {
            Ok(stop) => show_stop(stop),
            Err(why) => println!("\nnothing moved: {}", trouble(why)),
        }
    }
    let right = plain.checksum == moved.checksum;
    println!("\nchecksum without a stop:      {:#018x}", plain.checksum);
    let verdict = if right { "the same" } else { "WRONG" };
    println!(
        "checksum of the stopped run:  {:#018x}, {verdict}",
        moved.checksum
    );
    println!("\nThe same run, stopped once, by movers that leave something out:");
    for mover in FATAL.into_iter().chain([WRONG]) {
        println!("  {:12} {}", mover.name(), end_of(&process(name, mover)));
    }
    Some(if right {
        ExitCode::SUCCESS
    } else {
        ExitCode::from(1)
    })
}

/// Stops a program once, with the move and without, and tells in plain words how both end; nothing
/// where its name is not known. It goes well where the one comes to the right checksum and the
/// other dies.
pub fn brief(name: &str) -> Option<ExitCode> {
    let program = Program::named(name)?;
    let maps = maps(program);
    let plain = run(&maps, program, Mover::Library, Stops::None);
    let moved = run(&maps, program, Mover::Library, Stops::Only(0));
    let unmoved = process(name, Mover::Nothing);
    let right = moved.checksum == plain.checksum;
    let told = match moved.stops.first() {
        Some(Ok(stop)) => tell_stop(stop),
        Some(Err(why)) => format!("Nothing was moved: {}.\n", trouble(why)),
        None => "It ended without a stop.\n".to_string(),
    };
    let result = if right {
        "has the result of a run without a stop"
    } else {
        "its result is WRONG"
    };
    let text = format!(
        "A program compiled by LLVM ({}) is stopped.\n{told}\
         With the move: it runs on and {result}, checksum {:#x}.\n\
         Without the move: it {}.\n",
        program.compiled,
        moved.checksum,
        end_of(&unmoved)
    );
    // Whoever reads it may have gone away.
    let _ = std::io::stdout().write_all(text.as_bytes());
    let went_well = right
        && moved.stops.iter().all(Result::is_ok)
        && matches!(unmoved.status.code(), None | Some(DIED));
    Some(ExitCode::from(u8::from(!went_well)))
}

/// What was moved at a stop, with one pointer of it.
fn tell_stop(stop: &Stop) -> String {
    let names: Vec<&str> = stop.frames.iter().rev().map(name_of).collect();
    let (calls, objects) = (names.len(), stop.objects.len());
    let mut text = format!(
        "{calls} calls wait on its stack: {}.\n\
         The {objects} objects of its heap are copied elsewhere, and the old ones made unreadable.\n\
         The library moves the {} pairs of a base and a pointer derived from it.",
        names.join(" > "),
        stop.pointers
    );
    let pairs = stop.frames.iter().enumerate().flat_map(|(frame, stopped)| {
        let slots = stopped.all_slots();
        slots.map(move |slots| (frame, slots))
    });
    let mut inside = pairs.filter_map(|(frame, slots)| {
        let [start, pointer] = slots.map(|slot| stop.before.content(frame, slot));
        let distance = pointer.checked_sub(start)?;
        (start != 0 && distance != 0).then_some((frame, slots[1], distance))
    });
    if let Some((frame, slot, distance)) = inside.next() {
        let [old, new] = [&stop.before, &stop.after].map(|state| state.content(frame, slot));
        let name = name_of(&stop.frames[frame]);
        text += &format!(
            " One of `{name}`'s is\n  {old:#x} -> {new:#x}, {distance} bytes into its object"
        );
    }
    text + "\n"
}

fn name_of(stopped: &Stopped) -> &'static str {
    function(stopped.site.id)
}

/// A run by a wrong mover, in a process of its own.
fn process(program: &str, mover: Mover) -> Output {
    let this = std::env::current_exe().expect("the program knows its own file");
    let ran = Command::new(this)
        .args(["run", program, mover.name(), "0"])
        .output();
    ran.expect("the program can be started")
}

/// How such a run ended.
fn end_of(ran: &Output) -> String {
    let said = String::from_utf8_lossy(&ran.stderr);
    match ran.status.code() {
        None => format!("{} and died, {}", said.trim(), ran.status),
        Some(DIED) => format!("{} and died under the emulator", said.trim()),
        Some(0) => "came to the RIGHT CHECKSUM".to_string(),
        Some(1) => "came to a wrong checksum".to_string(),
        Some(_) => "was not moved".to_string(),
    }
}

/// Shows the frames of a stop, and of the first stop their slots too.
fn show_stop(stop: &Stop) {
    println!("\nstop {}: {} frames", stop.number, stop.frames.len());
    show_starts("old", &stop.table.old);
    show_starts("new", &stop.table.new);
    for (number, stopped) in stop.frames.iter().enumerate() {
        println!(
            "  frame {number}: {}, {} {:#x}, size {}, {} pairs, {} pointers",
            function(stopped.site.id),
            register_name(stopped.machine, stopped.machine.stack_pointer()),
            stopped.stack_pointer(),
            stopped.site.stack_size,
            stopped.site.pairs.len(),
            stopped.pointer_count(),
        );
        if stop.number == 0 {
            for &pair in &stopped.site.pairs {
                show_pair(stop, number, pair);
            }
        }
    }
}

/// Shows the objects of a heap: the page of the lowest one, and how far above it each is.
fn show_starts(heap: &str, starts: &[u64]) {
    let page = starts.iter().min().map_or(0, |lowest| lowest & !0xFFF);
    let distances: Vec<String> = starts
        .iter()
        .map(|start| format!("{:x}", start - page))
        .collect();
    println!("  {heap} objects at {page:#x} + {}", distances.join(", "));
}

/// Shows a pair: its places, and each derived pointer before and after. Of many pointers only the
/// first ones.
fn show_pair(stop: &Stop, frame: usize, pair: [Place; 2]) {
    let stopped = &stop.frames[frame];
    let [base, derived] = pair.map(|of_pair| place(stopped.machine, of_pair));
    let slots = stopped.slots(pair);
    if slots.is_empty() {
        println!("    {base:>7} {derived:>7}  null");
    }
    for (number, [base_at, derived_at]) in slots.iter().take(SHOWN).enumerate() {
        let pointer = |state: &State| state.content(frame, *derived_at);
        let old_base = stop.before.content(frame, *base_at);
        let from_base = pointer(&stop.before).wrapping_sub(old_base) as i64;
        let (base, derived) = match number {
            0 => (&base[..], &derived[..]),
            _ => ("", ""),
        };
        println!(
            "    {base:>7} {derived:>7}  {:#x} -> {:#x}, base{from_base:+}",
            pointer(&stop.before),
            pointer(&stop.after),
        );
    }
    if slots.len() > SHOWN {
        println!("    {:15}  and {} more", "", slots.len() - SHOWN);
    }
}

/// The names of AMD64's registers, by DWARF number.
const AMD64: [&str; 16] = [
    "RAX", "RDX", "RCX", "RBX", "RSI", "RDI", "RBP", "RSP", "R8", "R9", "R10", "R11", "R12", "R13",
    "R14", "R15",
];

/// The name of a register.
fn register_name(machine: Machine, register: u16) -> String {
    let known = match machine {
        Machine::Amd64 => AMD64
            .get(usize::from(register))
            .map(|name| name.to_string()),
        Machine::Aarch64 if register == machine.stack_pointer() => Some("sp".to_string()),
        Machine::Aarch64 => (register < 31).then(|| format!("x{register}")),
    };
    known.unwrap_or_else(|| format!("R#{register}"))
}

fn place(machine: Machine, place: Place) -> String {
    match place {
        Place::Constant(constant) => constant.to_string(),
        Place::Memory(register, offset, _) => {
            format!("{}{offset:+}", register_name(machine, register))
        }
        Place::Register(register) => register_name(machine, register),
        Place::Other => "?".to_string(),
    }
}
