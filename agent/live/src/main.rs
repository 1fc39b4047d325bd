//! Shows a live restore to people, or does one run for the tests.
//!
//! `live [PROGRAM]` stops a program (O0, O0-fp, O2, O2-fp, each also with `registers-` before it, with
//! `vectors-` before that, and with `aarch64-` before all), moves its heap and its frames, and prints what
//! it does. `live brief PROGRAM` stops it once, with the move and without, and says in a few lines how both
//! end; exit status 0 where they end as they should, else 1.
//!
//! `live run PROGRAM MOVER STOPS` does one run and prints its counts. STOPS is `all`, or the
//! number of one stop. Exit status: 0 where the checksum is that of a run without any stop, 1 where
//! it is another, 2 where the call is wrong, 3 where nothing was moved at some stop, 4 where a program
//! for AArch64 died under the emulator. A program of this machine dies with this process.

mod report;

use live::mover::Mover;
use live::program::Program;
use live::run::{maps, run, Stops};
use live::shapes::Shapes;
use live::system;
use std::process::ExitCode;

fn main() -> ExitCode {
    system::note_faults();
    let arguments: Vec<String> = std::env::args().skip(1).collect();
    let arguments: Vec<&str> = arguments.iter().map(String::as_str).collect();
    let done = match arguments[..] {
        [] => report::show("O2"),
        [program] => report::show(program),
        ["brief", program] => report::brief(program),
        ["run", program, mover, stops] => one_run(program, mover, stops),
        _ => None,
    };
    done.unwrap_or_else(|| {
        eprintln!("usage: live [PROGRAM], live brief PROGRAM, or live run PROGRAM MOVER STOPS");
        ExitCode::from(2)
    })
}

/// One run, after one without any stop for the checksum; nothing where a name is not known.
fn one_run(program: &str, mover: &str, stops: &str) -> Option<ExitCode> {
    let program = Program::named(program)?;
    let mover = Mover::named(mover)?;
    let stops = match stops {
        "all" => Stops::All,
        number => Stops::Only(number.parse().ok()?),
    };
    let maps = maps(program);
    let plain = run(&maps, program, mover, Stops::None);
    let moved = run(&maps, program, mover, stops);
    println!("maps {}", maps.count());
    println!("stops {}", plain.passed);
    println!("moved {}", moved.stops.iter().flatten().count());
    println!("checksum {}", moved.checksum);
    let shapes = Shapes::of(moved.stops.iter().flatten());
    for (name, count) in shapes.counts() {
        println!("{name} {count}");
    }
    if moved.checksum != plain.checksum {
        println!("expected {}", plain.checksum);
        return Some(ExitCode::from(1));
    }
    if let Some(Err(trouble)) = moved.stops.iter().find(|stop| stop.is_err()) {
        println!("{}", report::trouble(trouble));
        return Some(ExitCode::from(3));
    }
    let kept = moved
        .stops
        .iter()
        .flatten()
        .all(|stop| stop.keeps_the_rule());
    assert!(kept, "the checksum is right, but a slot is not");
    Some(ExitCode::SUCCESS)
}
