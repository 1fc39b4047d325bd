//! Random frames as the files of a call.

use generator::frames::{Scene, Stop, Table};
use generator::Version;

/// The text of a table.
pub fn moves(table: &Table) -> String {
    let entries = table.olds.iter().zip(&table.news);
    let lines = entries.map(|(old, new)| format!("{old:x} {new:x}\n"));
    lines.collect()
}

/// The name of a scene's machine.
pub fn machine(scene: &Scene) -> &'static str {
    ["x86-64", "aarch64"][scene.machine as usize]
}

/// The names of the registers that a frame of a scene brings.
pub fn names(scene: &Scene) -> Vec<String> {
    let x86_64 = "RAX RDX RCX RBX RSI RDI RBP RSP R8 R9 R10 R11 R12 R13 R14 R15";
    match scene.machine {
        0 => x86_64.split(' ').map(String::from).collect(),
        _ => {
            let numbered = (0..31).map(|nth| format!("X{nth}"));
            numbered.chain(["SP".to_string()]).collect()
        }
    }
}

/// The list of these frames of a scene, with all registers.
pub fn frames<'a>(scene: &Scene, stops: impl IntoIterator<Item = &'a Stop>) -> String {
    let names = names(scene);
    let line = |stop: &Stop| {
        let place = match scene.section.version {
            Version::One => format!("{}+{:x}", stop.named, stop.address),
            Version::Three => format!("{:x}", stop.address),
        };
        let registers = names.iter().zip(stop.registers);
        let registers = registers.map(|(name, content)| format!(" {name}={content:x}"));
        format!("{place}{}\n", registers.collect::<String>())
    };
    stops.into_iter().map(line).collect()
}
