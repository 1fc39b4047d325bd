//! What the README shows: steps, each a line of a shell and what it says, and code. Each test takes of it
//! what it needs.
#![allow(dead_code)]

use std::fs;

/// A line of a shell, and the lines of its output that the README shows.
pub struct Step {
    pub line: String,
    pub output: Vec<String>,
}

/// The lines under a heading that are code, without their indent.
pub fn code(heading: &str) -> Vec<String> {
    let readme = fs::read_to_string(concat!(env!("CARGO_MANIFEST_DIR"), "/../README.md")).unwrap();
    let (_, part) = readme.split_once(&format!("# {heading}\n")).unwrap();
    let part = part.split("\n## ").next().unwrap();
    let lines = part.lines().filter_map(|line| line.strip_prefix("    "));
    lines.map(str::to_string).collect()
}

/// The steps under a heading. A line of a shell begins with `$ `, and goes on where it ends in a backslash.
pub fn steps(heading: &str) -> Vec<Step> {
    let mut steps: Vec<Step> = Vec::new();
    for line in code(heading) {
        if let Some(line) = line.strip_prefix("$ ") {
            let (line, output) = (line.to_string(), Vec::new());
            steps.push(Step { line, output });
            continue;
        }
        let Some(step) = steps.last_mut() else {
            continue;
        };
        match step.line.strip_suffix('\\') {
            Some(begun) => step.line = format!("{begun}{}", line.trim_start()),
            None => step.output.push(line),
        }
    }
    steps
}

/// A text with `0x..` in place of each number in hexadecimal, which is another one in each run.
fn without_addresses(text: &str) -> String {
    let mut parts = text.split("0x");
    let mut plain = parts.next().unwrap_or("").to_string();
    for part in parts {
        plain += "0x..";
        plain += part.trim_start_matches(|digit: char| digit.is_ascii_hexdigit());
    }
    plain
}

/// Whether these lines stand in a text in this order, whatever stands between them; addresses may differ.
pub fn in_order(lines: &[String], text: &str) -> bool {
    let text = without_addresses(text);
    let mut said = text.lines();
    lines.iter().all(|line| {
        let line = without_addresses(line);
        said.any(|it| it == line)
    })
}
