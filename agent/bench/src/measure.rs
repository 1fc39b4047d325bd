//! Times of several actions, measured in turn, and the table that compares them.

use std::fmt::Write;
use std::time::{Duration, Instant};

/// What was measured of one action. Times are in milliseconds.
pub struct Row {
    pub name: String,
    pub median: f64,
    pub lower_quartile: f64,
    pub upper_quartile: f64,
    pub fastest: f64,
}

/// Runs all actions in turn, so many rounds, after one that is not counted. Each round begins with another action,
/// so that none always follows the same one.
pub fn measure(rounds: usize, actions: &mut [(&str, &mut dyn FnMut())]) -> Vec<Row> {
    assert!(rounds > 0, "no rounds");
    let mut times = vec![Vec::with_capacity(rounds); actions.len()];
    for (_, action) in actions.iter_mut() {
        action();
    }
    for round in 0..rounds {
        for turn in 0..actions.len() {
            let number = (round + turn) % actions.len();
            let start = Instant::now();
            (actions[number].1)();
            times[number].push(start.elapsed());
        }
    }
    actions
        .iter()
        .zip(times)
        .map(|((name, _), times)| row(name, times))
        .collect()
}

fn row(name: &str, mut times: Vec<Duration>) -> Row {
    times.sort();
    let at = |quarter: usize| times[(times.len() - 1) * quarter / 4].as_secs_f64() * 1e3;
    Row {
        name: name.to_string(),
        median: at(2),
        lower_quartile: at(1),
        upper_quartile: at(3),
        fastest: at(0),
    }
}

/// One line a row: median, the middle half and the fastest time, and the median's ratio to that of each base row.
pub fn table(rows: &[Row], bases: &[&str]) -> String {
    let bases: Vec<&Row> = bases.iter().map(|base| find(rows, base)).collect();
    let width = 2 + rows.iter().map(|row| row.name.len()).max().unwrap_or(0);
    let mut text = format!(
        "{:<width$}{:>11}{:>19}{:>11}",
        "", "median ms", "quartiles", "fastest"
    );
    for base in &bases {
        let _ = write!(text, "{:>20}", format!("/ {}", base.name));
    }
    text.push('\n');
    for row in rows {
        let quartiles = format!("{:.3}..{:.3}", row.lower_quartile, row.upper_quartile);
        let _ = write!(
            text,
            "{:<width$}{:>11.3}{:>19}{:>11.3}",
            row.name, row.median, quartiles, row.fastest
        );
        for base in &bases {
            let _ = write!(text, "{:>20.3}", ratio(rows, &row.name, &base.name));
        }
        text.push('\n');
    }
    text
}

/// Prints the ratio of one row's median to that of another, which has these words, and whether it is at most as wanted.
pub fn say(rows: &[Row], name: &str, base: &str, words: &str, most: f64) {
    let ratio = ratio(rows, name, base);
    let verdict = if ratio <= most {
        "reached"
    } else {
        "NOT reached"
    };
    println!("{name}: {ratio:.3} of {words}, at most {most} wanted: {verdict}");
}

/// The ratio of one row's median to that of another.
pub fn ratio(rows: &[Row], name: &str, base: &str) -> f64 {
    find(rows, name).median / find(rows, base).median
}

fn find<'a>(rows: &'a [Row], name: &str) -> &'a Row {
    rows.iter()
        .find(|row| row.name == name)
        .unwrap_or_else(|| panic!("no row {name}"))
}
