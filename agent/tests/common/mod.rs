//! What the tests against the second implementation share: the seed, the threads, the counts, and
//! how a difference is shown.

use generator::Rng;
use std::env;
use std::fmt::Write as _;
use std::io::Write as _;
use std::panic::resume_unwind;
use std::sync::atomic::{AtomicU64, Ordering};
use std::thread;
use std::time::{SystemTime, UNIX_EPOCH};

/// How often each answer must occur in a run.
const LEAST: u64 = 1_000;

/// Writes a text past the test's capture, so that it is seen whatever happens next.
pub fn say(text: &str) {
    let text = format!("{}: {text}\n", env!("CARGO_CRATE_NAME"));
    let _ = std::io::stderr().write_all(text.as_bytes());
}

/// The seed that is asked for, or one from the clock; it is printed, with what it is for.
pub fn seed(what: &str) -> u64 {
    let seed = match env::var("TRESKIBBEN_SEED") {
        Ok(text) => text
            .trim()
            .parse()
            .expect("TRESKIBBEN_SEED is a number below 2^64"),
        Err(_) => {
            let now = SystemTime::now().duration_since(UNIX_EPOCH);
            now.map_or(1, |since| since.as_nanos() as u64)
        }
    };
    say(&format!("{what} of TRESKIBBEN_SEED={seed}"));
    seed
}

/// The bytes in hex; where they are many, only the first.
fn hex(bytes: &[u8]) -> String {
    const MOST: usize = 65_536;
    let mut text = String::new();
    for byte in bytes.iter().take(MOST) {
        let _ = write!(text, "{byte:02x}");
    }
    if bytes.len() > MOST {
        let _ = write!(text, ".. ({} bytes in all)", bytes.len());
    }
    text
}

/// Shows a section or a listing on which answers differ, and the answers, and fails.
pub fn differ(name: &str, bytes: &[u8], answers: &str) -> ! {
    let bytes = hex(bytes);
    say(&format!("a difference in '{name}'\n{bytes}\n{answers}"));
    panic!("{answers}");
}

/// Runs so many parts, each with a source of random numbers of its own, on all cores. Every part
/// counts, and the sums are given.
pub fn count_parts<const N: usize>(
    seed: u64,
    parts: u64,
    run: impl Fn(&mut Rng, &mut [u64; N]) + Sync,
) -> [u64; N] {
    let next = AtomicU64::new(0);
    let work = || {
        let mut counts = [0; N];
        loop {
            let part = next.fetch_add(1, Ordering::Relaxed);
            if part >= parts {
                return counts;
            }
            run(&mut Rng::part(seed, part), &mut counts);
        }
    };
    let threads = thread::available_parallelism().map_or(2, usize::from);
    let mut sums = [0; N];
    thread::scope(|scope| {
        let workers: Vec<_> = (0..threads).map(|_| scope.spawn(work)).collect();
        for worker in workers {
            let own = worker.join().unwrap_or_else(|panic| resume_unwind(panic));
            sums.iter_mut().zip(own).for_each(|(sum, own)| *sum += own);
        }
    });
    sums
}

/// Runs so many parts with so many inputs each, as [`count_parts`] does, by a seed that is printed
/// with what it is for.
#[allow(dead_code)] // Not every test has inputs that stand alone.
pub fn count_random<const N: usize>(
    what: &str,
    parts: u64,
    inputs: u64,
    run: impl Fn(&mut Rng, &mut [u64; N]) + Sync,
) -> [u64; N] {
    count_parts(seed(what), parts, |rng, counts| {
        (0..inputs).for_each(|_| run(rng, counts));
    })
}

/// What is counted apart for each version, by its place in [`generator::Version::ALL`].
#[allow(dead_code)] // Not every test counts by version.
pub fn nth_version(version: generator::Version) -> usize {
    let is_it = |other: &generator::Version| *other == version;
    let nth = generator::Version::ALL.iter().position(is_it);
    nth.expect("one of them")
}

/// Fails where something that was counted hardly occurred. `name` says what the nth count is of.
pub fn assert_often(counts: &[u64], name: impl Fn(usize) -> String) {
    for (nth, count) in counts.iter().enumerate() {
        assert!(*count >= LEAST, "{}: only {count} times", name(nth));
    }
}
