//! 34: at the section's position, whatever the number of threads, with no totals.

use super::{lines, of_sizes, sum, OF_C, OF_REFUSED};
use crate::fixtures::{row_h, C};
use crate::run::Folder;
use generator::reports::{of_length, Kind};
use generator::Rng;
use serde_json::{json, Value};

const CAUSE: &str = "a total of the report would pass 2^64 - 1";

#[test]
fn exactly_the_most_passes_and_one_more_does_not() {
    let folder = Folder::new();
    folder.put("large", of_sizes(&[u64::MAX - 1]));
    folder.put("one", of_sizes(&[1]));
    folder.put("two", of_sizes(&[2, 0]));
    folder.put("bad", "");
    folder.put("c", C);
    let of_both = [2, 0, 2, 0, 0, 0, 0, 0, 0, 0, 0, u64::MAX, 0];
    folder.run(["report", "large", "one"]).done(&lines(of_both));
    folder.run(["report", "one", "large"]).done(&lines(of_both));
    let ran = folder.run(["report", "large", "bad", "one", "c"]);
    ran.done(&lines(sum(&[of_both, OF_REFUSED, OF_C])));
    for threads in ["1", "2", "5"] {
        let ran = folder.run([
            "report",
            "--threads",
            threads,
            "large",
            "bad",
            "two",
            "missing",
            "one",
        ]);
        let found = ran.refused(34, 2, &format!("two: {CAUSE}"));
        let words = "stack is 18446744073709551614 before, and 2 more are to be added";
        assert_eq!((found, ran.text()), (words, ""));
        let ran = folder.run([
            "report",
            "--threads",
            threads,
            "two",
            "bad",
            "missing",
            "large",
        ]);
        assert_eq!((ran.status, ran.text()), (Some(2), ""));
        let told: Vec<&str> = ran.err.lines().collect();
        assert!(
            told[0].starts_with("treskibben: missing: cannot be read: "),
            "{}",
            ran.err
        );
        assert!(told[1].starts_with(&format!(
            "large: refused 34 at 3: {CAUSE}; stack is 2 before"
        )));
        assert_eq!(told.len(), 2);
    }
}

#[test]
fn a_section_that_passes_alone() {
    let folder = Folder::new();
    folder.put("h", row_h());
    folder.put("two", of_sizes(&[1 << 63, 1 << 63]));
    let ran = folder.run(["report", "two"]);
    let found = ran.refused(34, 0, &format!("two: {CAUSE}"));
    assert_eq!(found, "the known stack sizes of this section alone pass it");
    let ran = folder.run(["report", "h", "h", "two", "h"]);
    ran.refused(34, 2, &format!("two: {CAUSE}"));
    let ran = folder.run(["report", "--json", "h", "two"]);
    assert_eq!((ran.status, ran.err.as_str()), (Some(1), ""));
    let told: Value = serde_json::from_str(ran.text()).unwrap();
    assert_eq!(told["answer"], "refused");
    assert_eq!(
        (&told["file"], &told["number"]),
        (&json!("two"), &json!(34))
    );
    assert_eq!((&told["place"], &told["cause"]), (&json!(1), &json!(CAUSE)));
}

/// Lists of sections whose answer is known, on one thread and on several: the same bytes on both outputs, and
/// the right ones.
#[test]
fn the_number_of_threads_does_not_count() {
    let mut rng = Rng::new(10);
    let (mut whole, mut passed) = (0, 0);
    for nth in 0..60 {
        let kind = [Kind::Small, Kind::Any, Kind::Any][nth % 3];
        let length = rng.below(40);
        let report = of_length(&mut rng, kind, length);
        let folder = Folder::new();
        std::fs::create_dir(folder.at("m")).unwrap();
        for (nth, part) in report.parts.iter().enumerate() {
            // What is refused by 9 alone may be several maps, which count each: no bytes are refused as well.
            let is_refused = part.adds.is_some_and(|adds| adds[1] == 1);
            let several = is_refused && treskibben::linked::maps(&part.bytes).is_ok();
            let bytes: &[u8] = if several { &[] } else { &part.bytes };
            folder.put(&format!("m/{nth:04}"), bytes);
        }
        let one = folder.run(["report", "m", "--refused", "--threads", "1"]);
        let known = report.answer().expect("known");
        match known.refused {
            None => {
                assert_eq!((one.status, one.text()), (Some(0), &*lines(known.totals)));
                whole += 1;
            }
            Some(position) => {
                let start = format!("m/{position:04}: refused 34 at {position}: {CAUSE}");
                let last = one.err.lines().last().unwrap();
                assert!(last.starts_with(&start), "{last}");
                assert_eq!((one.status, one.text()), (Some(1), ""));
                passed += 1;
            }
        }
        for threads in ["2", "3", "16"] {
            let own = folder.run(["report", "m", "--refused", "--threads", threads]);
            assert_eq!(
                (own.status, own.text(), &own.err),
                (one.status, one.text(), &one.err)
            );
        }
    }
    assert!(
        whole >= 15 && passed >= 15,
        "{whole} without 34 and {passed} with"
    );
}
