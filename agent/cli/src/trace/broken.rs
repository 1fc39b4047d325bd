//! What stands where a trace is broken. The library tells the place; all items before it are right.

use crate::numbers::count;

/// The bytes of the items, the kind included.
const FRAME: usize = 1 + 1 + 8 + 8 + 8 * 32;
const ANSWER: usize = 1 + 1 + 8;

/// What stands at a trace's first bad item, and what is due there.
pub fn there(trace: &[u8], place: usize) -> String {
    let (frame, within) = (place / (FRAME + ANSWER), place % (FRAME + ANSWER));
    let rest = trace.get(place..).unwrap_or_default();
    let due = match within {
        0 => "a frame or the end".to_string(),
        FRAME => format!("the answer of frame {frame}"),
        _ => return format!("{} after the end", count(rest.len() as u64, "byte")),
    };
    match (rest, within) {
        ([], _) => format!("it ends there, where {due} is due"),
        ([1, ..], 0) if rest.len() < FRAME => cut(&format!("frame {frame}"), rest, FRAME),
        ([1, machine, ..], 0) => {
            format!("the machine of frame {frame} is {machine}, and neither 0 nor 1")
        }
        ([2, ..], FRAME) => cut(&due, rest, ANSWER),
        ([kind, ..], _) => format!("{} stands there, where {due} is due", item(*kind)),
    }
}

/// An item that is not whole.
fn cut(what: &str, rest: &[u8], whole: usize) -> String {
    let there = rest.len();
    format!("{what} is cut: it has {whole} bytes, and {there} are there")
}

/// An item by its kind.
fn item(kind: u8) -> String {
    match kind {
        1 => "a frame".to_string(),
        2 => "an answer".to_string(),
        3 => "the end".to_string(),
        kind => format!("the byte {kind:#04x}, which begins no item,"),
    }
}

#[cfg(test)]
mod tests {
    use super::*;

    /// A frame, an answer, and the end.
    fn whole() -> Vec<u8> {
        let mut trace = vec![1];
        trace.resize(FRAME, 0);
        trace.push(2);
        trace.resize(FRAME + ANSWER, 0);
        trace.push(3);
        trace
    }

    #[test]
    fn each_way_in_words() {
        let broken = |place: usize, rest: &[u8]| {
            let mut trace = whole();
            trace.truncate(place);
            trace.extend(rest);
            there(&trace, place)
        };
        let second = FRAME + ANSWER;
        for (place, rest, words) in [
            (0, &[][..], "it ends there, where a frame or the end is due"),
            (
                0,
                &[1, 0, 7],
                "frame 0 is cut: it has 274 bytes, and 3 are there",
            ),
            (
                0,
                &[2],
                "an answer stands there, where a frame or the end is due",
            ),
            (
                FRAME,
                &[],
                "it ends there, where the answer of frame 0 is due",
            ),
            (
                FRAME,
                &[1],
                "a frame stands there, where the answer of frame 0 is due",
            ),
            (
                FRAME,
                &[3],
                "the end stands there, where the answer of frame 0 is due",
            ),
            (
                FRAME,
                &[2, 0],
                "the answer of frame 0 is cut: it has 10 bytes, and 2 are there",
            ),
            (
                second,
                &[9],
                "the byte 0x09, which begins no item, stands there, where a frame or the end is due",
            ),
            (
                second,
                &[1],
                "frame 1 is cut: it has 274 bytes, and 1 are there",
            ),
            (second + 1, &[1], "1 byte after the end"),
            (second + 1, &[3, 3], "2 bytes after the end"),
        ] {
            assert_eq!(broken(place, rest), words);
        }
        let mut machine = whole();
        machine[1] = 2;
        let words = "the machine of frame 0 is 2, and neither 0 nor 1";
        assert_eq!(there(&machine, 0), words);
    }
}
