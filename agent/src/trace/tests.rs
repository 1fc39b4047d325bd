//! The bytes of a trace, written out by hand, and the words of an answer.

use super::*;

/// A step of which each field holds something else.
fn a_step(nth: u64) -> Step {
    Step {
        machine: [Machine::Amd64, Machine::Aarch64][nth as usize % 2],
        frame: Frame {
            address: 0x1020 + nth,
            function: 0x0102_0304_0506_0708,
        },
        registers: std::array::from_fn(|number| 0x1_0000 * nth + number as u64),
        answer: Recorded {
            number: 200,
            value: 0xffee_ddcc_bbaa_9988,
        },
    }
}

#[test]
fn a_trace_byte_by_byte() {
    let trace = to_bytes(&[a_step(0), a_step(1)]);
    assert_eq!(trace.len(), 2 * 284 + 1);
    let (first, rest) = trace.split_at(284);
    let head = [1, 0, 0x20, 0x10, 0, 0, 0, 0, 0, 0, 8, 7, 6, 5, 4, 3, 2, 1];
    assert_eq!(first[..18], head);
    for number in 0..32 {
        let register = [number as u8, 0, 0, 0, 0, 0, 0, 0];
        assert_eq!(first[18 + 8 * number..][..8], register);
    }
    let answer = [2, 200, 0x88, 0x99, 0xaa, 0xbb, 0xcc, 0xdd, 0xee, 0xff];
    assert_eq!(first[274..], answer);
    assert_eq!(rest[..4], [1, 1, 0x21, 0x10]);
    assert_eq!(rest[18 + 8 * 31..][..8], [31, 0, 1, 0, 0, 0, 0, 0]);
    assert_eq!(rest[274..], [&answer[..], &[3]].concat());
}

#[test]
fn what_is_written_is_read() {
    for count in [0, 1, 2, 5, 300] {
        let written: Vec<Step> = (0..count).map(a_step).collect();
        assert_eq!(steps(&to_bytes(&written)), Ok(written));
    }
}

#[test]
fn every_answer_is_written_and_read() {
    for number in 0..=255 {
        for value in [0, 1, 255, 1 << 32, u64::MAX] {
            let answer = Recorded { number, value };
            let own = Step {
                answer,
                ..a_step(0)
            };
            assert_eq!(steps(&to_bytes(&[own])), Ok(vec![own]));
            let again = match answer.answer() {
                Ok(pointers) => Recorded::new(0, pointers),
                Err(refusal) => Recorded::of(Err(refusal)),
            };
            assert_eq!(again, answer);
        }
    }
}

#[test]
fn answers_have_words() {
    let words = |number, value| Recorded { number, value }.to_string();
    assert_eq!(words(0, 0), "accepted, 0 pointers");
    assert_eq!(words(0, 1), "accepted, 1 pointer");
    assert_eq!(words(0, 256), "accepted, 256 pointers");
    assert_eq!(
        words(33, 0),
        "refused 33 at 0: version or machine not allowed"
    );
    assert_eq!(
        words(200, 7),
        "refused 200 at 7: a cause that this version has no words for"
    );
}

#[test]
fn a_number_over_a_byte_is_a_panic_that_says_so() {
    for number in [256, 1 << 32, u64::MAX] {
        let payload = std::panic::catch_unwind(|| Recorded::new(number, 0)).expect_err("a panic");
        let text = *payload.downcast::<String>().expect("a panic with a text");
        assert!(text.contains(&format!("the number {number}, ")), "{text}");
    }
}
