//! The thread call that is handed an index: 27 and 29 between 14 and 25, and
//! the answers of the call without one.

use super::*;
use crate::editions::AMD64;
use crate::fixtures::*;

/// Row H's index.
const INDEX: [u64; 2] = [0x1020, 0];

/// Row I's frame.
const I: [u64; 4] = [0x1020, 0, 0x7000, 0];

/// Two frames of row I's kind from 0x7000 on.
fn image() -> Vec<u8> {
    let slots = [1, 0x50000, 0x54E20, 2, 0, 0x1234_u64];
    slots.into_iter().flat_map(u64::to_le_bytes).collect()
}

/// The lists of a thread: its frames, and their registers.
type Lists = (Vec<u64>, Vec<u64>);

/// Lists whose lengths disagree.
fn odd() -> Lists {
    (vec![1], vec![])
}

/// The answer to a list with an index, and the image after it.
fn run(section: &[u8], lists: &Lists, index: &[u64]) -> (Result<u64, Refusal>, Vec<u8>) {
    let mut after = image();
    let (olds, news) = ([0x50000], [0x90000]);
    let (list, registers) = (&lists.0, &mut lists.1.clone());
    let answer = thread_by_index(
        section, &mut after, 0x7000, &olds, &news, AMD64, list, registers, index,
    );
    assert!(answer.is_ok() || after == image());
    (answer, after)
}

#[test]
fn with_the_right_index_it_answers_as_without() {
    let threads = [
        vec![],
        vec![I],
        vec![I, [0x1020, 0, 0x7018, 7]],
        vec![I, I],
        vec![I, [0x1021, 0, 0x7018, 0]],
        vec![[0x1020, 0, 0x7019, 0]],
    ];
    for frames in threads {
        let mut without = image();
        let own = lists(AMD64, &frames);
        let answer = thread(
            &row_h(),
            &mut without,
            0x7000,
            &[0x50000],
            &[0x90000],
            AMD64,
            &own.0,
            &mut own.1.clone(),
        );
        assert_eq!(run(&row_h(), &own, &INDEX), (answer, without));
    }
    let twice = lists(AMD64, &[I, I]);
    assert_eq!(run(&row_h(), &twice, &INDEX).0, refusal(26, 1));
    let nowhere = lists(AMD64, &[[7; 4]]);
    assert_eq!(run(&row_h(), &nowhere, &INDEX).0, refusal(10, 0));
}

#[test]
fn any_other_index_is_29_before_the_list_is_looked_at() {
    let wrong: [&[u64]; 7] = [
        &[],
        &[0x1020],
        &[0x1020, 1],
        &[0x1021, 0],
        &[0, 0x1020],
        &[0x1020, 0, 0],
        &[0x1020, 0, 0x1020, 0],
    ];
    let many = (vec![0; 2 * MAX_FRAMES + 2], vec![0; 32 * MAX_FRAMES + 32]);
    let all = [lists(AMD64, &[]), lists(AMD64, &[I]), odd(), many];
    for (index, lists) in wrong
        .into_iter()
        .flat_map(|index| all.iter().map(move |lists| (index, lists)))
    {
        assert_eq!(run(&row_h(), lists, index).0, refusal(29, 0), "{index:x?}");
    }
}

/// An empty index is one that is handed in.
#[test]
fn the_empty_index_is_right_for_a_section_without_records() {
    let (none, one) = (lists(AMD64, &[]), lists(AMD64, &[I]));
    assert_eq!(run(&row_c(), &none, &[]).0, Ok(0));
    assert_eq!(run(&row_c(), &one, &[]).0, refusal(10, 0));
    assert_eq!(run(&row_c(), &none, &[0, 0]).0, refusal(29, 0));
    assert_eq!(run(&row_h(), &none, &[]).0, refusal(29, 0));
}

#[test]
fn version_1_is_27_whatever_the_index_holds() {
    let one = lists(AMD64, &[[0x20, 0, 0x7000, 0]]);
    for lists in [lists(AMD64, &[]), one.clone(), odd()] {
        for index in [&[][..], &INDEX, &[0x20, 0], &[1]] {
            assert_eq!(run(&row_h_1(), &lists, index).0, refusal(27, 0));
            let none = with(row_c(), 0, 1);
            assert_eq!(run(&none, &lists, index).0, refusal(27, 0));
        }
    }
    let without = thread(
        &row_h_1(),
        &mut image(),
        0x7000,
        &[0x50000],
        &[0x90000],
        AMD64,
        &one.0,
        &mut one.1.clone(),
    );
    assert_eq!(without, Ok(2));
}

/// 33 comes between 9 and 13, and so before 27 and 29.
#[test]
fn a_number_that_is_no_machine_comes_before_the_index() {
    for (section, index) in [(row_h(), &INDEX[..]), (row_h(), &[]), (row_h_1(), &INDEX)] {
        for machine in [2, u64::MAX] {
            let answer = |section: &[u8], first| {
                let (image, none) = (&mut image(), &mut []);
                thread_by_index(section, image, first, &[0], &[], machine, &[1], none, index)
            };
            assert_eq!(answer(&section, 0x7000), refusal(33, 0));
            assert_eq!(answer(&section, u64::MAX), refusal(33, 0));
            let cut = &section[..section.len() - 1];
            assert_eq!(answer(cut, 0x7000).unwrap_err().number, 4);
        }
    }
}

/// 1 to 9, 13 and 14 come before 27 and 29, and 25 after them.
#[test]
fn the_order_of_refusals() {
    let long = vec![0; 1_048_577];
    for index in [&[][..], &INDEX, &[7]] {
        for section in [row_h(), row_h_1()] {
            let answer = |section: &[u8], mut image: Vec<u8>| {
                let (image, none) = (&mut image, &mut []);
                thread_by_index(section, image, 0, &[0], &[], AMD64, &[1], none, index)
            };
            let cut = &section[..section.len() - 1];
            assert_eq!(answer(cut, long.clone()).unwrap_err().number, 4);
            assert_eq!(answer(&section, long.clone()), refusal(13, 0));
            assert_eq!(answer(&section, image()), refusal(14, 0));
        }
    }
    assert_eq!(run(&row_h(), &odd(), &INDEX).0, refusal(25, 0));
    assert_eq!(run(&row_h(), &odd(), &[]).0, refusal(29, 0));
}
