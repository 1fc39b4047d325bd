use super::*;

fn refusal(number: u64, place: u64) -> ThreadRefusal {
    let refusal = Refusal::new(number, place);
    ThreadRefusal { refusal }
}

#[test]
fn numbers_of_a_frame_have_its_position_and_no_others() {
    for number in 1..=51 {
        let of_frame = [10, 12, 15, 16, 17, 18, 19, 20, 21, 26].contains(&number);
        let position = refusal(number, 7).position();
        assert_eq!(position, of_frame.then_some(7), "{number}");
    }
}

#[test]
fn the_position_stands_behind_the_cause() {
    let text = |number, place| refusal(number, place).to_string();
    assert_eq!(
        text(26, 3),
        "refused 26 at 3: extent shares a byte with that of an earlier frame (frame 3)"
    );
    assert_eq!(
        text(25, 0),
        "refused 25 at 0: list of frames odd or over 4,096 frames, or not 32 registers a frame"
    );
    assert_eq!(text(2, 0), "refused 2 at 0: version neither 1 nor 3");
    assert_eq!(
        text(15, 4095),
        "refused 15 at 4095: more than one record at the address or offset (frame 4095)"
    );
}

#[test]
fn frames_are_a_list_of_two_numbers_each() {
    let frame = |number| Frame {
        address: number,
        function: number + 1,
    };
    let frames: Vec<Frame> = (0..5).map(|nth| frame(2 * nth)).collect();
    let numbers: Vec<u64> = (0..10).collect();
    assert_eq!(Frames::from(&frames), Frames::of_numbers(&numbers));
    assert_eq!(Frames::new(&frames[1..3]).numbers(), &numbers[2..6]);
    assert_eq!(Frames::new(&[]), Frames::default());
    assert_eq!(Frames::from(&[frame(7)]).numbers(), [7, 8]);
}
