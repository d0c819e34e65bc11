//! The flags that are owed are those that a look at the bytes gives.
use records::{Answer, Case, Lent};

/// The buffers as a right call leaves them, with no events.
fn after(case: &Case, number: u32) -> Answer {
    let fill = case.fill as u8;
    let [events, work @ ..] = case.lengths().map(|length| vec![fill; length as usize]);
    let work = work.map(|buffer| if number == 28 { buffer } else { vec![0; buffer.len()] });
    let mut answer = vec![fill; case.answer_len as usize];
    if number != 28 {
        answer[..12].copy_from_slice(&[number as u8, 0, 0, 0, 0, 0, 0, 0, 0, 0, 0, 0]);
    }
    let work = [&work[0][..], &work[1][..], &work[2][..]];
    Answer::gather(number, fill, Lent { events: &events, work, answer: &answer })
}

#[test]
fn owed_flags_are_those_of_the_bytes() {
    for fill in [0, 1, 0xFF] {
        for lengths in [[0; 4], [48, 8, 12, 16], [5, 0, 13, 0], [0, 7, 0, 15]] {
            for (number, answer_len) in [(28, 0), (28, 11), (21, 12), (14, 12), (14, 40)] {
                let case = Case { fill, answer_len, ..Case::default() }.with_lengths(lengths);
                let seen = after(&case, number).flags;
                assert_eq!(Answer::flags_owed(&case, number), seen, "{case:?} {number}");
            }
        }
    }
}

#[test]
fn each_flag_goes_out_with_its_byte() {
    let buffer = [7; 20];
    let right = Lent { events: &buffer, work: [&[0; 4]; 3], answer: &[0; 12] };
    assert_eq!(Answer::gather(0, 7, right).flags, 1 + 2 + 4 + 8 + 128);
    let tail = Lent { events: &[7, 7, 6], ..right };
    assert_eq!(Answer::gather(0, 7, tail).flags, 2 + 4 + 8 + 128);
    for (i, flags) in [(0, 1 + 4 + 8 + 128), (1, 1 + 2 + 8 + 128), (2, 1 + 2 + 4 + 128)] {
        let mut dirty = right;
        dirty.work[i] = &[0, 0, 0, 1];
        assert_eq!(Answer::gather(0, 7, dirty).flags, flags);
        dirty.work[i] = &[7; 4];
        assert_eq!(Answer::gather(0, 7, dirty).flags, flags + (16 << i));
    }
    let answer = Lent { answer: &[0; 13], ..right };
    assert_eq!(Answer::gather(0, 7, answer).flags, 1 + 2 + 4 + 8);
}

#[test]
fn a_short_answer_buffer_says_nothing() {
    let lent = Lent { events: &[7; 96], work: [&[7; 4]; 3], answer: &[7; 11] };
    let answer = Answer::gather(28, 7, lent);
    let none = Answer::NONE;
    assert_eq!((answer.number, answer.count, answer.place), (none, none, none));
    assert_eq!((answer.returned, answer.events.len()), (28, 0));
    assert_eq!(answer.flags, 1 + 16 + 32 + 64 + 128);
}
