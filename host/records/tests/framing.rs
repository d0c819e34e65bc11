//! Records and frames as bytes.
use records::{decode, decode_events, encode, encode_events, read_frame};
use records::{Answer, Case, Ev, Frame, Range, Settings, Tok};

fn token() -> Tok {
    Tok { kind: 1, start: 2, end: 3, a: Range::new(4, 5), b: Range::new(6, 7), style: 8 }
}

fn event() -> Ev {
    let ranges = [Range::new(6, 7), Range::new(9, 10), Range::new(11, 12)];
    let [value, prefix, suffix] = ranges;
    Ev { kind: 1, start: 2, end: 3, number: 4, style: 5, value, source: 8, prefix, suffix }
}

/// 1, 2, 3 .. as numbers of four bytes, little-endian.
fn counted(numbers: u8) -> Vec<u8> {
    (1..=numbers).flat_map(|number| [number, 0, 0, 0]).collect()
}

#[test]
fn fields_stand_in_the_order_of_document_01() {
    assert_eq!(encode(&[token()]), counted(8));
    assert_eq!(encode_events(&[event()]), counted(12));
    assert_eq!(decode(&counted(8)), [token()]);
    assert_eq!(decode_events(&counted(12)), [event()]);
}

#[test]
fn numbers_are_little_endian() {
    let token = Tok { kind: 0x0403_0201, ..Tok::default() };
    assert_eq!(encode(&[token])[..4], [1, 2, 3, 4]);
}

#[test]
fn bytes_past_the_last_record_make_none() {
    let mut bytes = encode(&[token(), token()]);
    bytes.pop();
    assert_eq!(decode(&bytes), [token()]);
}

fn frames() -> Vec<Frame> {
    let case = Case::roomy(&[token()], b"text", Settings { keep: true, forget: false });
    let odd = Case { tokens: vec![9; 33], fill: 255, answer_len: 3, ..case.clone() };
    let answer = Answer {
        returned: 14,
        number: 14,
        count: 1,
        place: u32::MAX,
        flags: 143,
        events: encode_events(&[event()]),
        side: b"side".to_vec(),
    };
    let empty = (Case::default(), Answer::default());
    vec![
        Frame::Case(case),
        Frame::Answer(answer),
        Frame::Case(odd),
        Frame::Case(empty.0),
        Frame::Answer(empty.1),
    ]
}

fn put(frames: &[Frame]) -> Vec<u8> {
    let mut bytes = Vec::new();
    for frame in frames {
        match frame {
            Frame::Case(case) => case.put(&mut bytes),
            Frame::Answer(answer) => answer.put(&mut bytes),
        }
    }
    bytes
}

#[test]
fn frames_come_back_as_they_were() {
    let bytes = put(&frames());
    let mut input = &bytes[..];
    for frame in frames() {
        assert_eq!(read_frame(&mut input).unwrap(), Some(frame));
    }
    assert_eq!(read_frame(&mut input).unwrap(), None);
}

#[test]
fn a_case_is_framed_as_described() {
    let Frame::Case(case) = &frames()[0] else { panic!("the first frame is a case") };
    let mut bytes = Vec::new();
    case.put(&mut bytes);
    let numbers = [1, 0, 144, 8, 12, 16, 12, 0xA5, 32, 4];
    let mut expected = b"CASE".to_vec();
    expected.extend(numbers.iter().flat_map(|number: &u32| number.to_le_bytes()));
    expected.extend(counted(8));
    expected.extend(b"text");
    assert_eq!(bytes, expected);
}

#[test]
fn an_answer_is_framed_as_described() {
    let Frame::Answer(answer) = &frames()[1] else { panic!("the second frame is an answer") };
    let mut bytes = Vec::new();
    answer.put(&mut bytes);
    let numbers = [14, 14, 1, u32::MAX, 143, 48, 4];
    let mut expected = b"ANSW".to_vec();
    expected.extend(numbers.iter().flat_map(|number: &u32| number.to_le_bytes()));
    expected.extend(counted(12));
    expected.extend(b"side");
    assert_eq!(bytes, expected);
}

#[test]
fn every_shortened_frame_is_an_error() {
    for frame in frames() {
        let bytes = put(&[frame]);
        for length in 1..bytes.len() {
            assert!(read_frame(&mut &bytes[..length]).is_err(), "{length} bytes of a frame");
        }
    }
}

#[test]
fn other_bytes_are_an_error_and_ask_for_no_memory() {
    assert!(read_frame(&mut &b"WALK"[..]).is_err());
    let mut endless = b"CASE".to_vec();
    endless.extend([0xFF; 40]);
    assert!(read_frame(&mut &endless[..]).is_err());
}
