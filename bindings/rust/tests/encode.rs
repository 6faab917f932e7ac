//! Values to payloads: good frames, texts, sets, values that come back, and each refusal that an encode can give.
use samopute::{
    Availability, Decoder, Encoder, Field, Full, Head, Kind, Refusal, Resolution, Rule, Set, Table,
    Value, PAYLOAD_MAX, ROOM_ENOUGH,
};

const FRAME: [u8; 8] = [0x2A, 0xFC, 0x5C, 0x3D, 0xC0, 0x98, 0xFF, 0xFF];

/// The frame's course in rad.
const COURSE: f64 = 15708.0 * 0.0001;

/// SID, COG reference, COG, SOG.
fn course_and_speed(course: f64, speed: f64) -> Encoder<4> {
    let values = [
        Value::U8(42),
        Value::U8(0),
        Value::F64(course),
        Value::F64(speed),
    ];
    Encoder::of(&values).unwrap()
}

fn text(bytes: &[u8]) -> Value<'_> {
    Value::Bytes {
        bytes,
        encoding: None,
    }
}

fn lau(bytes: &[u8], encoding: u8) -> Value<'_> {
    Value::Bytes {
        bytes,
        encoding: Some(encoding),
    }
}

/// The words of a table of fields, without sets.
fn plain(fields: &[Field]) -> Vec<u64> {
    let head = Head::of(fields.len() as u16, 0).word();
    std::iter::once(head)
        .chain(fields.iter().map(|f| f.word()))
        .collect()
}

/// What comes of values by a table of these fields, into a payload of `N` bytes that were 0x55.
fn encoded_by<const N: usize>(
    fields: &[Field],
    values: &[Value],
) -> (Result<usize, Refusal>, [u8; N]) {
    let words = plain(fields);
    let mut payload = [0x55; N];
    let encoder = Encoder::<64>::of(values).unwrap();
    (encoder.encode(Table::new(&words), &mut payload), payload)
}

#[test]
fn the_worked_frame() {
    let mut payload = [0; 8];
    let encoder = course_and_speed(COURSE, 391.04);
    assert_eq!(encoder.encode_pgn(129026, &mut payload), Ok(8));
    assert_eq!(payload, FRAME);
    assert_eq!((encoder.len(), encoder.is_empty()), (4, false));
}

#[test]
fn a_speed_of_7600_metres_a_second_is_refused() {
    let mut payload = [0; 8];
    let refused = course_and_speed(COURSE, 7600.0).encode_pgn(129026, &mut payload);
    assert_eq!(refused, Err(Refusal::OutOfRange { field: Some(4) }));
    assert_eq!(refused.unwrap_err().number(), 10);
    assert_eq!(payload, [0x2A, 0xFC, 0x5C, 0x3D, 0xFF, 0xFF, 0xFF, 0xFF]);

    let mut decoder = Decoder::<4>::new();
    let speed = decoder
        .decode_pgn(129026, &payload)
        .readings()
        .nth(3)
        .unwrap();
    assert_eq!(
        (speed.field, speed.availability),
        (4, Availability::NotAvailable)
    );
}

#[test]
fn the_limits_of_a_speed() {
    let mut payload = [0; 8];
    let mut raw_of = |speed| {
        course_and_speed(0.0, speed)
            .encode_pgn(129026, &mut payload)
            .map(|_| u16::from_le_bytes([payload[4], payload[5]]))
    };
    assert_eq!(raw_of(0.0), Ok(0));
    assert_eq!(raw_of(-0.004), Ok(0));
    assert_eq!(raw_of(655.35), Ok(0xFFFF));
    for speed in [-0.006, 655.36, f64::INFINITY, f64::NAN] {
        assert_eq!(raw_of(speed), Err(Refusal::OutOfRange { field: Some(4) }));
    }
}

#[test]
fn each_kind_of_number() {
    let fields = [
        Field::new(Kind::Number, 64),
        Field::new(Kind::Number, 32),
        Field::new(Kind::Number, 16),
        Field::new(Kind::Number, 8),
        Field::new(Kind::Number, 64).signed(),
        Field::new(Kind::Number, 32).signed(),
        Field::new(Kind::Number, 16).signed(),
        Field::new(Kind::Number, 8).signed(),
        Field::new(Kind::Time, 32).scaled(Resolution::Double(0.5)),
        Field::new(Kind::Float, 32),
    ];
    let values = [
        Value::U64(u64::MAX - 1),
        Value::U32(u32::MAX - 1),
        Value::U16(u16::MAX - 1),
        Value::U8(u8::MAX - 1),
        Value::I64(i64::MIN),
        Value::I32(i32::MIN),
        Value::I16(i16::MIN),
        Value::I8(i8::MIN),
        Value::F64(1.5),
        Value::F32(-2.5),
    ];
    let (used, payload) = encoded_by::<38>(&fields, &values);
    assert_eq!(used, Ok(38));
    let words = plain(&fields);
    let mut decoder = Decoder::<10>::new();
    let decoded = decoder.decode(Table::new(&words), &payload);
    let read: Vec<_> = decoded.readings().map(|r| r.value).collect();
    assert_eq!(read, values);
}

#[test]
fn texts_and_bytes() {
    let fields = [
        Field::new(Kind::StringFix, 40),
        Field::new(Kind::Binary, 16),
        Field::new(Kind::StringLau, 0),
        Field::new(Kind::StringLau, 0),
        Field::new(Kind::StringLz, 0),
    ];
    let values = [
        text(b"abc"),
        text(&[1, 2]),
        lau(b"hi", 1),
        text(b""),
        text(b"z"),
    ];
    let (used, payload) = encoded_by::<16>(&fields, &values);
    assert_eq!(used, Ok(15));
    assert_eq!(payload, *b"abc\xFF\xFF\x01\x02\x04\x01hi\x01\x01z\x00\xFF");
}

#[test]
fn skipped_fields_stay_ones_and_take_no_value() {
    let fields = [
        Field::new(Kind::Number, 4),
        Field::new(Kind::Reserved, 4),
        Field::new(Kind::Spare, 8),
        Field::new(Kind::Number, 3),
    ];
    let (used, payload) = encoded_by::<4>(&fields, &[Value::U8(0), Value::U8(0)]);
    assert_eq!(used, Ok(3));
    assert_eq!(payload, [0xF0, 0xFF, 0xF8, 0xFF]);
}

/// A counter of 8 bits, then a set of a number of 16 bits.
fn repeated(maximum: u16) -> [u64; 4] {
    [
        Head::of(2, 1).word(),
        Field::new(Kind::Number, 8).word(),
        Field::new(Kind::Number, 16).word(),
        Set {
            start: 1,
            size: 1,
            counter: 0,
            maximum,
        }
        .word(),
    ]
}

#[test]
fn the_counter_says_how_many_elements_follow() {
    let mut payload = [0; 6];
    let mut encode = |values: &[Value]| {
        let words = repeated(2);
        let encoder = Encoder::<4>::of(values).unwrap();
        (
            encoder.encode(Table::new(&words), &mut payload),
            payload[0..5].to_vec(),
        )
    };
    let two = [Value::U8(2), Value::U16(0x102), Value::U16(0x304)];
    assert_eq!(encode(&two), (Ok(5), vec![2, 2, 1, 4, 3]));
    assert_eq!(
        encode(&two[..1]),
        (
            Err(Refusal::ValueCount { field: 1 }),
            vec![2, 0xFF, 0xFF, 0xFF, 0xFF]
        )
    );
    assert_eq!(encode(&[Value::U8(255)]), (Ok(1), vec![0xFF; 5]));
    let over = Err(Refusal::TooManyElements {
        set: 0,
        count: 3,
        maximum: 2,
    });
    assert_eq!(
        encode(&[Value::U8(3)]),
        (over, vec![3, 0xFF, 0xFF, 0xFF, 0xFF])
    );
    let left_over = [Value::U8(0), Value::U16(0)];
    assert_eq!(encode(&left_over).0, Err(Refusal::ValueCount { field: 2 }));
}

#[test]
fn what_was_read_is_written_again() {
    let mut frame = [0; 51];
    for (i, byte) in frame.iter_mut().enumerate().take(42) {
        *byte = i as u8;
    }
    // Latitude, longitude and altitude within the 53 bits of an f64: of a wider number it keeps the upper ones.
    for i in [13, 14, 21, 22, 29, 30] {
        frame[i] = 0;
    }
    frame[42] = 2; // the counter
    frame[43..].copy_from_slice(&[0x71, 0x00, 0x64, 0x00, 0xF0, 0xFF, 0xFF, 0xFF]);
    let mut decoder = Decoder::<ROOM_ENOUGH>::new();
    let decoded = decoder.decode_pgn(129029, &frame);
    let values: Vec<_> = decoded.readings().map(|r| r.value).collect();
    let mut payload = [0; 51];
    let encoder = Encoder::<32>::of(&values).unwrap();
    assert_eq!(encoder.encode_pgn(129029, &mut payload), Ok(51));
    let mut again = Decoder::<ROOM_ENOUGH>::new();
    let raws = |d: &samopute::Decoded| d.readings().map(|r| r.raw).collect::<Vec<_>>();
    assert_eq!(
        raws(&again.decode_pgn(129029, &payload)),
        raws(&decoder.decode_pgn(129029, &frame))
    );
}

#[test]
fn a_text_of_the_filled_bytes_is_written_again() {
    let words = [
        Head::of(2, 0).filled(2, 1).word(),
        Field::new(Kind::Number, 8).word(),
        Field::new(Kind::StringFix, 8).word(),
    ];
    let mut decoder = Decoder::<2>::new();
    let decoded = decoder.decode(Table::new(&words), &[1]);
    assert_eq!(decoded.working_payload(), [1, 0xFF]);
    let values: Vec<_> = decoded.readings().map(|r| r.value).collect();
    assert_eq!(values, [Value::U8(1), text(b"\xFF")]);
    let mut payload = [0; 2];
    let encoder = Encoder::<2>::of(&values).unwrap();
    assert_eq!(encoder.encode(Table::new(&words), &mut payload), Ok(2));
    assert_eq!(payload, [1, 0xFF]);
}

/// What comes of a raw that is read by a table of this field and written again.
fn again(field: Field, raw: u64) -> Result<u64, Refusal> {
    let words = plain(&[field]);
    let mut decoder = Decoder::<1>::new();
    let frame = raw.to_le_bytes();
    let decoded = decoder.decode(Table::new(&words), &frame);
    let value = decoded.readings().next().unwrap().value;
    let (used, payload) = encoded_by::<8>(&[field], &[value]);
    used?;
    samopute::BitReader::new(&payload).read_u64(field.width.into())
}

#[test]
fn a_rounded_value_is_written_as_another_raw() {
    let single = |width, by| Field::new(Kind::Number, width).scaled(Resolution::Single(by));
    let latitude = Field::new(Kind::Number, 64)
        .signed()
        .scaled(Resolution::Double(1e-16));
    assert_eq!(again(single(25, 1.0), 16_777_216), Ok(16_777_216));
    assert_eq!(again(single(25, 1.0), 16_777_217), Ok(16_777_216));
    assert_eq!(again(single(24, 0.01), 13_107_201), Ok(13_107_200));
    assert_eq!(
        again(latitude, 4_503_599_627_370_497),
        Ok(4_503_599_627_370_498)
    );
    let refused = Err(Refusal::OutOfRange { field: Some(0) });
    assert_eq!(again(single(32, 1.0), u32::MAX.into()), refused);
    let nan = again(Field::new(Kind::Float, 32), 0x7FC0_0001);
    assert_eq!(nan, Ok(0x7FC0_0000));
}

#[test]
fn refusal_2_counts_the_bits_of_the_whole_field() {
    let fields = [Field::new(Kind::Number, 8), Field::new(Kind::StringLz, 0)];
    let (refused, payload) = encoded_by::<3>(&fields, &[Value::U8(7), text(b"ab")]);
    let beyond = Refusal::BeyondBits {
        field: Some(1),
        asked: 32,
        available: 16,
    };
    assert_eq!((refused, payload), (Err(beyond), [7, 0xFF, 0xFF]));
}

#[test]
fn refusal_3_is_of_bytes_inside_a_byte() {
    let fields = [Field::new(Kind::Number, 4), Field::new(Kind::StringFix, 8)];
    let (refused, payload) = encoded_by::<2>(&fields, &[Value::U8(7), text(b"a")]);
    let unaligned = Refusal::Unaligned {
        field: Some(1),
        cursor: 4,
    };
    assert_eq!((refused, payload), (Err(unaligned), [0xF7, 0xFF]));
}

#[test]
fn refusals_7_8_and_15_touch_nothing() {
    let encoder = course_and_speed(0.0, 0.0);
    let mut long = [0x55; PAYLOAD_MAX + 1];
    assert_eq!(
        encoder.encode_pgn(129026, &mut long),
        Err(Refusal::WrongLength { length: 224 })
    );
    assert_eq!(
        encoder.encode_pgn(129027, &mut long),
        Err(Refusal::UnknownPgn { pgn: 129027 })
    );
    assert_eq!(long, [0x55; PAYLOAD_MAX + 1]);
    let (refused, payload) = encoded_by::<8>(&[Field::new(Kind::Float, 16)], &[]);
    let broken = Refusal::TableRefused {
        rule: Rule::C,
        index: 0,
    };
    assert_eq!((refused, payload), (Err(broken), [0x55; 8]));
}

#[test]
fn refusal_11_is_of_a_value_of_another_kind() {
    let other = |field, value| {
        let (refused, payload) = encoded_by::<8>(&[field], &[value]);
        assert_eq!(refused, Err(Refusal::OtherKind { field: Some(0) }));
        assert_eq!(payload, [0xFF; 8]);
    };
    other(Field::new(Kind::Number, 8), Value::I8(1));
    other(Field::new(Kind::Number, 8), Value::F32(1.0));
    other(Field::new(Kind::Number, 8), text(b"a"));
    other(Field::new(Kind::Float, 32), Value::F64(1.0));
    other(Field::new(Kind::StringFix, 8), Value::U8(65));
    other(Field::new(Kind::StringFix, 8), lau(b"a", 1));
    other(Field::new(Kind::StringLau, 0), text(b"a"));
}

#[test]
fn refusal_13_is_of_a_text_that_its_field_does_not_hold() {
    let long = [b'a'; 300];
    let too_long = |field, length: usize| {
        let (refused, _) = encoded_by::<PAYLOAD_MAX>(&[field], &[text(&long[..length])]);
        assert_eq!(refused, Err(Refusal::TextTooLong { field: 0 }));
    };
    too_long(Field::new(Kind::StringFix, 16), 3);
    too_long(Field::new(Kind::Binary, 16), 1);
    too_long(Field::new(Kind::StringLz, 0), 222);
    too_long(Field::new(Kind::StringLz, 0), 300);
    let (most, _) =
        encoded_by::<PAYLOAD_MAX>(&[Field::new(Kind::StringLz, 0)], &[text(&long[..221])]);
    assert_eq!(most, Ok(PAYLOAD_MAX));
}

#[test]
fn texts_longer_than_a_payload_are_refused_as_texts_of_their_length() {
    let long = [b'a'; 120];
    let fields = [Field::new(Kind::StringFix, 960); 2];
    let (refused, payload) = encoded_by::<200>(&fields, &[text(&long), text(&long)]);
    let beyond = Refusal::BeyondBits {
        field: Some(1),
        asked: 960,
        available: 640,
    };
    assert_eq!(refused, Err(beyond));
    assert_eq!(payload[..120], long);
    assert_eq!(payload[120..], [0xFF; 80]);
}

#[test]
fn an_encoder_has_room_for_so_many_values() {
    let mut encoder = Encoder::<1>::new();
    assert!(encoder.is_empty());
    assert_eq!(encoder.push(Value::U8(1)), Ok(()));
    assert_eq!(encoder.push(Value::U8(2)), Err(Full));
    encoder.clear();
    assert_eq!(encoder.push(Value::U8(3)), Ok(()));
    let words = plain(&[Field::new(Kind::Number, 8)]);
    let mut payload = [0];
    assert_eq!(encoder.encode(Table::new(&words), &mut payload), Ok(1));
    assert_eq!(payload, [3]);
    assert!(Encoder::<1>::of(&[Value::U8(0); 2]).is_err());
    assert_eq!(Full.to_string(), "no room for another value");
}

#[test]
fn refusals_as_text() {
    let told = |refusal: Refusal| refusal.to_string();
    assert_eq!(
        told(Refusal::OutOfRange { field: Some(4) }),
        "refusal 10: a value out of its field's range in field 4"
    );
    assert_eq!(
        told(Refusal::OtherKind { field: Some(1) }),
        "refusal 11: a value of another kind than the field takes in field 1"
    );
    assert_eq!(
        told(Refusal::ValueCount { field: 6 }),
        "refusal 12: values are missing or left over, at field 6"
    );
    assert_eq!(
        told(Refusal::TextTooLong { field: 2 }),
        "refusal 13: text or bytes that field 2 does not hold"
    );
}
