//! Payloads to readings: good frames, texts, filling, room, and each refusal that a decode can give.
use samopute::{
    decode_run, Availability, Decoded, Decoder, Field, Head, Kind, Reading, Record, Refusal,
    Resolution, Rule, Set, Table, Value, PADDING_LENGTH, PAYLOAD_MAX, ROOM_ENOUGH,
};

const FRAME: [u8; 8] = [0x2A, 0xFC, 0x5C, 0x3D, 0xC0, 0x98, 0xFF, 0xFF];

/// Field, element, start, bits, available, raw, value: a reading in one line.
fn reading(
    field: u64,
    element: Option<u64>,
    span: (u64, u64),
    available: bool,
    raw: Option<u64>,
    value: Value<'static>,
) -> Reading<'static> {
    let availability = if available {
        Availability::Available
    } else {
        Availability::NotAvailable
    };
    Reading {
        field,
        element,
        start: span.0,
        bits: span.1,
        availability,
        raw,
        value,
    }
}

/// A text or bytes without an encoding.
fn bytes(bytes: &'static [u8]) -> Value<'static> {
    Value::Bytes {
        bytes,
        encoding: None,
    }
}

fn all<'a>(decoded: &Decoded<'a>) -> Vec<Reading<'a>> {
    decoded.readings().collect()
}

/// The words of a table of fields, without sets.
fn plain(fields: &[Field]) -> Vec<u64> {
    let head = Head::of(fields.len() as u16, 0).word();
    std::iter::once(head)
        .chain(fields.iter().map(|f| f.word()))
        .collect()
}

/// The values, and the end or the refusal, of one payload by a table of these fields.
fn decoded_by(fields: &[Field], payload: &[u8], test: impl FnOnce(&Decoded)) {
    let words = plain(fields);
    let mut decoder = Decoder::<ROOM_ENOUGH>::new();
    test(&decoder.decode(Table::new(&words), payload));
}

#[test]
fn the_worked_frame_by_its_pgn() {
    let mut decoder = Decoder::<4>::new();
    let decoded = decoder.decode_pgn(129026, &FRAME);
    assert_eq!(decoded.end(), Ok(64));
    assert_eq!(
        all(&decoded),
        [
            reading(0, None, (0, 8), true, Some(0x2A), Value::U8(42)),
            reading(1, None, (8, 2), true, Some(0), Value::U8(0)),
            reading(
                3,
                None,
                (16, 16),
                true,
                Some(0x3D5C),
                Value::F32(15708.0 * 0.0001)
            ),
            reading(
                4,
                None,
                (32, 16),
                true,
                Some(0x98C0),
                Value::F32(39104.0 * 0.01)
            ),
        ]
    );
    assert_eq!(decoded.working_payload(), FRAME);
    assert!(!decoded.is_filled());
    assert_eq!(decoded.readings().len(), 4);
}

#[test]
fn the_worked_frame_by_a_table_of_our_own() {
    let words = plain(&[
        Field::new(Kind::Number, 8),
        Field::new(Kind::Lookup, 2),
        Field::new(Kind::Reserved, 6),
        Field::new(Kind::Number, 16).scaled(Resolution::Single(0.0001)),
        Field::new(Kind::Number, 16).scaled(Resolution::Single(0.01)),
        Field::new(Kind::Reserved, 16),
    ]);
    let (mut ours, mut built_in) = (Decoder::<4>::new(), Decoder::<4>::new());
    let ours = ours.decode(Table::new(&words), &FRAME);
    let built_in = built_in.decode_pgn(129026, &FRAME);
    assert_eq!(all(&ours), all(&built_in));
    assert_eq!(ours.end(), built_in.end());
}

#[test]
fn a_position_and_one_that_is_not_available() {
    let mut decoder = Decoder::<2>::new();
    let decoded = decoder.decode_pgn(129025, &[0x18, 0x99, 0xBE, 0x1C, 0xFF, 0xFF, 0xFF, 0x7F]);
    let readings = all(&decoded);
    assert!(readings[0].is_available());
    assert!((readings[0].value.as_f64().unwrap() - 48.225308).abs() < 1e-5);
    assert_eq!(readings[1].availability, Availability::NotAvailable);
    assert_eq!(readings[1].raw, Some(0x7FFF_FFFF));
}

#[test]
fn two_stations_of_129029() {
    let mut payload = [0; 51];
    payload[42] = 2; // the counter
    payload[43..].copy_from_slice(&[0x71, 0x00, 0x64, 0x00, 0xF0, 0xFF, 0xFF, 0xFF]);
    let mut decoder = Decoder::<32>::new();
    let decoded = decoder.decode_pgn(129029, &payload);
    assert_eq!(decoded.end(), Ok(8 * 51));
    let stations: Vec<_> = decoded.readings().filter(|r| r.element.is_some()).collect();
    assert_eq!(
        stations,
        [
            reading(15, Some(0), (344, 4), true, Some(1), Value::U8(1)),
            reading(16, Some(0), (348, 12), true, Some(7), Value::U16(7)),
            reading(
                17,
                Some(0),
                (360, 16),
                true,
                Some(100),
                Value::F32((100.0 * f64::from(0.01f32)) as f32)
            ),
            reading(15, Some(1), (376, 4), true, Some(0), Value::U8(0)),
            reading(
                16,
                Some(1),
                (380, 12),
                false,
                Some(0xFFF),
                Value::U16(0xFFF)
            ),
            reading(
                17,
                Some(1),
                (392, 16),
                false,
                Some(0xFFFF),
                Value::F32((65535.0 * f64::from(0.01f32)) as f32)
            ),
        ]
    );
}

#[test]
fn each_kind_of_number() {
    let fields = [8, 16, 32, 64].map(|width| Field::new(Kind::Number, width));
    let ones = [0xFE; 15];
    decoded_by(&fields, &ones, |decoded| {
        let values: Vec<_> = decoded.readings().map(|r| r.value).collect();
        let wanted = [
            Value::U8(0xFE),
            Value::U16(0xFEFE),
            Value::U32(0xFEFE_FEFE),
            Value::U64(0xFEFE_FEFE_FEFE_FEFE),
        ];
        assert_eq!(values, wanted);
        assert_eq!(values[3].as_i64(), None);
        assert_eq!(values[3].as_f64(), Some(0xFEFE_FEFE_FEFE_FEFE_u64 as f64));
    });
    decoded_by(&fields.map(Field::signed), &ones, |decoded| {
        let values: Vec<_> = decoded.readings().map(|r| r.value).collect();
        let wanted = [
            Value::I8(-2),
            Value::I16(-0x102),
            Value::I32(-0x0101_0102),
            Value::I64(-0x0101_0101_0101_0102),
        ];
        assert_eq!(values, wanted);
        assert_eq!(values[3].as_i64(), Some(-0x0101_0101_0101_0102));
        assert_eq!(values[0].as_f64(), Some(-2.0));
        assert_eq!(values[0].as_bytes(), None);
    });
}

#[test]
fn floats() {
    decoded_by(
        &[Field::new(Kind::Float, 32)],
        &1.5f32.to_le_bytes(),
        |decoded| {
            assert_eq!(
                all(decoded),
                [reading(
                    0,
                    None,
                    (0, 32),
                    true,
                    Some(0x3FC0_0000),
                    Value::F32(1.5)
                )]
            );
        },
    );
    decoded_by(
        &[Field::new(Kind::Float, 32)],
        &f32::NAN.to_le_bytes(),
        |decoded| {
            let nan = decoded.readings().next().unwrap();
            assert!(!nan.is_available());
            assert!(nan.value.as_f64().unwrap().is_nan());
        },
    );
}

#[test]
fn fixed_texts() {
    let fields = [
        Field::new(Kind::StringFix, 24),
        Field::new(Kind::StringFix, 16),
    ];
    decoded_by(&fields, b"ABC\xFF\xFF", |decoded| {
        let wanted = [
            reading(0, None, (0, 24), true, None, bytes(b"ABC")),
            reading(1, None, (24, 16), false, None, bytes(b"\xFF\xFF")),
        ];
        assert_eq!(all(decoded), wanted);
        assert_eq!(decoded.end(), Ok(40));
    });
}

#[test]
fn a_last_fixed_text_over_32_bytes_takes_what_is_left() {
    let letters = [b'x'; 20];
    decoded_by(
        &[Field::new(Kind::StringFix, 8 * 33)],
        &letters,
        |decoded| {
            assert_eq!(decoded.end(), Ok(160));
            assert_eq!(
                decoded.readings().next().unwrap().value.as_bytes(),
                Some(&letters[..])
            );
        },
    );
    decoded_by(
        &[Field::new(Kind::StringFix, 8 * 32)],
        &letters,
        |decoded| {
            assert_eq!(
                decoded.end(),
                Err(Refusal::BeyondBytes {
                    field: Some(0),
                    asked: 32,
                    available: 20
                })
            );
        },
    );
}

#[test]
fn texts_with_a_length_and_an_encoding() {
    let lau = [Field::new(Kind::StringLau, 0)];
    let text = |bytes, encoding| Value::Bytes { bytes, encoding };
    decoded_by(&lau, &[4, 1, b'A', b'B'], |decoded| {
        assert_eq!(
            all(decoded),
            [reading(0, None, (0, 32), true, None, text(b"AB", Some(1)))]
        );
    });
    decoded_by(&lau, &[2, 7, b'A'], |decoded| {
        assert_eq!(
            all(decoded),
            [reading(0, None, (0, 16), false, None, text(b"", Some(7)))]
        );
    });
    for absent in [0, 1] {
        decoded_by(&lau, &[absent, 7, b'A'], |decoded| {
            assert_eq!(
                all(decoded),
                [reading(0, None, (0, 8), false, None, text(b"", None))]
            );
        });
    }
}

#[test]
fn texts_with_a_length_and_a_zero() {
    let lz = [Field::new(Kind::StringLz, 0)];
    for (last, bits) in [(0, 32), (7, 24)] {
        decoded_by(&lz, &[2, b'A', b'B', last], |decoded| {
            assert_eq!(
                all(decoded),
                [reading(0, None, (0, bits), true, None, bytes(b"AB"))]
            );
            assert_eq!(decoded.end(), Ok(bits));
        });
    }
    decoded_by(&lz, &[0], |decoded| {
        assert_eq!(
            all(decoded),
            [reading(0, None, (0, 8), false, None, bytes(b""))]
        );
    });
}

#[test]
fn an_empty_text_needs_no_alignment() {
    let fields = [Field::new(Kind::Number, 3), Field::new(Kind::StringLz, 0)];
    decoded_by(&fields, &[0b101, 0], |decoded| {
        assert_eq!(decoded.end(), Ok(11));
        assert_eq!(
            decoded.readings().nth(1),
            Some(reading(1, None, (3, 8), false, None, bytes(b"")))
        );
    });
}

#[test]
fn binaries() {
    let fields = [Field::new(Kind::Binary, 16), Field::new(Kind::Binary, 12)];
    decoded_by(&fields, &[1, 2, 0x34, 0x12], |decoded| {
        let wanted = [
            reading(0, None, (0, 16), true, None, bytes(&[1, 2])),
            reading(1, None, (16, 12), true, Some(0x234), Value::U16(0x234)),
        ];
        assert_eq!(all(decoded), wanted);
    });
}

#[test]
fn a_payload_is_filled_from_the_minimum_on() {
    let words = [
        Head::of(1, 0).filled(16, 8).word(),
        Field::new(Kind::Binary, 64).word(),
    ];
    let table = Table::new(&words);
    let mut decoder = Decoder::<1>::new();
    let seven = decoder.decode(table, &[1; 7]);
    assert!(!seven.is_filled());
    assert_eq!(seven.working_payload(), [1; 7]);
    assert_eq!(
        seven.end(),
        Err(Refusal::BeyondBytes {
            field: Some(0),
            asked: 8,
            available: 7
        })
    );

    let eight = decoder.decode(table, &[1; 8]);
    assert!(eight.is_filled());
    assert_eq!(eight.working_payload(), [[1; 8], [0xFF; 8]].concat());
    assert_eq!(eight.readings().next().unwrap().value, bytes(&[1; 8]));
}

#[test]
fn texts_stand_in_the_filled_payload() {
    let words = [
        Head::of(2, 0).filled(6, 1).word(),
        Field::new(Kind::Number, 8).word(),
        Field::new(Kind::Binary, 40).word(),
    ];
    let mut decoder = Decoder::<2>::new();
    let decoded = decoder.decode(Table::new(&words), &[9, 8]);
    assert_eq!(
        decoded.readings().nth(1).unwrap().value,
        bytes(&[8, 0xFF, 0xFF, 0xFF, 0xFF])
    );
    assert_eq!(decoded.end(), Ok(48));
}

#[test]
fn refusal_2_names_the_field() {
    decoded_by(
        &[Field::new(Kind::Number, 8), Field::new(Kind::Date, 16)],
        &[1, 2],
        |decoded| {
            assert_eq!(
                decoded.end(),
                Err(Refusal::BeyondBits {
                    field: Some(1),
                    asked: 16,
                    available: 8
                })
            );
            assert_eq!(decoded.readings().len(), 1);
        },
    );
}

#[test]
fn refusal_2_tells_bits_from_bytes() {
    let by = |width, payload: &[u8], wanted| {
        let fields = [
            Field::new(Kind::Number, width),
            Field::new(Kind::StringLau, 0),
        ];
        let words = plain(&fields);
        let mut decoder = Decoder::<2>::new();
        let decoded = decoder.decode(Table::new(&words), payload);
        assert_eq!(decoded.end(), Err(wanted));
        assert_eq!(wanted.number(), 2);
        let (mut padding, mut records) = ([0; PADDING_LENGTH], [POISON; 2]);
        let run = decode_run(Table::new(&words), payload, &mut padding, &mut records);
        assert_eq!(run.end(), Err(wanted));
    };
    let (field, asked, available) = (Some(1), 8, 7);
    // The length byte, of which 7 bits are there; a text of 8 bytes, of which 7 are.
    by(
        1,
        &[0],
        Refusal::BeyondBits {
            field,
            asked,
            available,
        },
    );
    by(
        8,
        b"\0\x0A\x01ABCDEFG",
        Refusal::BeyondBytes {
            field,
            asked,
            available,
        },
    );
}

#[test]
fn refusal_3_is_of_bytes_inside_a_byte() {
    decoded_by(
        &[Field::new(Kind::Number, 3), Field::new(Kind::StringFix, 8)],
        &[1, 2],
        |decoded| {
            assert_eq!(
                decoded.end(),
                Err(Refusal::Unaligned {
                    field: Some(1),
                    cursor: 3
                })
            );
        },
    );
}

#[test]
fn refusal_4_is_of_numbers_cut_short_and_of_long_texts() {
    let mut decoder = Decoder::<4>::new();
    let decoded = decoder.decode_pgn(129026, &FRAME[..5]);
    assert_eq!(decoded.end(), Err(Refusal::CutShort { field: 4 }));
    assert_eq!(decoded.readings().len(), 3);
    decoded_by(&[Field::new(Kind::StringLau, 0)], &[224, 0], |decoded| {
        assert_eq!(decoded.end(), Err(Refusal::CutShort { field: 0 }));
    });
}

/// A counter of 8 bits, then a set of one number of 32 bits.
fn repeated(maximum: u16) -> [u64; 4] {
    [
        Head::of(2, 1).word(),
        Field::new(Kind::Number, 8).word(),
        Field::new(Kind::Number, 32).word(),
        Set {
            start: 1,
            size: 1,
            counter: 0,
            maximum,
        }
        .word(),
    ]
}

#[test]
fn refusal_5_is_of_what_fits() {
    let payload = [3, 1, 0, 0, 0, 2, 0, 0, 0];
    let mut decoder = Decoder::<4>::new();
    let fits = decoder.decode(Table::new(&repeated(2)), &payload);
    assert_eq!(fits.end(), Ok(72));
    let elements: Vec<_> = fits.readings().map(|r| r.element).collect();
    assert_eq!(elements, [None, Some(0), Some(1)]);

    let over = decoder.decode(Table::new(&repeated(1)), &payload);
    assert_eq!(
        over.end(),
        Err(Refusal::TooManyElements {
            set: 0,
            count: 2,
            maximum: 1
        })
    );
    assert_eq!(over.readings().len(), 1);
}

#[test]
fn refusal_7_is_of_a_long_payload() {
    let mut decoder = Decoder::<4>::new();
    assert_eq!(decoder.decode_pgn(129026, &[0; PAYLOAD_MAX]).end(), Ok(64));
    let long = decoder.decode_pgn(129026, &[0; PAYLOAD_MAX + 1]);
    assert_eq!(long.end(), Err(Refusal::WrongLength { length: 224 }));
    assert_eq!(long.readings().len(), 0); // those of the call before are gone
}

#[test]
fn refusal_8_has_the_rule_and_the_place() {
    let number = Field::new(Kind::Number, 8);
    let set = |start, size, counter, maximum| {
        Set {
            start,
            size,
            counter,
            maximum,
        }
        .word()
    };
    let broken: [(Rule, u64, Vec<u64>); 9] = [
        (Rule::A, 0, vec![]),
        (Rule::A, 0, plain(&[number; 65])),
        (Rule::B, 1, plain(&[number, Field::new(Kind::Decimal, 8)])),
        (Rule::C, 0, plain(&[Field::new(Kind::Number, 65)])),
        (
            Rule::D,
            0,
            plain(&[Field::new(Kind::Float, 32).scaled(Resolution::Single(1.0))]),
        ),
        (Rule::E, 0, plain(&[Field::new(Kind::Time, 32).signed()])),
        (Rule::F, 0, plain(&[Field::new(Kind::StringLz, 0), number])),
        (
            Rule::G,
            0,
            vec![
                Head::of(2, 1).word(),
                number.word(),
                number.word(),
                set(1, 2, 0, 9),
            ],
        ),
        (
            Rule::H,
            0,
            vec![
                Head::of(2, 1).word(),
                number.word(),
                number.word(),
                set(0, 1, 1, 9),
            ],
        ),
    ];
    for (rule, index, words) in broken {
        let refusal = Err(Refusal::TableRefused { rule, index });
        let mut decoder = Decoder::<4>::new();
        assert_eq!(Table::new(&words).check(), refusal.map(|_: u64| ()));
        assert_eq!(decoder.decode(Table::new(&words), &[0; 8]).end(), refusal);
    }
}

#[test]
fn refusal_9_keeps_what_found_room() {
    let mut none = Decoder::<0>::new();
    let decoded = none.decode_pgn(129026, &FRAME);
    assert_eq!(decoded.end(), Err(Refusal::NoRoom { field: 0 }));
    assert_eq!(decoded.readings().len(), 0);

    let mut three = Decoder::<3>::new();
    let decoded = three.decode_pgn(129026, &FRAME);
    assert_eq!(decoded.end(), Err(Refusal::NoRoom { field: 4 }));
    let fields: Vec<_> = decoded.readings().map(|r| r.field).collect();
    assert_eq!(fields, [0, 1, 3]);
}

#[test]
fn room_enough_is_enough() {
    // A counter, then elements of 60 fields of one bit each.
    let mut words = vec![Head::of(61, 1).word(), Field::new(Kind::Number, 8).word()];
    words.extend([Field::new(Kind::Number, 1).word(); 60]);
    words.push(
        Set {
            start: 1,
            size: 60,
            counter: 0,
            maximum: 30,
        }
        .word(),
    );
    let mut payload = [0xAA; PAYLOAD_MAX];
    payload[0] = 0x1D;
    let mut decoder = Decoder::<ROOM_ENOUGH>::new();
    let decoded = decoder.decode(Table::new(&words), &payload);
    assert_eq!(decoded.end(), Ok(1748));
    assert_eq!(decoded.readings().len(), 1741);
}

#[test]
fn refusal_15_is_of_a_pgn_that_is_not_built_in() {
    let mut decoder = Decoder::<4>::new();
    for pgn in [0, 129027, 0x0101_F802, u32::MAX] {
        let decoded = decoder.decode_pgn(pgn, &[0; 300]);
        assert_eq!(decoded.end(), Err(Refusal::UnknownPgn { pgn: pgn.into() }));
        assert_eq!(decoded.readings().len(), 0);
    }
}

#[test]
fn a_decoder_can_stand_in_a_static() {
    static READY: Decoder<4> = Decoder::new();
    let mut decoder = READY.clone();
    assert_eq!(decoder.decode_pgn(129026, &FRAME).end(), Ok(64));
}

/// What no decode stores.
const POISON: Record = Record {
    field: 0x5A5A,
    element: 1,
    start: 2,
    bits: 3,
    availability: 4,
    value_kind: 5,
    has_raw: 6,
    has_encoding: 7,
    encoding: 8,
    reserved: [9; 3],
    raw: 10,
    value: 11,
    length: 12,
};

/// Holds a decode into a slice of so many records against a `Decoder` with as much room.
fn runs_as_a_decoder<const N: usize>(words: &[u64], payload: &[u8]) {
    let mut decoder = Decoder::<N>::new();
    let decoded = decoder.decode(Table::new(words), payload);
    let (mut padding, mut records) = ([0; PADDING_LENGTH], [POISON; N]);
    let run = decode_run(Table::new(words), payload, &mut padding, &mut records);
    let told = format!("room {N}, words {words:X?}, payload {payload:X?}");
    assert_eq!(run.end(), decoded.end(), "{told}");
    assert_eq!(run.is_filled(), decoded.is_filled(), "{told}");
    assert_eq!(run.working_payload(), decoded.working_payload(), "{told}");
    assert_eq!(run.readings().collect::<Vec<_>>(), all(&decoded), "{told}");
    let made = run.records().len();
    assert_eq!(made, decoded.readings().len(), "{told}");
    assert!(run.records().iter().all(|record| record.reserved == [0; 3]));
    assert!(records[made..].iter().all(|record| *record == POISON));
}

#[test]
fn a_run_of_records_is_what_a_decoder_reads() {
    let numbers = [
        Field::new(Kind::Number, 8),
        Field::new(Kind::Number, 16)
            .signed()
            .scaled(Resolution::Double(0.5)),
        Field::new(Kind::Float, 32),
    ];
    let texts = [
        Field::new(Kind::StringLau, 0),
        Field::new(Kind::Binary, 16),
        Field::new(Kind::StringLz, 0),
    ];
    let filled = [
        Head::of(1, 0).filled(16, 2).word(),
        Field::new(Kind::Binary, 64).word(),
    ];
    let broken = plain(&[Field::new(Kind::Decimal, 8)]);
    let tables: [&[u64]; 6] = [
        &plain(&numbers),
        &plain(&texts),
        &repeated(3),
        &filled,
        &broken,
        &[],
    ];
    let payload = [4, 1, b'h', b'i', 9, 8, 2, b'y', b'o', 0xFF, 0xFF, 0x7F, 3];
    let long = [0; PAYLOAD_MAX + 1];
    for words in tables {
        for payload in (0..=payload.len())
            .map(|end| &payload[..end])
            .chain([&long[..]])
        {
            runs_as_a_decoder::<0>(words, payload);
            runs_as_a_decoder::<1>(words, payload);
            runs_as_a_decoder::<2>(words, payload);
            runs_as_a_decoder::<5>(words, payload);
        }
    }
}

#[test]
fn records_of_a_run_stand_as_c_has_them() {
    let words = plain(&[Field::new(Kind::Number, 8), Field::new(Kind::StringLau, 0)]);
    let (mut padding, mut records) = ([0; PADDING_LENGTH], vec![POISON; 3]);
    let payload = [0xFF, 4, 1, b'h', b'i'];
    let run = decode_run(Table::new(&words), &payload, &mut padding, &mut records);
    assert_eq!(run.end(), Ok(40));
    let number = Record {
        element: u64::MAX,
        bits: 8,
        availability: 1,
        value_kind: 4,
        has_raw: 1,
        raw: 0xFF,
        value: 0xFF,
        ..Record::default()
    };
    let text = Record {
        field: 1,
        element: u64::MAX,
        start: 8,
        bits: 32,
        value_kind: 11,
        has_encoding: 1,
        encoding: 1,
        value: 3,
        length: 2,
        ..Record::default()
    };
    assert_eq!(records, [number, text, POISON]);
}
