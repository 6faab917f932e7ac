//! The bit cursors, the numbers and the refusals as text.
use samopute::{
    Availability, BitReader, BitWriter, Field, Kind, Refusal, Resolution, Rule, Table, Value,
    BUFFER_MAX,
};

#[test]
fn numbers_are_read_lowest_bit_first() {
    let mut reader = BitReader::new(&[0xF0, 0x1F, 0x34, 0x12, 0x78, 0x56, 0x34, 0x12]);
    reader.seek(4);
    assert_eq!(reader.read_u64(9), Ok(511));
    assert_eq!(reader.read_u8(3), Ok(0));
    assert_eq!(reader.read_u16(16), Ok(0x1234));
    assert_eq!(reader.read_u32(32), Ok(0x1234_5678));
    assert_eq!((reader.cursor(), reader.bits_remaining()), (64, 0));
}

#[test]
fn a_refused_read_does_not_move() {
    let mut reader = BitReader::new(&[0; 2]);
    let width = |maximum, width| {
        Err(Refusal::Width {
            field: None,
            maximum,
            width,
        })
    };
    assert_eq!(reader.read_u64(65), width(64, 65));
    assert_eq!(reader.read_u64(0), width(64, 0));
    assert_eq!(reader.read_u32(33).map(u64::from), width(32, 33));
    assert_eq!(reader.read_u16(17).map(u64::from), width(16, 17));
    assert_eq!(reader.read_u8(9).map(u64::from), width(8, 9));
    assert_eq!(reader.read_u8(257).map(u64::from), width(8, 257));
    assert_eq!(reader.read_u8(0).map(u64::from), width(64, 0));
    assert_eq!(
        reader.read_u64(17),
        Err(Refusal::BeyondBits {
            field: None,
            asked: 17,
            available: 16
        })
    );
    assert_eq!(
        reader.advance(17),
        Err(Refusal::BeyondBits {
            field: None,
            asked: 17,
            available: 16
        })
    );
    assert_eq!(reader.cursor(), 0);
    assert_eq!(reader.advance(3), Ok(()));
    assert_eq!((reader.cursor(), reader.bits_remaining()), (3, 13));
}

#[test]
fn slices_are_read_from_whole_bytes_on() {
    let mut reader = BitReader::new(&[1, 2, 3]);
    reader.seek(8);
    assert_eq!(reader.read_slice(2), Ok(&[2, 3][..]));
    assert_eq!(reader.cursor(), 24);
    assert_eq!(reader.read_slice(0), Ok(&[][..]));
    reader.seek(32);
    assert_eq!(
        reader.read_slice(0),
        Err(Refusal::BeyondBytes {
            field: None,
            asked: 0,
            available: 0
        })
    );
    reader.seek(9);
    assert_eq!(
        reader.read_slice(1),
        Err(Refusal::Unaligned {
            field: None,
            cursor: 9
        })
    );
    reader.seek(8);
    assert_eq!(
        reader.read_slice(usize::MAX),
        Err(Refusal::BeyondBytes {
            field: None,
            asked: u64::MAX,
            available: 2
        })
    );
    assert_eq!(reader.read_slice(2), Ok(&[2, 3][..]));
    reader.seek(usize::MAX);
    assert_eq!(reader.bits_remaining(), 0);
    assert_eq!(
        reader.read_u8(1),
        Err(Refusal::BeyondBits {
            field: None,
            asked: 1,
            available: 0
        })
    );
}

#[test]
fn writes_keep_every_other_bit() {
    let mut buffer = [0, 0];
    let mut writer = BitWriter::new(&mut buffer);
    writer.seek(6);
    assert_eq!(writer.write_u64(13, 3), Ok(()));
    assert_eq!((writer.cursor(), writer.bits_remaining()), (9, 7));
    assert_eq!(buffer, [0x40, 0x01]);

    let mut buffer = [0xFF; 8];
    let mut writer = BitWriter::new(&mut buffer);
    assert_eq!(writer.write_u8(0, 4), Ok(()));
    assert_eq!(writer.advance(4), Ok(()));
    assert_eq!(writer.write_u16(0x1234, 16), Ok(()));
    assert_eq!(writer.write_u32(0x5678, 16), Ok(()));
    assert_eq!(writer.write_slice(&[9, 8]), Ok(()));
    assert_eq!(writer.cursor(), 56);
    assert_eq!(buffer, [0xF0, 0x34, 0x12, 0x78, 0x56, 9, 8, 0xFF]);
}

#[test]
fn a_refused_write_changes_nothing() {
    let mut buffer = [7; 2];
    let mut writer = BitWriter::new(&mut buffer);
    assert_eq!(
        writer.write_u16(0, 17),
        Err(Refusal::Width {
            field: None,
            maximum: 16,
            width: 17
        })
    );
    assert_eq!(
        writer.write_u64(0, 17),
        Err(Refusal::BeyondBits {
            field: None,
            asked: 17,
            available: 16
        })
    );
    assert_eq!(
        writer.write_slice(&[0; 3]),
        Err(Refusal::BeyondBytes {
            field: None,
            asked: 3,
            available: 2
        })
    );
    writer.seek(8);
    assert_eq!(
        writer.write_slice(&[0; 3]),
        Err(Refusal::BeyondBytes {
            field: None,
            asked: 3,
            available: 1
        })
    );
    writer.seek(24);
    assert_eq!(
        writer.write_slice(&[]),
        Err(Refusal::BeyondBytes {
            field: None,
            asked: 0,
            available: 0
        })
    );
    writer.seek(1);
    assert_eq!(
        writer.write_slice(&[0]),
        Err(Refusal::Unaligned {
            field: None,
            cursor: 1
        })
    );
    assert_eq!(writer.cursor(), 1);
    assert_eq!(buffer, [7; 2]);
}

#[test]
fn refusal_6_is_of_a_long_buffer() {
    let long = vec![0; BUFFER_MAX + 1];
    assert_eq!(BitReader::new(&long[1..]).read_u8(1), Ok(0));
    assert_eq!(
        BitReader::new(&long).read_u8(1),
        Err(Refusal::BufferTooLong { length: 65537 })
    );
}

#[test]
fn raws_and_values() {
    let twelve = Field::new(Kind::Number, 12).signed();
    assert_eq!(value_of(twelve, 0x800), Ok(Value::I16(-2048)));
    assert_eq!(twelve.raw_of(Value::I64(-2048)), Ok(0x800));
    assert_eq!(
        twelve.raw_of(Value::I64(-2049)),
        Err(Refusal::OutOfRange { field: None })
    );
    assert_eq!(
        twelve.raw_of(Value::U8(0)),
        Err(Refusal::OtherKind { field: None })
    );
    assert_eq!(
        twelve.raw_of(Value::Bytes {
            bytes: &[],
            encoding: None
        }),
        Err(Refusal::OtherKind { field: None })
    );

    let eight = Field::new(Kind::Number, 8);
    let ones = eight.scale(0xFF).unwrap();
    assert_eq!(
        (ones.value, ones.availability, ones.elements),
        (Value::U8(255), Availability::NotAvailable, 0)
    );
    assert_eq!(eight.scale(3).unwrap().elements, 3);
    let scaled = eight.signed().scaled(Resolution::Double(1.0));
    assert_eq!(scaled.raw_of(Value::F64(-128.4)), Ok(0x80));
    assert_eq!(
        scaled.raw_of(Value::F32(-128.5)),
        Err(Refusal::OutOfRange { field: None })
    );
    assert_eq!(
        Field::new(Kind::Float, 32).raw_of(Value::F32(1.5)),
        Ok(0x3FC0_0000)
    );
}

#[test]
fn each_value_goes_out_and_comes_back() {
    let values = [
        (64, false, Value::U64(u64::MAX)),
        (32, false, Value::U32(u32::MAX)),
        (16, false, Value::U16(u16::MAX)),
        (8, false, Value::U8(u8::MAX)),
        (64, true, Value::I64(i64::MIN)),
        (32, true, Value::I32(i32::MIN)),
        (16, true, Value::I16(i16::MIN)),
        (8, true, Value::I8(i8::MIN)),
    ];
    for (width, signed, value) in values {
        let field = Field {
            signed,
            ..Field::new(Kind::Number, width)
        };
        assert_eq!(value_of(field, field.raw_of(value).unwrap()), Ok(value));
    }
}

/// The value of a raw.
fn value_of(field: Field, raw: u64) -> Result<Value<'static>, Refusal> {
    field.scale(raw).map(|scaled| scaled.value)
}

#[test]
fn a_field_without_a_number_is_refused() {
    let kinds = [
        Kind::Decimal,
        Kind::StringFix,
        Kind::StringLz,
        Kind::StringLau,
        Kind::Binary,
        Kind::Reserved,
        Kind::Spare,
        Kind::Unimplemented,
    ];
    for kind in kinds {
        for width in [0, 8, 64, 1784] {
            let field = Field::new(kind, width);
            let number = |refusal: Refusal| refusal.number();
            assert_eq!(value_of(field, 0).map_err(number), Err(11));
            assert_eq!(field.raw_of(Value::U8(0)).map_err(number), Err(11));
        }
    }
    let bits = Field::new(Kind::Binary, 9);
    assert_eq!(value_of(bits, 0x3FF), Ok(Value::U16(0x1FF)));
}

#[test]
fn a_width_of_no_number_is_refused() {
    for width in [0, 65, 257, u16::MAX] {
        let field = Field::new(Kind::Number, width);
        let refusal = Refusal::Width {
            field: None,
            maximum: 64,
            width: width.into(),
        };
        assert_eq!(value_of(field, 0), Err(refusal));
        assert_eq!(field.raw_of(Value::U8(0)), Err(refusal));
        assert_eq!(field.raw_of(Value::F32(0.0)), Err(refusal));
    }
    let twelve = Field::new(Kind::Number, 12);
    assert_eq!(value_of(twelve, 0x1001), Ok(Value::U16(1)));
}

#[test]
fn a_mark_that_is_neither_breaks_rule_d() {
    let single = Field::new(Kind::Number, 8).scaled(Resolution::Single(0.01));
    let bits = u64::from(0.01f32.to_bits()) << 32;
    let bare = Field::new(Kind::Number, 8).word();
    let skipped = Field::new(Kind::Reserved, 8).word();
    let broken = |words: &[u64]| Table::new(words).check();
    assert_eq!(broken(&[1, single.word()]), Ok(()));
    for word in [single.word() | 3 << 25, bits | bare, bits | skipped] {
        let refusal = Refusal::TableRefused {
            rule: Rule::D,
            index: 0,
        };
        assert_eq!(broken(&[1, word]), Err(refusal));
    }
}

#[test]
fn refusals_as_text() {
    let told = |refusal: Refusal| refusal.to_string();
    assert_eq!(
        told(Refusal::CutShort { field: 3 }),
        "refusal 4: field 3 is cut short"
    );
    assert_eq!(
        told(Refusal::BeyondBits {
            field: Some(1),
            asked: 16,
            available: 8
        }),
        "refusal 2: beyond the buffer: 16 bits asked, 8 available in field 1"
    );
    assert_eq!(
        told(Refusal::BeyondBytes {
            field: None,
            asked: 16,
            available: 8
        }),
        "refusal 2: beyond the buffer: 16 bytes asked, 8 available"
    );
    assert_eq!(
        told(Refusal::OutOfRange { field: None }),
        "refusal 10: a value out of its field's range"
    );
    assert_eq!(
        told(Refusal::Width {
            field: None,
            maximum: 64,
            width: 65
        }),
        "refusal 1: a width of 65, where 1 to 64 can be had"
    );
    let rule = Refusal::TableRefused {
        rule: Rule::H,
        index: 1,
    };
    assert_eq!(told(rule), "refusal 8: the table breaks rule h at 1");
    assert_eq!(Refusal::UnknownPgn { pgn: 129027 }.number(), 15);
}

#[test]
fn every_type_can_be_shown() {
    let mut decoder = samopute::Decoder::<3>::new();
    assert_eq!(format!("{decoder:?}"), "Decoder { room: 3, .. }");
    let decoded = decoder.decode_pgn(129029, &[7]);
    let told = format!("{decoded:?}");
    assert!(
        told.contains("[Reading { field: 0, ") && told.contains("value: U8(7)"),
        "{told}"
    );
    assert!(
        told.contains("Err(BeyondBits { field: Some(1), asked: 16, available: 0 })"),
        "{told}"
    );
    let encoder = samopute::Encoder::<2>::of(&[Value::U8(7)]).unwrap();
    assert_eq!(format!("{encoder:?}"), "Encoder { room: 2, count: 1, .. }");
}
