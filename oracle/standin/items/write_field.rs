/// Writes a value by document 01's "Writing a payload". Checks come in the paper's order (11, then 10
/// or 13, then 3, then 2) and before the first bit, and each field is one call of the writer, so a
/// refused field leaves no bit and refusal 2 counts the whole field.
fn write_field(
    writer: &mut BitWriter,
    field_desc: &'static FieldDescriptor,
    value: &PgnValue,
) -> Result<(), SerializationError> {
    match field_desc.kind {
        // Skipped fields stay ones, as the buffer was filled.
        FieldKind::Reserved | FieldKind::Spare => writer
            .advance(declared_bits(field_desc)? as u8)
            .map_err(|err| SerializationError::BitWriteError { err }),
        FieldKind::StringFix => write_string_fix(writer, field_desc, value),
        FieldKind::StringLz => write_string_lz(writer, value),
        FieldKind::StringLau => write_string_lau(writer, value),
        FieldKind::Binary if declared_bits(field_desc)? % 8 == 0 => {
            write_whole_bytes(writer, field_desc, value)
        }
        FieldKind::Decimal | FieldKind::Unimplemented => {
            Err(SerializationError::UnsupportedFieldKind)
        }
        _ => write_number(writer, field_desc, value),
    }
}

fn declared_bits(field_desc: &'static FieldDescriptor) -> Result<u32, SerializationError> {
    let field_name = field_desc.id;
    field_desc
        .bits_length
        .ok_or(SerializationError::InvalidFieldBits { field_name })
}

/// A Float takes an f32; a scaled field floats and signed integers; an unscaled one integers of its
/// sign.
fn write_number(
    writer: &mut BitWriter,
    field_desc: &'static FieldDescriptor,
    value: &PgnValue,
) -> Result<(), SerializationError> {
    let bits = declared_bits(field_desc)?;
    let signed = field_desc.is_signed == Some(true);
    let other_kind = |source| SerializationError::CodecError { source };
    let raw = match (field_desc.kind, field_desc.resolution) {
        (FieldKind::Float, _) => float_bits(value)?,
        (_, Some(resolution)) => {
            let value = pgn_value_to_f64(value).map_err(other_kind)?;
            scaled_raw(field_desc, value, resolution, bits, signed)?
        }
        (_, None) => {
            let value: i128 = if signed {
                pgn_value_to_i64(value).map_err(other_kind)?.into()
            } else {
                pgn_value_to_u64(value).map_err(other_kind)?.into()
            };
            return write_integer(writer, field_desc, value, bits, signed);
        }
    };
    writer
        .write_u64(raw, bits as u8)
        .map_err(|err| SerializationError::BitWriteError { err })
}

/// The bits of an f32. There is one NaN, with the bits that follow.
fn float_bits(value: &PgnValue) -> Result<u64, SerializationError> {
    const NAN: u64 = 0x7FC0_0000;
    match value {
        PgnValue::F32(float) if float.is_nan() => Ok(NAN),
        PgnValue::F32(float) => Ok(float.to_bits().into()),
        _ => Err(other_kind_than_bytes_or_f32(value)),
    }
}

/// What `quantize` answers, except far below: its cast stops at -2^127, from where the distance to
/// the limit 0 overflows, and in a wide unsigned field it then answers 0. Out of range is 10.
fn scaled_raw(
    field_desc: &'static FieldDescriptor,
    value: f64,
    resolution: f32,
    bits: u32,
    signed: bool,
) -> Result<u64, SerializationError> {
    const FAR_BELOW: f64 = -((1u128 << 126) as f64);
    if value / resolution as f64 <= FAR_BELOW {
        let field_id = field_desc.id;
        return Err(SerializationError::ValueOutOfRange { field_id });
    }
    quantize(field_desc, value, resolution, bits, signed)
}

fn other_kind_than_bytes_or_f32(value: &PgnValue) -> SerializationError {
    SerializationError::CodecError {
        source: CodecError::DataTypeMismatch {
            value_kind: value.kind(),
            func: "write_field",
        },
    }
}

/// The longest text of an LZ or LAU string: with the two bytes around it, it makes 223.
const MAX_TEXT_BYTES: usize = MAX_PGN_BYTES - 2;

fn bytes_of(value: &PgnValue) -> Result<&[u8], SerializationError> {
    match value {
        PgnValue::Bytes(bytes) => pgn_bytes_slice(bytes),
        _ => Err(other_kind_than_bytes_or_f32(value)),
    }
}

/// Text up to the field's size, filled with 0xFF.
fn write_string_fix(
    writer: &mut BitWriter,
    field_desc: &'static FieldDescriptor,
    value: &PgnValue,
) -> Result<(), SerializationError> {
    let text = bytes_of(value)?;
    let size = (declared_bits(field_desc)? / 8) as usize;
    if text.len() > size {
        return Err(SerializationError::InvalidData);
    }
    let mut field = [0xFF; MAX_PGN_BYTES];
    field[..text.len()].copy_from_slice(text);
    write_aligned(writer, &field[..size], 0)
}

/// Bytes of just the field's size.
fn write_whole_bytes(
    writer: &mut BitWriter,
    field_desc: &'static FieldDescriptor,
    value: &PgnValue,
) -> Result<(), SerializationError> {
    let bytes = bytes_of(value)?;
    if bytes.len() * 8 != declared_bits(field_desc)? as usize {
        return Err(SerializationError::InvalidData);
    }
    write_aligned(writer, bytes, 0)
}

/// Length, text, zero. An empty text needs no alignment.
fn write_string_lz(writer: &mut BitWriter, value: &PgnValue) -> Result<(), SerializationError> {
    let text = bytes_of(value)?;
    if text.len() > MAX_TEXT_BYTES {
        return Err(SerializationError::InvalidData);
    }
    if text.is_empty() {
        return writer
            .write_u64(0, 16)
            .map_err(|err| SerializationError::BitWriteError { err });
    }
    let mut field = [0; MAX_PGN_BYTES];
    field[0] = text.len() as u8;
    field[1..=text.len()].copy_from_slice(text);
    write_aligned(writer, &field[..text.len() + 2], 8)
}

/// Length, encoding, text; for an absent text (no byte at all) the length 1 alone. The value holds
/// the encoding byte before the text.
fn write_string_lau(writer: &mut BitWriter, value: &PgnValue) -> Result<(), SerializationError> {
    let refused = |err| SerializationError::BitWriteError { err };
    let Some((&encoding, text)) = bytes_of(value)?.split_first() else {
        return writer.write_u64(1, 8).map_err(refused);
    };
    if text.len() > MAX_TEXT_BYTES {
        return Err(SerializationError::InvalidData);
    }
    if text.is_empty() {
        let field = u64::from(encoding) << 8 | 2;
        return writer.write_u64(field, 16).map_err(refused);
    }
    let mut field = [0; MAX_PGN_BYTES];
    field[0] = text.len() as u8 + 2;
    field[1] = encoding;
    field[2..text.len() + 2].copy_from_slice(text);
    write_aligned(writer, &field[..text.len() + 2], 16)
}

/// Writes a field of whole bytes. `text_at` is where in the field, in bits, its text starts: refusal 3
/// names the cursor of the byte slice. Refusal 2 counts bits for the whole field.
fn write_aligned(
    writer: &mut BitWriter,
    field: &[u8],
    text_at: usize,
) -> Result<(), SerializationError> {
    use crate::error::BitWriterError;
    let start = writer.bit_cursor();
    let err = match writer.write_slice(field) {
        Ok(()) => return Ok(()),
        Err(BitWriterError::NonAlignedBit { cursor }) => BitWriterError::NonAlignedBit {
            cursor: cursor + text_at,
        },
        Err(BitWriterError::OutOfBounds { available, .. }) => BitWriterError::OutOfBounds {
            asked: field.len() * 8,
            available: available * 8 - start,
        },
        Err(other) => other,
    };
    Err(SerializationError::BitWriteError { err })
}
