//! The engine's private functions as they are, for callers outside.
use super::*;

pub fn pad_to_min_length<'a>(
    payload: &'a [u8],
    descriptor: &'static PgnDescriptor,
    padded: &'a mut [u8; MAX_PGN_BYTES],
) -> &'a [u8] {
    super::pad_to_min_length(payload, descriptor, padded)
}

pub fn repeating_group_count(
    descriptor: &'static PgnDescriptor,
    rfs: &'static RepeatingFieldSet,
    counter_raw: Option<usize>,
    bits_remaining: usize,
) -> Result<usize, DeserializationError> {
    super::repeating_group_count(descriptor, rfs, counter_raw, bits_remaining)
}

pub fn field_availability(
    field_desc: &'static FieldDescriptor,
    raw: Option<u64>,
    value: &PgnValue,
) -> Availability {
    super::field_availability(field_desc, raw, value)
}

#[allow(clippy::type_complexity)]
pub fn read_field_raw_and_value(
    reader: &mut BitReader,
    field_desc: &'static FieldDescriptor,
    may_stop_early: bool,
) -> Result<Option<(Option<u64>, PgnValue)>, DeserializationError> {
    super::read_field_raw_and_value(reader, field_desc, may_stop_early)
}

pub fn scale_raw_field(
    raw_val: u64,
    field_desc: &'static FieldDescriptor,
) -> Result<PgnValue, DeserializationError> {
    super::scale_raw_field(raw_val, field_desc)
}

pub fn write_field(
    writer: &mut BitWriter,
    field_desc: &'static FieldDescriptor,
    value: &PgnValue,
) -> Result<(), SerializationError> {
    super::write_field(writer, field_desc, value)
}

pub fn quantize(
    field_desc: &'static FieldDescriptor,
    value: f64,
    resolution: f32,
    bits: u32,
    signed: bool,
) -> Result<u64, SerializationError> {
    super::quantize(field_desc, value, resolution, bits, signed)
}

pub fn pgn_value_to_f64(value: &PgnValue) -> Result<f64, CodecError> {
    super::pgn_value_to_f64(value)
}

pub fn pgn_value_to_i64(value: &PgnValue) -> Result<i64, CodecError> {
    super::pgn_value_to_i64(value)
}

pub fn pgn_value_to_u64(value: &PgnValue) -> Result<u64, CodecError> {
    super::pgn_value_to_u64(value)
}

pub fn sign_extend(value: u64, bits: u8) -> i64 {
    super::sign_extend(value, bits)
}
