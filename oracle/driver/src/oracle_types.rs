//! The types of the two oracles, the Rust unchanged and the one with stand-ins. They are the same under two
//! names, so what makes and reads them is written once.
use model::numbers::{Field, Kind};

/// The raw that the Rust's descriptor says is "not available", chosen as document 01 has it.
fn sentinel(field: &Field) -> Option<i64> {
    let (_, largest) = model::numbers::limits(field.width, field.signed);
    let has_one = field.kind != Kind::Float && field.width >= 2;
    has_one.then_some(largest as i64)
}

macro_rules! types_of {
    ($krate:ident) => {
        use crate::oracle_types::sentinel;
        use ::$krate::core::{
            FieldDescriptor, FieldKind, PgnBytes, PgnDescriptor, PgnValue, RepeatingFieldSet,
        };
        use model::numbers::{Field, Kind, Value, ValueKind};

        fn kind(kind: Kind) -> FieldKind {
            match kind {
                Kind::Number => FieldKind::Number,
                Kind::Float => FieldKind::Float,
                Kind::Lookup => FieldKind::Lookup,
                Kind::IndirectLookup => FieldKind::IndirectLookup,
                Kind::BitLookup => FieldKind::BitLookup,
                Kind::Pgn => FieldKind::Pgn,
                Kind::Date => FieldKind::Date,
                Kind::Time => FieldKind::Time,
                Kind::Duration => FieldKind::Duration,
                Kind::Mmsi => FieldKind::Mmsi,
                Kind::Decimal => FieldKind::Decimal,
                Kind::StringFix => FieldKind::StringFix,
                Kind::StringLz => FieldKind::StringLz,
                Kind::StringLau => FieldKind::StringLau,
                Kind::Binary => FieldKind::Binary,
                Kind::Reserved => FieldKind::Reserved,
                Kind::Spare => FieldKind::Spare,
                Kind::IsoName => FieldKind::IsoName,
                Kind::Unimplemented => FieldKind::Unimplemented,
            }
        }

        /// A field of a kind and a width, of which nothing else is told.
        pub fn described(kind: FieldKind, width: Option<u32>) -> FieldDescriptor {
            FieldDescriptor {
                id: "field",
                name: "",
                kind,
                bits_length: width,
                bits_length_var: None,
                bits_offset: None,
                is_signed: None,
                resolution: None,
                enum_direct_name: None,
                enum_indirect_name: None,
                enum_indirect_field_order: None,
                physical_unit: None,
                physical_qtity: None,
                unknown_value: None,
                out_of_range_value: None,
                reserved_value: None,
            }
        }

        /// A field that holds a number.
        pub fn descriptor(field: &Field) -> FieldDescriptor {
            FieldDescriptor {
                is_signed: Some(field.signed),
                resolution: field.scale.map(|scale| scale.resolution),
                unknown_value: sentinel(field),
                ..described(kind(field.kind), Some(field.width))
            }
        }

        /// A table for the rest of the run: the Rust wants it that long.
        pub fn leaked(
            fields: Vec<FieldDescriptor>,
            sets: Vec<RepeatingFieldSet>,
            [length, min_length]: [Option<usize>; 2],
        ) -> &'static PgnDescriptor {
            Box::leak(Box::new(PgnDescriptor {
                id: 0,
                name: "",
                description: "",
                priority: None,
                fastpacket: false,
                length: length.map(|length| length as u16),
                min_length: min_length.map(|length| length as u16),
                field_count: None,
                trans_interval: None,
                trans_irregular: None,
                fields: fields.leak(),
                repeating_field_sets: sets.leak(),
            }))
        }

        pub fn from_rust(value: &PgnValue) -> Value {
            match *value {
                PgnValue::U64(v) => Value::whole(ValueKind::U64, v.into()),
                PgnValue::U32(v) => Value::whole(ValueKind::U32, v.into()),
                PgnValue::U16(v) => Value::whole(ValueKind::U16, v.into()),
                PgnValue::U8(v) => Value::whole(ValueKind::U8, v.into()),
                PgnValue::I64(v) => Value::whole(ValueKind::I64, v.into()),
                PgnValue::I32(v) => Value::whole(ValueKind::I32, v.into()),
                PgnValue::I16(v) => Value::whole(ValueKind::I16, v.into()),
                PgnValue::I8(v) => Value::whole(ValueKind::I8, v.into()),
                PgnValue::F64(v) => Value::double(v),
                PgnValue::F32(v) => Value::single(v),
                PgnValue::Bytes(_) | PgnValue::Ignored => panic!("no number was read"),
            }
        }

        pub fn to_rust(value: Value) -> PgnValue {
            let bits = value.bits;
            match value.kind {
                ValueKind::U64 => PgnValue::U64(bits),
                ValueKind::U32 => PgnValue::U32(bits as u32),
                ValueKind::U16 => PgnValue::U16(bits as u16),
                ValueKind::U8 => PgnValue::U8(bits as u8),
                ValueKind::I64 => PgnValue::I64(bits as i64),
                ValueKind::I32 => PgnValue::I32(bits as i32),
                ValueKind::I16 => PgnValue::I16(bits as i16),
                ValueKind::I8 => PgnValue::I8(bits as i8),
                ValueKind::F64 => PgnValue::F64(f64::from_bits(bits)),
                ValueKind::F32 => PgnValue::F32(f32::from_bits(bits as u32)),
                ValueKind::Bytes => PgnValue::Bytes(PgnBytes::new()),
            }
        }
    };
}

/// The Rust unchanged.
pub mod rust {
    types_of!(korri_n2k);
}

/// The Rust with stand-ins.
pub mod standin {
    types_of!(standin);
}
