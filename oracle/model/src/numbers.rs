//! Document 01's rules c to e for one number field, "Raw numbers and floats", and the availability of
//! "Reading a payload". Whole numbers are `i128`, where none overflows; a float is cut by its bits.
//!
//! A field may be any: of a kind without a number, of any width, with a mark that is none. `scale` and
//! `raw_of` refuse the first two; the third is a factor that is no number.
use crate::WIDTH_MAX;

/// The kinds of field, in the order of the Rust's `FieldKind`.
#[derive(Clone, Copy, Debug, PartialEq, Eq, PartialOrd, Ord)]
pub enum Kind {
    Number,
    Float,
    Lookup,
    IndirectLookup,
    BitLookup,
    Pgn,
    Date,
    Time,
    Duration,
    Mmsi,
    Decimal,
    StringFix,
    StringLz,
    StringLau,
    Binary,
    Reserved,
    Spare,
    IsoName,
    Unimplemented,
}

/// Whether a scaled value is an f32 or an f64. Rule d wants one of these with every resolution: another
/// mark, or none beside a resolution, is broken.
#[derive(Clone, Copy, Debug, PartialEq, Eq)]
pub enum Mark {
    Single,
    Double,
    Broken,
}

/// A resolution, with its mark.
#[derive(Clone, Copy, Debug, PartialEq)]
pub struct Scale {
    pub mark: Mark,
    pub resolution: f32,
}

/// The resolution that a mark's number and a float's bits are. None is no mark and no bits.
pub fn scale_of(mark: u32, bits: u32) -> Option<Scale> {
    let resolution = f32::from_bits(bits);
    let mark = match (mark, bits) {
        (0, 0) => return None,
        (1, _) => Mark::Single,
        (2, _) => Mark::Double,
        _ => Mark::Broken,
    };
    Some(Scale { mark, resolution })
}

impl Scale {
    /// What a number is multiplied by. That of a broken mark is no number.
    fn factor(self) -> f32 {
        match self.mark {
            Mark::Single | Mark::Double => self.resolution,
            Mark::Broken => f32::NAN,
        }
    }
}

/// A field, to be read or written as a number.
#[derive(Clone, Copy, Debug, PartialEq)]
pub struct Field {
    pub kind: Kind,
    pub width: u32,
    pub signed: bool,
    pub scale: Option<Scale>,
}

/// The kinds of value, in the order of the Rust's `PgnValue`.
#[derive(Clone, Copy, Debug, PartialEq, Eq, PartialOrd, Ord)]
pub enum ValueKind {
    U64,
    U32,
    U16,
    U8,
    I64,
    I32,
    I16,
    I8,
    F64,
    F32,
    Bytes,
}

/// A value. A signed number is in two's complement of 64 bits, a float is its bits, bytes are none.
#[derive(Clone, Copy, Debug, PartialEq, Eq)]
pub struct Value {
    pub kind: ValueKind,
    pub bits: u64,
}

/// The refusals of a field, or of a value for it.
#[derive(Clone, Copy, Debug, PartialEq, Eq)]
pub enum Refusal {
    /// 1: the width of no number. It carries the widest, too.
    Width(u32),
    OutOfRange,
    OtherKind,
}

impl Refusal {
    /// The paper's number.
    pub fn number(self) -> u32 {
        match self {
            Refusal::Width(_) => 1,
            Refusal::OutOfRange => 10,
            Refusal::OtherKind => 11,
        }
    }

    /// What it carries, then 0.
    pub fn carried(self) -> [u64; 2] {
        match self {
            Refusal::Width(width) => [WIDTH_MAX.into(), width.into()],
            Refusal::OutOfRange | Refusal::OtherKind => [0, 0],
        }
    }
}

/// The bits that stand for every NaN.
pub const NAN_32: u32 = 0x7FC0_0000;
pub const NAN_64: u64 = 0x7FF8_0000_0000_0000;

/// The ends of rule d.
pub const RESOLUTION_MIN: f32 = 1.0 / (1u128 << 64) as f32;
pub const RESOLUTION_MAX: f32 = (1 << 20) as f32;

/// The widest number that an f64 tells from its neighbours.
const EXACT_BITS: u32 = 53;

impl Value {
    pub fn single(float: f32) -> Value {
        let bits = if float.is_nan() {
            NAN_32
        } else {
            float.to_bits()
        };
        Value {
            kind: ValueKind::F32,
            bits: bits.into(),
        }
    }

    pub fn double(float: f64) -> Value {
        let bits = if float.is_nan() {
            NAN_64
        } else {
            float.to_bits()
        };
        Value {
            kind: ValueKind::F64,
            bits,
        }
    }

    /// A whole number as one of the eight integer kinds.
    pub fn whole(kind: ValueKind, number: i128) -> Value {
        Value {
            kind,
            bits: number as u64,
        }
    }
}

/// Whether a table may hold the field as a number: rules b, c, d and e.
pub fn is_allowed(field: &Field) -> bool {
    holds_number(field) && width_fits(field) && scale_fits(field) && sign_fits(field)
}

/// The kinds whose raw is a number. A Binary of whole bytes is bytes.
fn holds_number(field: &Field) -> bool {
    match field.kind {
        Kind::Binary => !field.width.is_multiple_of(8),
        Kind::Float | Kind::BitLookup => true,
        kind => takes_resolution(kind),
    }
}

/// Rule c, and the widths that rule e gives Date and Mmsi.
fn width_fits(field: &Field) -> bool {
    match field.kind {
        Kind::Float => field.width == 32,
        Kind::Date | Kind::Mmsi if field.scale.is_none() => [16, 32].contains(&field.width),
        _ => is_a_width(field.width),
    }
}

/// The widths of a number.
fn is_a_width(width: u32) -> bool {
    (1..=WIDTH_MAX).contains(&width)
}

/// Rule d. A NaN, which a broken mark is too, is in no range.
fn scale_fits(field: &Field) -> bool {
    field.scale.is_none_or(|scale| {
        takes_resolution(field.kind) && (RESOLUTION_MIN..=RESOLUTION_MAX).contains(&scale.factor())
    })
}

/// Rule e.
fn sign_fits(field: &Field) -> bool {
    !field.signed || takes_sign(field)
}

fn takes_sign(field: &Field) -> bool {
    is_plain(field.kind) || (field.kind == Kind::Duration && field.scale.is_some())
}

/// Whether the numbers of a field are signed. The sign of a kind that takes none says nothing of them.
fn is_signed(field: &Field) -> bool {
    field.signed && takes_sign(field)
}

/// The resolution of a field. That of a kind that takes none says nothing.
fn resolution(field: &Field) -> Option<Scale> {
    field.scale.filter(|_| takes_resolution(field.kind))
}

/// The first five kinds of rule d.
pub fn is_plain(kind: Kind) -> bool {
    matches!(
        kind,
        Kind::Number | Kind::Lookup | Kind::IndirectLookup | Kind::Pgn | Kind::IsoName
    )
}

fn takes_resolution(kind: Kind) -> bool {
    is_plain(kind) || matches!(kind, Kind::Date | Kind::Mmsi | Kind::Duration | Kind::Time)
}

/// All ones of a width.
fn all_ones(width: u32) -> u64 {
    ((1u128 << width) - 1) as u64
}

/// The smallest and the largest number that a field of this width and sign means.
pub fn limits(width: u32, signed: bool) -> (i128, i128) {
    if signed {
        let half = 1i128 << (width - 1);
        (-half, half - 1)
    } else {
        (0, all_ones(width).into())
    }
}

/// The number that a raw means: signed with its top bit set, raw - 2^n.
pub fn meant(raw: u64, width: u32, signed: bool) -> i128 {
    let raw = i128::from(raw);
    let (_, largest) = limits(width, signed);
    if raw > largest {
        raw - (1i128 << width)
    } else {
        raw
    }
}

/// A field that has no numbers is of another kind than every one: 11. Then its width: 1.
fn admitted(field: &Field) -> Result<(), Refusal> {
    if !holds_number(field) {
        return Err(Refusal::OtherKind);
    }
    if !is_a_width(field.width) {
        return Err(Refusal::Width(field.width));
    }
    Ok(())
}

/// What a raw is: its value, whether it is available, and the elements that it means as a counter.
#[derive(Clone, Copy, Debug, PartialEq, Eq)]
pub struct Scaled {
    pub value: Value,
    pub available: bool,
    pub elements: u64,
}

/// What a raw of any field is.
pub fn scale(field: &Field, raw: u64) -> Result<Scaled, Refusal> {
    admitted(field)?;
    Ok(Scaled {
        value: value(field, raw),
        available: is_available(field, raw),
        elements: elements(field.width, raw),
    })
}

/// Whether a raw of a field of 1 to 64 bits says that there is a value, by its low bits.
pub fn is_available(field: &Field, raw: u64) -> bool {
    let raw = raw & all_ones(field.width);
    if field.kind == Kind::Float {
        return !f32::from_bits(raw as u32).is_nan();
    }
    let (_, largest) = limits(field.width, field.signed);
    field.width < 2 || i128::from(raw) != largest
}

/// How many elements a counter's raw means, by its low bits: all ones is 0, at every width.
pub fn elements(width: u32, raw: u64) -> u64 {
    let raw = raw & all_ones(width);
    if raw == all_ones(width) { 0 } else { raw }
}

/// The value of a raw of a field of 1 to 64 bits, by its low bits.
pub fn value(field: &Field, raw: u64) -> Value {
    let raw = raw & all_ones(field.width);
    if field.kind == Kind::Float {
        return Value::single(f32::from_bits(raw as u32));
    }
    let number = meant(raw, field.width, is_signed(field));
    match resolution(field) {
        Some(scale) => scaled(field.kind, scale, number),
        None => Value::whole(whole_kind(field), number),
    }
}

/// A number times the resolution. Whole number to float rounds to nearest, ties to even, as Rust's
/// own casts do. A broken mark is not double.
fn scaled(kind: Kind, scale: Scale, number: i128) -> Value {
    let factor = scale.factor();
    let double = number as f64 * f64::from(factor);
    match (kind, scale.mark) {
        (Kind::Time, _) | (_, Mark::Double) => Value::double(double),
        (kind, _) if is_plain(kind) => Value::single(number as f32 * factor),
        _ => Value::single(double as f32),
    }
}

/// The integer kind that the width fits. Duration starts at 16 bits, Time is 64.
fn whole_kind(field: &Field) -> ValueKind {
    let least = match field.kind {
        Kind::Duration => 16,
        Kind::Time => 64,
        _ => 8,
    };
    match (field.width.max(least), is_signed(field)) {
        (..=8, false) => ValueKind::U8,
        (..=8, true) => ValueKind::I8,
        (..=16, false) => ValueKind::U16,
        (..=16, true) => ValueKind::I16,
        (..=32, false) => ValueKind::U32,
        (..=32, true) => ValueKind::I32,
        (_, false) => ValueKind::U64,
        (_, true) => ValueKind::I64,
    }
}

/// The raw that a value writes into the field. Order: the field's 11, 1, the value's 11, 10.
pub fn raw_of(field: &Field, value: Value) -> Result<u64, Refusal> {
    admitted(field)?;
    let signed = is_signed(field);
    let number = match (field.kind, resolution(field)) {
        (Kind::Float, _) => return float_raw(value),
        (_, Some(scale)) => {
            let value = as_double(value).ok_or(Refusal::OtherKind)?;
            quantized(value, scale.factor(), field.width, signed)
        }
        (_, None) => {
            let number = as_whole(value, signed).ok_or(Refusal::OtherKind)?;
            let (smallest, largest) = limits(field.width, signed);
            (smallest <= number && number <= largest).then_some(number)
        }
    };
    let number = number.ok_or(Refusal::OutOfRange)?;
    Ok(number as u64 & all_ones(field.width))
}

/// A Float field takes an f32 and writes its bits, all 32 of them whatever its width.
fn float_raw(value: Value) -> Result<u64, Refusal> {
    if value.kind != ValueKind::F32 {
        return Err(Refusal::OtherKind);
    }
    Ok(Value::single(f32::from_bits(value.bits as u32)).bits)
}

/// Floats and signed integers, as an f64.
pub fn as_double(value: Value) -> Option<f64> {
    match value.kind {
        ValueKind::F64 => Some(f64::from_bits(value.bits)),
        ValueKind::F32 => Some(f64::from(f32::from_bits(value.bits as u32))),
        _ => as_whole(value, true).map(|number| number as f64),
    }
}

/// Integers of the given sign.
pub fn as_whole(value: Value, signed: bool) -> Option<i128> {
    match value.kind {
        ValueKind::U64 | ValueKind::U32 | ValueKind::U16 | ValueKind::U8 if !signed => {
            Some(value.bits.into())
        }
        ValueKind::I64 | ValueKind::I32 | ValueKind::I16 | ValueKind::I8 if signed => {
            Some(meant(value.bits, 64, true))
        }
        _ => None,
    }
}

/// The number nearest to value / resolution, or none if it is out of range.
pub fn quantized(value: f64, resolution: f32, width: u32, signed: bool) -> Option<i128> {
    let quotient = value / f64::from(resolution);
    if !quotient.is_finite() {
        return None;
    }
    let half = if quotient >= 0.0 { 0.5 } else { -0.5 };
    let number = cut(quotient + half)?;
    let (smallest, largest) = limits(width, signed);
    let nearest = number.clamp(smallest, largest);
    let spacing = match width.checked_sub(EXACT_BITS) {
        None | Some(0) => 0,
        Some(bits) => 1i128 << bits,
    };
    ((number - nearest).abs() <= spacing).then_some(nearest)
}

/// A finite float cut toward zero, worked out from its bits; none from 2^116 on, far out of any range.
fn cut(float: f64) -> Option<i128> {
    let bits = float.to_bits();
    let exponent = (bits >> 52 & 0x7FF) as i32;
    let fraction = i128::from(bits & ((1 << 52) - 1));
    // Below 2^-1022 the leading one is missing; all those are cut to 0 like the numbers just above.
    let mantissa = fraction | 1 << 52;
    let size = match exponent - 1075 {
        64.. => return None,
        up @ 0..64 => mantissa << up,
        down @ -63..0 => mantissa >> -down,
        _ => 0,
    };
    Some(if float.is_sign_negative() {
        -size
    } else {
        size
    })
}
