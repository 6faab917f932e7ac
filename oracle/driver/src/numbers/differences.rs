//! Where the Rust is known to part from document 01 on numbers, told by the input alone. Such cases are
//! not compared with it; they are counted, and each reason has to show a case that does differ.
use super::case::{Call, Case};
use super::value_kinds::is_odd_nan;
use crate::tally;
use korri_n2k::core::scaled_value_fits_f32;
use model::numbers::{Field, Kind, Mark, Scale, Value, ValueKind, as_double};

#[derive(Clone, Copy, Debug, PartialEq, Eq, PartialOrd, Ord)]
pub enum Reason {
    Mark,
    MmsiZero,
    LookupWritten,
    UnitResolution,
    FloatTakes,
    FloatNan,
    FarBelow,
}

impl tally::Reason for Reason {
    const ALL: &'static [Reason] = &[
        Reason::Mark,
        Reason::MmsiZero,
        Reason::LookupWritten,
        Reason::UnitResolution,
        Reason::FloatTakes,
        Reason::FloatNan,
        Reason::FarBelow,
    ];
    const COUNTED: [&'static str; 2] = [" cases", ""];

    fn text(self) -> &'static str {
        match self {
            Reason::Mark => "f32 or f64 by width, sign and resolution, not by the mark",
            Reason::MmsiZero => "Mmsi of raw 0 is not available",
            Reason::LookupWritten => {
                "scaled or signed Lookup and IndirectLookup are written as plain unsigned"
            }
            Reason::UnitResolution => {
                "Date, Time and Mmsi of a resolution from 1 to below 2 are written unscaled"
            }
            Reason::FloatTakes => "Float takes f64 and signed integers",
            Reason::FloatNan => "Float keeps the bits of a NaN",
            Reason::FarBelow => {
                "a quotient of -2^127 or below is taken for 0 in unsigned fields of 54 to 64 bits"
            }
        }
    }
}

/// The reason why a case is not compared with the Rust, if there is one.
pub fn reason(case: &Case) -> Option<Reason> {
    match case.call {
        Call::Scale(raw) => reading(&case.field, raw),
        Call::RawOf(value) => writing(&case.field, value),
        Call::RawOfNone { .. } => None,
    }
}

fn reading(field: &Field, raw: u64) -> Option<Reason> {
    if field.scale.is_some_and(|scale| other_mark(field, scale)) {
        return Some(Reason::Mark);
    }
    (field.kind == Kind::Mmsi && raw == 0).then_some(Reason::MmsiZero)
}

/// Whether the Rust chooses otherwise than the mark. Time is an f64 on both sides.
pub fn other_mark(field: &Field, scale: Scale) -> bool {
    let single = scaled_value_fits_f32(field.width, field.signed, scale.resolution);
    field.kind != Kind::Time && single != (scale.mark == Mark::Single)
}

fn writing(field: &Field, value: Value) -> Option<Reason> {
    match (field.kind, field.scale) {
        (Kind::Float, _) => float(value),
        (Kind::Lookup | Kind::IndirectLookup, scale) => {
            (field.signed || scale.is_some()).then_some(Reason::LookupWritten)
        }
        (Kind::Date | Kind::Time | Kind::Mmsi, Some(scale))
            if (1.0..2.0).contains(&scale.resolution) =>
        {
            Some(Reason::UnitResolution)
        }
        (_, Some(scale)) => is_far_below(field, scale, value).then_some(Reason::FarBelow),
        (_, None) => None,
    }
}

fn float(value: Value) -> Option<Reason> {
    match value.kind {
        ValueKind::F32 => is_odd_nan(value).then_some(Reason::FloatNan),
        _ => as_double(value).map(|_| Reason::FloatTakes),
    }
}

fn is_far_below(field: &Field, scale: Scale, value: Value) -> bool {
    const FAR: f64 = -((1u128 << 127) as f64);
    let wide = field.width > 53 && !field.signed;
    wide && as_double(value).is_some_and(|value| {
        let quotient = value / f64::from(scale.resolution);
        quotient.is_finite() && quotient <= FAR
    })
}
