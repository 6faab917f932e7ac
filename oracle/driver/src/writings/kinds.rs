//! What a kind of field takes.
use model::numbers::Kind;
use model::tables::Field;

/// All but Reserved and Spare take a value.
pub fn takes_value(field: &Field) -> bool {
    !matches!(field.kind, Kind::Reserved | Kind::Spare)
}

/// Whether a field takes bytes.
pub fn is_bytes(field: &Field) -> bool {
    match field.kind {
        Kind::StringFix | Kind::StringLz | Kind::StringLau => true,
        Kind::Binary => field.width.is_some_and(|width| width.is_multiple_of(8)),
        _ => false,
    }
}
