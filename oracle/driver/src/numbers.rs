//! Numbers: the value of a raw and the raw of a value, by field.
mod any_fields;
pub mod case;
pub mod cases;
pub mod compare;
pub mod differences;
pub mod oracles;
pub mod sample;
mod sides;
pub mod value_kinds;
mod values;
