//! Fields, sets and tables written out, and the built-in tables.
use model::numbers::{Kind, Mark, Scale};
use model::tables::{Field, Set, Table};

/// Texts and bytes by short names.
pub const FIX: Kind = Kind::StringFix;
pub const LZ: Kind = Kind::StringLz;
pub const LAU: Kind = Kind::StringLau;
pub const BINARY: Kind = Kind::Binary;

pub fn field(kind: Kind, width: u32) -> Field {
    Field {
        width: Some(width),
        ..bare(kind)
    }
}

/// A field without a width.
pub fn bare(kind: Kind) -> Field {
    Field {
        kind,
        width: None,
        signed: false,
        scale: None,
    }
}

pub fn number(width: u32) -> Field {
    field(Kind::Number, width)
}

pub fn signed(field: Field) -> Field {
    Field {
        signed: true,
        ..field
    }
}

pub fn single(field: Field, resolution: f32) -> Field {
    let mark = Mark::Single;
    let scale = Some(Scale { mark, resolution });
    Field { scale, ..field }
}

pub fn double(field: Field, resolution: f32) -> Field {
    let mark = Mark::Double;
    let scale = Some(Scale { mark, resolution });
    Field { scale, ..field }
}

/// With a mark that is neither single nor double.
pub fn mismarked(field: Field, resolution: f32) -> Field {
    let mark = Mark::Broken;
    let scale = Some(Scale { mark, resolution });
    Field { scale, ..field }
}

pub fn set(start: usize, size: usize, counter: usize, maximum: usize) -> Set {
    Set {
        start,
        size,
        counter,
        maximum,
    }
}

pub fn table(fields: &[Field], sets: &[Set]) -> Table {
    Table {
        fields: fields.to_vec(),
        sets: sets.to_vec(),
        length: None,
        minimum: None,
    }
}

/// A table with a length and a minimum, 0 if it has none.
pub fn sized(length: usize, minimum: usize, fields: &[Field]) -> Table {
    let given = |bytes: usize| (bytes > 0).then_some(bytes);
    Table {
        length: given(length),
        minimum: given(minimum),
        ..table(fields, &[])
    }
}

/// The PGNs that are built in.
pub const PGNS: [u32; 4] = [129_025, 129_026, 129_029, 130_900];

/// The built-in tables with their PGNs.
pub fn by_pgn() -> impl Iterator<Item = (u32, Table)> {
    PGNS.into_iter().zip(all())
}

/// Whether the table is the one that is built in for the PGN.
pub fn is_table_of(pgn: u32, table: &Table) -> bool {
    by_pgn().any(|(known, of)| known == pgn && of == *table)
}

/// The built-in tables.
pub fn all() -> [Table; 4] {
    [
        table_129025(),
        table_129026(),
        table_129029(),
        table_130900(),
    ]
}

/// A position.
pub fn table_129025() -> Table {
    let degrees = double(signed(number(32)), 1e-7);
    table(&[degrees, degrees], &[])
}

/// COG and SOG: document 01.
pub fn table_129026() -> Table {
    let fields = [
        number(8),
        field(Kind::Lookup, 2),
        field(Kind::Reserved, 6),
        single(number(16), 0.0001),
        single(number(16), 0.01),
        field(Kind::Reserved, 16),
    ];
    table(&fields, &[])
}

/// A position by satellite, with its reference stations.
pub fn table_129029() -> Table {
    let fields = [
        number(8),
        field(Kind::Date, 16),
        double(field(Kind::Time, 32), 0.0001),
        double(signed(number(64)), 1e-16),
        double(signed(number(64)), 1e-16),
        double(signed(number(64)), 1e-6),
        field(Kind::Lookup, 4),
        field(Kind::Lookup, 4),
        field(Kind::Lookup, 2),
        field(Kind::Reserved, 6),
        number(8),
        single(signed(number(16)), 0.01),
        single(signed(number(16)), 0.01),
        double(signed(number(32)), 0.01),
        number(8),
        field(Kind::Lookup, 4),
        number(12),
        single(field(Kind::Duration, 16), 0.01),
    ];
    table(&fields, &[set(15, 3, 14, 45)])
}

/// Ours: document 01. The kinds of the first and the third field are open.
pub fn table_130900() -> Table {
    let sample = double(signed(number(32)), 0.001);
    let fields = [
        field(Kind::Lookup, 11),
        field(Kind::Reserved, 2),
        field(Kind::Lookup, 3),
        number(8),
        sample,
        sample,
        sample,
        field(Kind::Reserved, 8),
    ];
    table(&fields, &[])
}
