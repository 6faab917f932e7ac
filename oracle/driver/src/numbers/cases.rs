//! The cases on numbers: every field that the table rules allow, at chosen and random resolutions, with
//! raws at the limits, halfway between floats, and at random.
use crate::random::Random;
use model::numbers::{Field, Kind, Mark, RESOLUTION_MAX, RESOLUTION_MIN, Scale, is_allowed};

/// The kinds whose raw is a number.
pub const KINDS: [Kind; 12] = [
    Kind::Number,
    Kind::Float,
    Kind::Lookup,
    Kind::IndirectLookup,
    Kind::BitLookup,
    Kind::Pgn,
    Kind::Date,
    Kind::Time,
    Kind::Duration,
    Kind::Mmsi,
    Kind::Binary,
    Kind::IsoName,
];

/// How much is asked at random beside what is fixed.
#[derive(Clone, Copy)]
pub struct Amount {
    /// Resolutions of each width, sign and mark.
    pub resolutions: usize,
    /// Raws and values of each field.
    pub inputs: usize,
}

/// Every raw is asked up to this width.
const EVERY_RAW: u32 = 8;

/// How many times the inputs a field without resolution gets: it stands for all resolutions.
const UNSCALED: usize = 25;

/// Resolutions of each width, sign and mark, given by their bits: both ends with their neighbours,
/// powers of two, around 1 and 2, where the Rust changes its ways, the decimal ones of real fields, and
/// one whose f32 products do not come back (document 02, §8).
const RESOLUTIONS: [u32; 22] = [
    0x1F80_0000, // 2^-64
    0x1F80_0001,
    0x497F_FFFF,
    0x4980_0000, // 2^20
    0x2F80_0000, // 2^-32
    0x3A80_0000, // 2^-10
    0x3F00_0000, // 0.5
    0x3F7F_FFFF,
    0x3F80_0000, // 1
    0x3F80_0001,
    0x3FFF_FFFF,
    0x4000_0000, // 2
    0x4580_0000, // 2^12
    0x24E6_9595, // 1e-16
    0x33D6_BF95, // 1e-7
    0x3586_37BD, // 1e-6
    0x38D1_B717, // 0.0001
    0x3A83_126F, // 0.001
    0x3C23_D70A, // 0.01
    0x3DCC_CCCD, // 0.1
    0x40A0_0000, // 5
    0x46FF_F836, // 32764.105
];

/// Every field of a kind that the table rules allow.
pub fn fields(kind: Kind, amount: Amount, random: &mut Random) -> Vec<Field> {
    let mut all = Vec::new();
    for width in 1..=64 {
        for signed in [false, true] {
            let field = Field {
                kind,
                width,
                signed,
                scale: None,
            };
            all.push(field);
            for mark in [Mark::Single, Mark::Double] {
                let scales =
                    resolutions(amount, random).map(|resolution| Scale { mark, resolution });
                all.extend(scales.map(|scale| Field {
                    scale: Some(scale),
                    ..field
                }));
            }
        }
    }
    all.retain(is_allowed);
    all
}

fn resolutions(amount: Amount, random: &mut Random) -> impl Iterator<Item = f32> {
    let chosen = RESOLUTIONS.into_iter().map(f32::from_bits);
    chosen.chain((0..amount.resolutions).map(|_| any_resolution(random)))
}

/// A resolution of any size and mantissa.
pub fn any_resolution(random: &mut Random) -> f32 {
    let (low, high) = (RESOLUTION_MIN.to_bits(), RESOLUTION_MAX.to_bits());
    f32::from_bits(low + random.up_to((high - low) as usize) as u32)
}

/// A field of a kind, of any width, sign and scale that the table rules allow.
pub fn any_field(kind: Kind, random: &mut Random) -> Field {
    loop {
        let field = Field {
            kind,
            width: 1 + random.up_to(63) as u32,
            signed: random.up_to(1) == 1,
            scale: any_scale(random),
        };
        if is_allowed(&field) {
            return field;
        }
    }
}

fn any_scale(random: &mut Random) -> Option<Scale> {
    let mark = random.among(&[None, Some(Mark::Single), Some(Mark::Double)])?;
    let resolution = match random.up_to(1) {
        0 => f32::from_bits(random.among(&RESOLUTIONS)),
        _ => any_resolution(random),
    };
    Some(Scale { mark, resolution })
}

/// Raws of a field: at the limits, halfway between floats, and at random.
pub fn raws(field: &Field, amount: Amount, random: &mut Random) -> Vec<u64> {
    if field.kind == Kind::Float {
        return float_bits(amount, random).map(u64::from).collect();
    }
    let all_ones = u64::MAX >> (64 - field.width);
    if field.width <= EVERY_RAW {
        return (0..=all_ones).collect();
    }
    let top = 1u64 << (field.width - 1);
    let mut all = vec![
        0,
        1,
        2,
        top - 1,
        top,
        top + 1,
        top.saturating_sub(2),
        all_ones,
        all_ones - 1,
    ];
    for digits in [24, 53] {
        all.extend(halfway(field, digits, random));
    }
    for _ in 0..inputs(field, amount) {
        all.push(random.next());
        all.push(random.of_any_length());
    }
    all.iter().map(|raw| raw & all_ones).collect()
}

/// The random inputs of a field.
pub fn inputs(field: &Field, amount: Amount) -> usize {
    match field.scale {
        Some(_) => amount.inputs,
        None => amount.inputs * UNSCALED,
    }
}

/// Raws whose numbers lie halfway between two floats of so many digits, or one beside that: over an
/// even float and over an odd one, and of both signs if there are two.
fn halfway(field: &Field, digits: u32, random: &mut Random) -> Vec<u64> {
    let mut all = Vec::new();
    let most = field.width - u32::from(field.signed);
    if most <= digits {
        return all;
    }
    let any = digits + 1 + random.up_to((most - digits - 1) as usize) as u32;
    for length in [digits + 1, any, most] {
        let half = 1u64 << (length - digits - 1);
        let float = (random.next() | 1 << 63) >> (64 - digits);
        for float in [float & !1, float | 1, u64::MAX >> (64 - digits)] {
            let number = float * 2 * half + half;
            for number in [number, number - 1, number + 1] {
                all.push(number);
                all.push(number.wrapping_neg());
            }
        }
    }
    all
}

/// The bits of an f32: zeros, ones, ends, subnormals, infinities, NaNs, and any.
pub fn float_bits(amount: Amount, random: &mut Random) -> impl Iterator<Item = u32> {
    const SIZES: [u32; 13] = [
        0,
        1,
        0x007F_FFFF,
        0x0080_0000,
        0x3EFF_FFFF,
        0x3F00_0000,
        0x3F80_0000,
        0x7F7F_FFFF,
        0x7F80_0000,
        0x7F80_0001,
        0x7FC0_0000,
        0x7FC0_0001,
        0x7FFF_FFFF,
    ];
    let signs = SIZES.into_iter().flat_map(|size| [size, size | 1 << 31]);
    // The only field of its kind, so it gets more.
    let any = (0..1000 * amount.inputs).flat_map(|_| {
        let bits = random.next() as u32;
        [bits, bits | 0x7F80_0000, bits & 0x807F_FFFF]
    });
    signs.chain(any)
}
