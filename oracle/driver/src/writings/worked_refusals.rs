//! Worked out by hand: each refusal with a smallest input, and which of two comes first.
use super::worked::{
    Worked, byte, counted, double, encoded, lends, of, one, shifted, single, text, whole, writes,
};
use crate::tables::built_in::{
    self, BINARY, FIX, LAU, LZ, bare, field, mismarked, number, set, signed, table, table_129026,
};
use model::numbers::{Kind, ValueKind};
use model::tables::Table;

pub fn all() -> Vec<Worked> {
    let rules = [
        before_the_walk(),
        missing_and_left_over(),
        other_kinds(),
        out_of_range(),
        too_long(),
        unaligned(),
        beyond(),
        elements(),
    ];
    rules.into_iter().flatten().collect()
}

/// 7, 8: the buffer is kept.
fn before_the_walk() -> Vec<Worked> {
    vec![
        writes(224, of(&[number(1)]), &[byte(0)], "F 7 224", "A5*224"),
        writes(224, of(&[]), &[], "F 7 224", "A5*224"),
        writes(0, of(&[]), &[], "F 8 a 0", ""),
        writes(2, of(&[field(Kind::Decimal, 8)]), &[], "F 8 b 0", "A5A5"),
        writes(1, of(&[number(8), number(65)]), &[], "F 8 c 1", "A5"),
        writes(1, of(&[mismarked(number(8), 1.0)]), &[], "F 8 d 0", "A5"),
        writes(1, of(&[bare(LZ), number(8)]), &[], "F 8 f 0", "A5"),
        writes(1, counted(0), &[byte(0)], "F 8 g 0", "A5"),
    ]
}

/// 12: the field that lacks a value; at the end of all, the number of fields.
fn missing_and_left_over() -> Vec<Worked> {
    let two = of(&[number(8), number(8)]);
    let gap = of(&[number(8), field(Kind::Reserved, 8)]);
    vec![
        writes(1, of(&[number(1)]), &[], "F 12 0", "FF"),
        writes(2, two.clone(), &[byte(1)], "F 12 1", "01FF"),
        // Before 2.
        writes(0, of(&[number(1)]), &[], "F 12 0", ""),
        writes(1, of(&[number(8)]), &[byte(1), byte(2)], "F 12 1", "01"),
        // Not the fields that take a value.
        writes(2, gap, &[byte(1), byte(2)], "F 12 2", "01FF"),
        // Last: after 2.
        writes(0, of(&[number(8)]), &[byte(1), byte(2)], "F 2 0 8 0", ""),
        writes(1, two, &[byte(1), byte(2), byte(3)], "F 2 1 8 0", "01"),
        // In an element, whose field it names.
        writes(3, counted(2), &[byte(2), byte(5)], "F 12 1", "0205FF"),
    ]
}

/// 11, before 10, 13, 3 and 2.
fn other_kinds() -> Vec<Worked> {
    let kept = of(&[number(8)]);
    let signed_8 = of(&[signed(number(8))]);
    let scaled = of(&[built_in::double(number(8), 1.0)]);
    let long = "41*222";
    vec![
        writes(1, kept.clone(), &[single(1.0)], "F 11 0", "FF"),
        writes(1, kept.clone(), &[text(0, 0)], "F 11 0", "FF"),
        writes(0, kept, &[whole(ValueKind::I16, -1)], "F 11 0", ""),
        writes(1, signed_8, &[byte(1)], "F 11 0", "FF"),
        writes(1, scaled, &[byte(1)], "F 11 0", "FF"),
        one(4, field(Kind::Float, 32), double(1.0), "", "F 11 0", "FF*4"),
        writes(1, of(&[field(FIX, 8)]), &[byte(0x41)], "F 11 0", "FF"),
        writes(1, of(&[field(BINARY, 8)]), &[byte(0x41)], "F 11 0", "FF"),
        one(1, field(BINARY, 4), text(0, 1), "41", "F 11 0", "FF"),
        // An encoding byte on all but StringLau.
        writes(1, of(&[field(FIX, 8)]), &[encoded(1, 0, 0)], "F 11 0", "FF"),
        one(3, bare(LZ), encoded(1, 0, 1), "41", "F 11 0", "FF*3"),
        one(1, field(BINARY, 8), encoded(1, 0, 1), "41", "F 11 0", "FF"),
        // A StringLau's text without one, too long or not.
        lends(3, of(&[bare(LAU)]), &[text(0, 1)], "41", "F 11 0", "FF*3"),
        one(223, bare(LAU), text(0, 222), long, "F 11 0", "FF*223"),
        writes(1, of(&[bare(LAU)]), &[text(9, 1)], "F 11 0", "FF"),
    ]
}

/// 10.
fn out_of_range() -> Vec<Worked> {
    let byte_wide = of(&[number(8)]);
    let unit = of(&[built_in::double(number(8), 1.0)]);
    let signed_unit = of(&[built_in::double(signed(number(8)), 1.0)]);
    let speed = of(&[built_in::single(number(16), 0.01)]);
    let over = whole(ValueKind::U16, 256);
    let course = single(15_708.0 * 0.0001);
    let frame = |speed: f32| [byte(0x2A), byte(0), course, single(speed)];
    vec![
        writes(1, byte_wide.clone(), &[over], "F 10 0", "FF"),
        // Before 2.
        writes(0, byte_wide, &[over], "F 10 0", ""),
        writes(1, of(&[number(1)]), &[byte(2)], "F 10 0", "FF"),
        writes(1, unit.clone(), &[double(255.5)], "F 10 0", "FF"),
        writes(1, unit.clone(), &[double(-0.5)], "F 10 0", "FF"),
        writes(1, unit, &[double(f64::NAN)], "F 10 0", "FF"),
        writes(1, signed_unit, &[double(-128.5)], "F 10 0", "FF"),
        // 7,600 m/s at 0.01 in 16 bits is 760,000: the low bits would be 98C0, 391.04 m/s.
        writes(2, speed, &[single(7600.0)], "F 10 0", "FFFF"),
        writes(
            8,
            table_129026(),
            &frame(7600.0),
            "F 10 4",
            "2AFC5C3D FFFFFFFF",
        ),
        writes(
            8,
            table_129026(),
            &frame(391.04),
            "ok 8",
            "2AFC5C3D C098FFFF",
        ),
    ]
}

/// 13, before 3 and 2.
fn too_long() -> Vec<Worked> {
    let fix = of(&[field(FIX, 8)]);
    let binary = of(&[field(BINARY, 16)]);
    let lau = of(&[bare(LAU)]);
    vec![
        lends(2, fix.clone(), &[text(0, 2)], "4142", "F 13 0", "FFFF"),
        lends(3, binary.clone(), &[text(0, 1)], "414243", "F 13 0", "FF*3"),
        lends(3, binary, &[text(0, 3)], "414243", "F 13 0", "FF*3"),
        one(223, bare(LZ), text(0, 222), "41*222", "F 13 0", "FF*223"),
        lends(
            223,
            lau.clone(),
            &[encoded(1, 0, 222)],
            "41*222",
            "F 13 0",
            "FF*223",
        ),
        // Past the lent text, also with no byte, and not around 2^64.
        writes(1, fix.clone(), &[text(0, 1)], "F 13 0", "FF"),
        lends(1, fix.clone(), &[text(1, 1)], "41", "F 13 0", "FF"),
        writes(1, lau, &[text(1, 0)], "F 13 0", "FF"),
        lends(1, fix.clone(), &[text(u64::MAX, 1)], "41", "F 13 0", "FF"),
        lends(1, fix, &[text(1, u64::MAX)], "41", "F 13 0", "FF"),
        // Before 3 and 2.
        lends(
            1,
            shifted(field(FIX, 8)),
            &[byte(1), text(0, 2)],
            "4142",
            "F 13 1",
            "F1",
        ),
        writes(0, of(&[field(BINARY, 8)]), &[text(0, 0)], "F 13 0", ""),
    ]
}

/// 3 carries the cursor where the bytes would be put; it comes before 2.
fn unaligned() -> Vec<Worked> {
    let after = |field| (shifted(field), "41", "F1");
    let case = |(table, lent, buffer): (Table, &str, &str), value, outcome| {
        lends(1, table, &[byte(1), value], lent, outcome, buffer)
    };
    vec![
        case(after(field(FIX, 8)), text(0, 1), "F 3 1 4"),
        case(after(field(FIX, 8)), text(0, 0), "F 3 1 4"),
        case(after(field(BINARY, 8)), text(0, 1), "F 3 1 4"),
        case(after(bare(LZ)), text(0, 1), "F 3 1 12"),
        case(after(bare(LAU)), encoded(1, 0, 1), "F 3 1 20"),
    ]
}

/// 2 counts the bits of the whole field, and those left.
fn beyond() -> Vec<Worked> {
    let two = of(&[number(8), number(16)]);
    let gap = of(&[number(8), field(Kind::Reserved, 8)]);
    let words = whole(ValueKind::U16, 0x0203);
    vec![
        writes(0, of(&[number(1)]), &[byte(1)], "F 2 0 1 0", ""),
        writes(2, two, &[byte(1), words], "F 2 1 16 8", "01FF"),
        writes(
            1,
            of(&[number(3), number(6)]),
            &[byte(5), byte(1)],
            "F 2 1 6 5",
            "FD",
        ),
        writes(1, gap, &[byte(1)], "F 2 1 8 0", "01"),
        writes(0, of(&[field(Kind::Spare, 1)]), &[], "F 2 0 1 0", ""),
        one(3, field(FIX, 32), text(0, 1), "41", "F 2 0 32 24", "FF*3"),
        one(1, field(BINARY, 16), text(0, 2), "4142", "F 2 0 16 8", "FF"),
        one(3, bare(LZ), text(0, 2), "4142", "F 2 0 32 24", "FF*3"),
        one(2, bare(LAU), encoded(1, 0, 1), "41", "F 2 0 24 16", "FFFF"),
        writes(1, of(&[bare(LAU)]), &[encoded(1, 0, 0)], "F 2 0 16 8", "FF"),
        writes(0, of(&[bare(LAU)]), &[text(0, 0)], "F 2 0 8 0", ""),
        writes(
            2,
            shifted(bare(LZ)),
            &[byte(1), text(0, 0)],
            "F 2 1 16 12",
            "F1FF",
        ),
    ]
}

/// 5 where the set starts; the count is cut neither to the maximum nor to the room.
fn elements() -> Vec<Worked> {
    let three = [byte(3), byte(1), byte(2), byte(3)];
    let wide = table(&[number(32), number(8)], &[set(1, 1, 0, 255)]);
    let many = whole(ValueKind::U32, 0xFFFF_FFFE);
    let second = table(
        &[number(8), number(8), number(8)],
        &[set(1, 1, 0, 9), set(2, 1, 0, 1)],
    );
    vec![
        writes(4, counted(2), &three, "F 5 0 3 2", "03FFFFFF"),
        // Before 12 and 2.
        writes(1, counted(2), &three[..1], "F 5 0 3 2", "03"),
        writes(4, wide, &[many], "F 5 0 4294967294 255", "FEFFFFFF"),
        writes(2, counted(3), &three, "F 2 1 8 0", "0301"),
        // The second of two sets that share a counter.
        writes(
            3,
            second,
            &[byte(2), byte(7), byte(8)],
            "F 5 1 2 1",
            "020708",
        ),
    ]
}
