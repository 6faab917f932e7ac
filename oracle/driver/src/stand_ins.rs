//! What the calls on numbers do not reach of the stand-ins, held against answers worked out by hand from
//! document 01: texts and bytes written, skipped fields, and the walk around sets and last fields.
use crate::case::hex;
use crate::oracle_types::standin::{described, leaked};
use crate::report::Report;
use standin::core::{
    Availability, FieldDescriptor, FieldKind, PgnBytes, PgnDescriptor, PgnValue, RepeatingFieldSet,
};
use standin::error::{BitWriterError, DeserializationError, SerializationError};
use standin::infra::codec::engine::{for_each_field, serialize};
use standin::infra::codec::traits::FieldAccess;

pub fn run(report: &mut Report) {
    report.line("texts written by the stand-ins", texts());
    report.line("whole-field refusals of the stand-ins", refused_texts());
    report.line("skipped fields written by the stand-ins", skipped());
    report.line("the stand-ins' walk", walks());
}

/// A message that gives a number to Number fields, which are called "number", and bytes to others.
struct Message<'a>(&'a [u8]);

impl FieldAccess for Message<'_> {
    fn field(&self, id: &'static str) -> Option<PgnValue> {
        if id == "number" {
            return Some(PgnValue::U8(1));
        }
        let mut bytes = PgnBytes::new();
        bytes.copy_from_slice(self.0);
        Some(PgnValue::Bytes(bytes))
    }

    fn field_mut(&mut self, _id: &'static str, _value: PgnValue) -> Option<()> {
        None
    }
}

/// Bytes written into a field after a Number of `before` bits that is 1, in a buffer of `room` bytes: the
/// bytes used, or the refusal with what it carries; then the buffer.
fn written(before: u32, (kind, width): (FieldKind, u32), bytes: &[u8], room: usize) -> String {
    let width = (width > 0).then_some(width);
    let mut fields = vec![described(kind, width)];
    if before > 0 {
        let number = FieldDescriptor {
            id: "number",
            ..described(FieldKind::Number, Some(before))
        };
        fields.insert(0, number);
    }
    let mut buffer = vec![0; room];
    let outcome = serialize(
        &Message(bytes),
        &mut buffer,
        leaked(fields, Vec::new(), [None; 2]),
    );
    let outcome = match outcome {
        Ok(used) => format!("ok {used}"),
        Err(error) => refusal(error),
    };
    format!("{outcome} | {}", hex(&buffer))
}

fn refusal(error: SerializationError) -> String {
    match error {
        SerializationError::BitWriteError { err } => match err {
            BitWriterError::OutOfBounds { asked, available } => format!("F 2 {asked} {available}"),
            BitWriterError::NonAlignedBit { cursor } => format!("F 3 {cursor}"),
            BitWriterError::TooLongForType { max, asked } => format!("F 1 {max} {asked}"),
        },
        SerializationError::ValueOutOfRange { .. } => "F 10".to_string(),
        SerializationError::CodecError { .. } => "F 11".to_string(),
        SerializationError::InvalidData => "F 13".to_string(),
        other => format!("{other:?}"),
    }
}

/// Holds answers against those wanted, in order.
fn hold(answers: &[(String, &str)]) -> Result<String, String> {
    for (i, (answer, wanted)) in answers.iter().enumerate() {
        if answer != wanted {
            return Err(format!("case {}: {answer}, not {wanted}", i + 1));
        }
    }
    Ok(format!("{} cases", answers.len()))
}

const FIX_4: (FieldKind, u32) = (FieldKind::StringFix, 32);
const LZ: (FieldKind, u32) = (FieldKind::StringLz, 0);
const LAU: (FieldKind, u32) = (FieldKind::StringLau, 0);
const BYTES_2: (FieldKind, u32) = (FieldKind::Binary, 16);

/// A LAU value holds its encoding byte first.
fn texts() -> Result<String, String> {
    hold(&[
        (written(0, FIX_4, b"AB", 5), "ok 4 | 4142FFFFFF"),
        (written(0, FIX_4, b"", 4), "ok 4 | FFFFFFFF"),
        (written(0, FIX_4, b"ABCD", 4), "ok 4 | 41424344"),
        (written(0, LZ, b"AB", 5), "ok 4 | 02414200FF"),
        (written(0, LZ, b"", 3), "ok 2 | 0000FF"),
        (written(4, LZ, b"", 3), "ok 3 | 0100F0"),
        (written(0, LAU, b"", 3), "ok 1 | 01FFFF"),
        (written(4, LAU, b"", 3), "ok 2 | 11F0FF"),
        (written(0, LAU, b"\x00", 3), "ok 2 | 0200FF"),
        (written(4, LAU, b"\x01", 3), "ok 3 | 2110F0"),
        (written(0, LAU, b"\x01AB", 5), "ok 4 | 04014142FF"),
        (written(0, BYTES_2, b"AB", 3), "ok 2 | 4142FF"),
        (written(8, BYTES_2, b"AB", 3), "ok 3 | 014142"),
        (longest(LZ, 221), "ok 223"),
        (longest(LZ, 222), "F 13"),
        (longest(LAU, 222), "ok 223"),
        (longest(LAU, 223), "F 13"),
    ])
}

/// What becomes of so many bytes in the largest buffer.
fn longest(field: (FieldKind, u32), length: usize) -> String {
    let answer = written(0, field, &vec![b'A'; length], 223);
    let (outcome, _) = answer.split_once(" | ").expect("the buffer follows");
    outcome.to_string()
}

/// 13 before 3, 3 before 2; 2 counts the whole field in bits; the refused field leaves no bit.
fn refused_texts() -> Result<String, String> {
    hold(&[
        (written(4, FIX_4, b"ABCDE", 1), "F 13 | F1"),
        (written(4, FIX_4, b"A", 1), "F 3 4 | F1"),
        (written(0, FIX_4, b"A", 3), "F 2 32 24 | FFFFFF"),
        (written(4, LZ, b"A", 1), "F 3 12 | F1"),
        (written(8, LZ, b"AB", 4), "F 2 32 24 | 01FFFFFF"),
        (written(4, LZ, b"", 2), "F 2 16 12 | F1FF"),
        (written(4, LAU, b"\x01A", 1), "F 3 20 | F1"),
        (written(8, LAU, b"\x01A", 3), "F 2 24 16 | 01FFFF"),
        (written(4, LAU, b"\x01", 2), "F 2 16 12 | F1FF"),
        (written(8, LAU, b"", 1), "F 2 8 0 | 01"),
        (written(4, BYTES_2, b"A", 3), "F 13 | F1FFFF"),
        (written(4, BYTES_2, b"AB", 3), "F 3 4 | F1FFFF"),
        (written(0, (FieldKind::Number, 8), b"A", 1), "F 11 | FF"),
    ])
}

/// Skipped fields stay ones and have to fit.
fn skipped() -> Result<String, String> {
    hold(&[
        (written(4, (FieldKind::Spare, 8), b"", 2), "ok 2 | F1FF"),
        (written(4, (FieldKind::Reserved, 8), b"", 2), "ok 2 | F1FF"),
        (written(8, (FieldKind::Spare, 8), b"", 1), "F 2 8 0 | 01"),
    ])
}

/// The readings of a payload: raw or length of bytes, the element, A or N; then the refusal, if any.
fn read(table: &'static PgnDescriptor, payload: &[u8]) -> String {
    let mut lines = Vec::new();
    let outcome = for_each_field(table, payload, |_, reading| {
        let what = match (reading.raw, &reading.value) {
            (Some(raw), _) => format!("{raw:X}"),
            (None, PgnValue::Bytes(bytes)) => format!("[{}]", bytes.len()),
            (None, value) => format!("{value:?}"),
        };
        let element =
            (reading.repetition).map_or("-".to_string(), |(_, element)| element.to_string());
        let state = match reading.availability {
            Availability::Available => 'A',
            Availability::NotAvailable => 'N',
            Availability::OutOfRange | Availability::Reserved => '?',
        };
        lines.push(format!("{what} {element} {state}"));
    });
    match outcome {
        Ok(()) => {}
        Err(DeserializationError::InvalidDataLength) => lines.push("F 4".to_string()),
        Err(DeserializationError::RepetitionsExceedCapacity { count, max, .. }) => {
            lines.push(format!("F 5 {count} {max}"));
        }
        Err(_) => lines.push("F".to_string()),
    }
    lines.join(", ")
}

/// A counter of 8 bits, a set of one field of 32, and one more field of 8 behind it.
fn counted(max_repetitions: usize) -> &'static PgnDescriptor {
    let fields = [8, 32, 8].map(|width| described(FieldKind::Number, Some(width)));
    let set = RepeatingFieldSet {
        array_id: "set",
        count_field_index: Some(0),
        start_field_index: 1,
        size: 1,
        max_repetitions,
    };
    leaked(fields.into(), vec![set], [None; 2])
}

fn one(kind: FieldKind, width: u32) -> &'static PgnDescriptor {
    let width = (width > 0).then_some(width);
    leaked(vec![described(kind, width)], Vec::new(), [None; 2])
}

fn walks() -> Result<String, String> {
    use FieldKind::{StringFix, StringLau, StringLz};
    let mut payload = [0; 10];
    payload[0] = 3;
    let counted_2 = counted(2);
    hold(&[
        // 3 declared, 72 bits left, 32 each: 2, and the field behind the set.
        (read(counted_2, &payload), "3 - A, 0 0 A, 0 1 A, 0 - A"),
        (read(counted(1), &payload), "3 - A, F 5 2 1"),
        (read(counted_2, &[0xFF, 7]), "FF - N, 7 - A"),
        (read(one(StringFix, 264), &[b'A'; 20]), "[20] - A"),
        (read(one(StringFix, 256), &[b'A'; 20]), "F"),
        (read(one(StringLz, 0), &[0]), "[0] - N"),
        (read(one(StringLz, 0), &[224]), "F 4"),
        (read(one(StringLz, 0), &[223]), "F"),
        (read(one(StringLau, 0), &[1]), "[0] - N"),
        (read(one(StringLau, 0), &[2, 1]), "[1] - N"),
        (read(one(StringLau, 0), &[224]), "F 4"),
    ])
}
