//! The benchmark: the same fields read and written by the Rust and by the library under test.
use crate::cases::SEED;
use crate::random::Random;
use crate::samopute;
use crate::timing::{self, ROUNDS, timed};
use korri_n2k::error::{BitReaderError, BitWriterError};
use korri_n2k::infra::codec::bits::{BitReader, BitWriter};
use std::hint::black_box;

const FIELDS: usize = 1_000_000;
const LENGTHS: [usize; 2] = [223, 65_536];

struct Field {
    cursor: usize,
    width: u8,
    value: u64,
}

pub fn run() {
    println!("ns a call, the least of {ROUNDS} rounds of {FIELDS} fields of 1 to 64 bits");
    for length in LENGTHS {
        let mut random = Random::new(SEED);
        let buffer = random.bytes(length);
        let fields = anywhere(length, &mut random);
        let times = fastest([
            &mut || read_ours(&buffer, &fields),
            &mut || read_rust(&buffer, &fields, read_apart),
            &mut || read_rust(&buffer, &fields, read_inlined),
        ]);
        print_times("read_u64", length, times);

        let fields = in_a_row(length, &mut random);
        let times = fastest([
            &mut || write_ours(length, &fields),
            &mut || write_rust(length, &fields, write_apart),
            &mut || write_rust(length, &fields, write_inlined),
        ]);
        print_times("write_u64", length, times);
    }
}

fn print_times(call: &str, length: usize, [ours, apart, inlined]: [f64; 3]) {
    println!(
        "{call}, {length} bytes: ours {ours:.2}, Rust {apart:.2} (ratio {:.2}), \
         Rust free to be inlined {inlined:.2} (ratio {:.2})",
        ours / apart,
        ours / inlined
    );
}

/// The least time of each work, in ns a field. Their sums have to agree.
fn fastest(mut works: [&mut dyn FnMut() -> u64; 3]) -> [f64; 3] {
    timing::fastest(|| {
        let rounds = works.each_mut().map(timed);
        assert!(
            rounds.iter().all(|(_, sum)| *sum == rounds[0].1),
            "the sides differ"
        );
        rounds.map(|(time, _)| time / FIELDS as f64)
    })
}

/// Fields at any cursor at which they fit.
fn anywhere(length: usize, random: &mut Random) -> Vec<Field> {
    let field = |_| {
        let width = 1 + random.up_to(63);
        Field {
            cursor: random.up_to(length * 8 - width),
            width: width as u8,
            value: random.next(),
        }
    };
    (0..FIELDS).map(field).collect()
}

/// Fields one after the other, from the start again where the next does not fit: the Rust's writer
/// has no `seek`.
fn in_a_row(length: usize, random: &mut Random) -> Vec<Field> {
    let mut cursor = 0;
    let field = |_| {
        let width = 1 + random.up_to(63);
        if cursor + width > length * 8 {
            cursor = 0;
        }
        let field = Field {
            cursor,
            width: width as u8,
            value: random.next(),
        };
        cursor += width;
        field
    };
    (0..FIELDS).map(field).collect()
}

/// The runs of fields from one start to the next.
fn rows(fields: &[Field]) -> impl Iterator<Item = &[Field]> {
    fields.chunk_by(|_, next| next.cursor != 0)
}

fn read_ours(buffer: &[u8], fields: &[Field]) -> u64 {
    let mut answer = [0; 3];
    fields.iter().fold(0, |sum: u64, field| {
        let number = samopute::read_u64(buffer, field.cursor, field.width.into(), &mut answer);
        assert_eq!(number, 0);
        sum.wrapping_add(black_box(answer[1]))
    })
}

fn read_rust(
    buffer: &[u8],
    fields: &[Field],
    read: impl Fn(&[u8], usize, u8) -> Result<u64, BitReaderError>,
) -> u64 {
    fields.iter().fold(0, |sum: u64, field| {
        let value = read(buffer, field.cursor, field.width).expect("the field fits");
        sum.wrapping_add(black_box(value))
    })
}

/// Called as ours is: across a boundary that the compiler cannot see through.
#[inline(never)]
fn read_apart(buffer: &[u8], cursor: usize, width: u8) -> Result<u64, BitReaderError> {
    read_inlined(buffer, cursor, width)
}

#[inline(always)]
fn read_inlined(buffer: &[u8], cursor: usize, width: u8) -> Result<u64, BitReaderError> {
    let mut reader = BitReader::new(buffer);
    reader.seek(cursor);
    reader.read_u64(width)
}

/// Each write goes on where the one before ended, as the Rust's writer does.
fn write_ours(length: usize, fields: &[Field]) -> u64 {
    let mut buffer = vec![0; length];
    for row in rows(fields) {
        let mut answer = [0; 3];
        for field in row {
            let (value, width) = (field.value, field.width.into());
            let cursor = answer[0] as usize;
            let number = samopute::write_u64(&mut buffer, cursor, value, width, &mut answer);
            assert_eq!(number, 0);
            black_box(answer[0]);
        }
    }
    sum_of(&buffer)
}

fn write_rust(
    length: usize,
    fields: &[Field],
    write: impl Fn(&mut BitWriter, u64, u8) -> Result<(), BitWriterError>,
) -> u64 {
    let mut buffer = vec![0; length];
    for row in rows(fields) {
        let mut writer = BitWriter::new(&mut buffer);
        for field in row {
            write(&mut writer, field.value, field.width).expect("the field fits");
            black_box(writer.bit_cursor());
        }
    }
    sum_of(&buffer)
}

#[inline(never)]
fn write_apart(writer: &mut BitWriter, value: u64, width: u8) -> Result<(), BitWriterError> {
    write_inlined(writer, value, width)
}

#[inline(always)]
fn write_inlined(writer: &mut BitWriter, value: u64, width: u8) -> Result<(), BitWriterError> {
    writer.write_u64(value, width)
}

/// A sum that tells the places of the bytes apart.
fn sum_of(buffer: &[u8]) -> u64 {
    buffer.iter().fold(0, |sum: u64, &byte| {
        sum.wrapping_mul(31).wrapping_add(byte.into())
    })
}
