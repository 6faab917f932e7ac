//! The boundary as it is declared in `include/samopute.h`, made safe. All unsafe code of this crate is here.
//!
//! Each function answers the status and fills `answer`. The library reads nothing outside of the slices that it is lent and
//! writes nothing outside of the exclusive ones: that is its promise (docs/PROMISES.md), and what makes these calls safe.

use crate::layout::{PADDING_LENGTH, RECORD, VALUE};
use crate::record::Record;

/// What a call lays down: a bit call, the table check and the calls on numbers three numbers, a decode six, an encode four.
pub(crate) type Answer = [u64; 3];
pub(crate) type DecodeAnswer = [u64; 6];
pub(crate) type EncodeAnswer = [u64; 4];

/// What `samopute_scale` lays down, which is one more than the other call on numbers.
pub(crate) type ScaleAnswer = [u64; 4];

/// A field as the calls on numbers take it.
#[derive(Clone, Copy)]
pub(crate) struct RawField {
    pub kind: u32,
    pub width: u32,
    pub is_signed: u32,
    pub mark: u32,
    pub resolution: u32,
}

mod c {
    use super::{Answer, DecodeAnswer, EncodeAnswer, Record, ScaleAnswer};

    // SAFETY: these are the declarations of include/samopute.h, type by type.
    unsafe extern "C" {
        pub safe fn samopute_version() -> u32;

        pub fn samopute_decode(
            words: *const u64,
            word_count: usize,
            payload: *const u8,
            payload_length: usize,
            padding: *mut u8,
            padding_length: usize,
            readings: *mut u8,
            readings_length: usize,
            answer: *mut DecodeAnswer,
        ) -> u32;
        pub fn samopute_decode_pgn(
            pgn: u32,
            payload: *const u8,
            payload_length: usize,
            padding: *mut u8,
            padding_length: usize,
            readings: *mut u8,
            readings_length: usize,
            answer: *mut DecodeAnswer,
        ) -> u32;
        pub fn samopute_decode_run(
            words: *const u64,
            word_count: usize,
            payload: *const u8,
            payload_length: usize,
            padding: *mut u8,
            padding_length: usize,
            readings: *mut Record,
            room: usize,
            answer: *mut DecodeAnswer,
        ) -> u32;
        pub fn samopute_encode(
            words: *const u64,
            word_count: usize,
            values: *const u8,
            values_length: usize,
            text: *const u8,
            text_length: usize,
            payload: *mut u8,
            payload_length: usize,
            answer: *mut EncodeAnswer,
        ) -> u32;
        pub fn samopute_encode_pgn(
            pgn: u32,
            values: *const u8,
            values_length: usize,
            text: *const u8,
            text_length: usize,
            payload: *mut u8,
            payload_length: usize,
            answer: *mut EncodeAnswer,
        ) -> u32;
        pub fn samopute_check(words: *const u64, count: usize, answer: *mut Answer) -> u32;

        pub fn samopute_read_u64(b: *const u8, l: usize, at: usize, n: u32, a: *mut Answer) -> u32;
        pub fn samopute_read_u32(b: *const u8, l: usize, at: usize, n: u32, a: *mut Answer) -> u32;
        pub fn samopute_read_u16(b: *const u8, l: usize, at: usize, n: u32, a: *mut Answer) -> u32;
        pub fn samopute_read_u8(b: *const u8, l: usize, at: usize, n: u32, a: *mut Answer) -> u32;
        pub fn samopute_advance(b: *const u8, l: usize, at: usize, n: u32, a: *mut Answer) -> u32;
        pub fn samopute_read_slice(
            b: *const u8,
            l: usize,
            at: usize,
            n: usize,
            a: *mut Answer,
        ) -> u32;
        pub fn samopute_bits_remaining(b: *const u8, l: usize, at: usize) -> usize;

        pub fn samopute_write_u64(
            b: *mut u8,
            l: usize,
            at: usize,
            v: u64,
            n: u32,
            a: *mut Answer,
        ) -> u32;
        pub fn samopute_write_u32(
            b: *mut u8,
            l: usize,
            at: usize,
            v: u32,
            n: u32,
            a: *mut Answer,
        ) -> u32;
        pub fn samopute_write_u16(
            b: *mut u8,
            l: usize,
            at: usize,
            v: u16,
            n: u32,
            a: *mut Answer,
        ) -> u32;
        pub fn samopute_write_u8(
            b: *mut u8,
            l: usize,
            at: usize,
            v: u8,
            n: u32,
            a: *mut Answer,
        ) -> u32;
        pub fn samopute_write_advance(
            b: *mut u8,
            l: usize,
            at: usize,
            n: u32,
            a: *mut Answer,
        ) -> u32;
        pub fn samopute_write_slice(
            b: *mut u8,
            l: usize,
            at: usize,
            source: *const u8,
            n: usize,
            a: *mut Answer,
        ) -> u32;

        pub fn samopute_scale(
            kind: u32,
            width: u32,
            is_signed: u32,
            mark: u32,
            resolution: u32,
            raw: u64,
            a: *mut ScaleAnswer,
        ) -> u32;
        pub fn samopute_raw_of(
            kind: u32,
            width: u32,
            is_signed: u32,
            mark: u32,
            resolution: u32,
            value_kind: u32,
            value: u64,
            a: *mut Answer,
        ) -> u32;
    }
}

/// The readings buffer: the count, then the records. Bytes only, so that there is no padding and no alignment.
#[repr(C)]
#[derive(Clone)]
pub(crate) struct Run<const N: usize> {
    pub count: [u8; 8],
    pub records: [[u8; RECORD]; N],
}

impl<const N: usize> Run<N> {
    pub(crate) const fn new() -> Self {
        Run {
            count: [0; 8],
            records: [[0; RECORD]; N],
        }
    }

    /// The whole buffer.
    fn bytes(&mut self) -> &mut [u8] {
        // SAFETY: `Run` is `repr(C)` and made of bytes alone, so it is `size_of` initialised bytes at its address, any
        // bytes are a `Run`, and the slice borrows it exclusively.
        unsafe {
            core::slice::from_raw_parts_mut((self as *mut Self).cast::<u8>(), size_of::<Self>())
        }
    }
}

pub(crate) fn version() -> u32 {
    c::samopute_version()
}

pub(crate) fn decode<const N: usize>(
    words: &[u64],
    payload: &[u8],
    padding: &mut [u8; PADDING_LENGTH],
    run: &mut Run<N>,
    answer: &mut DecodeAnswer,
) -> u32 {
    let readings = run.bytes();
    // SAFETY: each pointer and length come from one live slice, exclusive where the library writes; the exclusive ones
    // cannot overlap any other; `answer` has room for six numbers.
    unsafe {
        c::samopute_decode(
            words.as_ptr(),
            words.len(),
            payload.as_ptr(),
            payload.len(),
            padding.as_mut_ptr(),
            padding.len(),
            readings.as_mut_ptr(),
            readings.len(),
            answer,
        )
    }
}

pub(crate) fn decode_pgn<const N: usize>(
    pgn: u32,
    payload: &[u8],
    padding: &mut [u8; PADDING_LENGTH],
    run: &mut Run<N>,
    answer: &mut DecodeAnswer,
) -> u32 {
    let readings = run.bytes();
    // SAFETY: as in `decode`.
    unsafe {
        c::samopute_decode_pgn(
            pgn,
            payload.as_ptr(),
            payload.len(),
            padding.as_mut_ptr(),
            padding.len(),
            readings.as_mut_ptr(),
            readings.len(),
            answer,
        )
    }
}

pub(crate) fn decode_run(
    words: &[u64],
    payload: &[u8],
    padding: &mut [u8; PADDING_LENGTH],
    records: &mut [Record],
    answer: &mut DecodeAnswer,
) -> u32 {
    // SAFETY: as in `decode`; a `Record` is the header's struct, member by member, so that its slice is aligned and any
    // bytes are records.
    unsafe {
        c::samopute_decode_run(
            words.as_ptr(),
            words.len(),
            payload.as_ptr(),
            payload.len(),
            padding.as_mut_ptr(),
            padding.len(),
            records.as_mut_ptr(),
            records.len(),
            answer,
        )
    }
}

pub(crate) fn encode(
    words: &[u64],
    values: &[[u8; VALUE]],
    text: &[u8],
    payload: &mut [u8],
    answer: &mut EncodeAnswer,
) -> u32 {
    let values = values.as_flattened();
    // SAFETY: each pointer and length is that of a live slice, the payload is borrowed exclusively, so that it overlaps none
    // of the others, and `answer` has room for four numbers.
    unsafe {
        c::samopute_encode(
            words.as_ptr(),
            words.len(),
            values.as_ptr(),
            values.len(),
            text.as_ptr(),
            text.len(),
            payload.as_mut_ptr(),
            payload.len(),
            answer,
        )
    }
}

pub(crate) fn encode_pgn(
    pgn: u32,
    values: &[[u8; VALUE]],
    text: &[u8],
    payload: &mut [u8],
    answer: &mut EncodeAnswer,
) -> u32 {
    let values = values.as_flattened();
    // SAFETY: as in `encode`.
    unsafe {
        c::samopute_encode_pgn(
            pgn,
            values.as_ptr(),
            values.len(),
            text.as_ptr(),
            text.len(),
            payload.as_mut_ptr(),
            payload.len(),
            answer,
        )
    }
}

pub(crate) fn check(words: &[u64], answer: &mut Answer) -> u32 {
    // SAFETY: the pointer and the length are those of a live slice, and `answer` has room for three numbers.
    unsafe { c::samopute_check(words.as_ptr(), words.len(), answer) }
}

macro_rules! reads {
    ($($name:ident = $call:ident($count:ty);)*) => { $(
        pub(crate) fn $name(buffer: &[u8], cursor: usize, count: $count, answer: &mut Answer) -> u32 {
            // SAFETY: the pointer and the length are those of a live slice, which is read only, and `answer` has room
            // for three numbers.
            unsafe { c::$call(buffer.as_ptr(), buffer.len(), cursor, count, answer) }
        }
    )* };
}

reads! {
    read_u64 = samopute_read_u64(u32);
    read_u32 = samopute_read_u32(u32);
    read_u16 = samopute_read_u16(u32);
    read_u8 = samopute_read_u8(u32);
    advance = samopute_advance(u32);
    read_slice = samopute_read_slice(usize);
}

macro_rules! writes {
    ($($name:ident = $call:ident($value:ty);)*) => { $(
        pub(crate) fn $name(buffer: &mut [u8], cursor: usize, value: $value, width: u32, answer: &mut Answer) -> u32 {
            // SAFETY: the pointer and the length are those of a live slice that is borrowed exclusively, and `answer`
            // has room for three numbers.
            unsafe { c::$call(buffer.as_mut_ptr(), buffer.len(), cursor, value, width, answer) }
        }
    )* };
}

writes! {
    write_u64 = samopute_write_u64(u64);
    write_u32 = samopute_write_u32(u32);
    write_u16 = samopute_write_u16(u16);
    write_u8 = samopute_write_u8(u8);
}

pub(crate) fn write_advance(
    buffer: &mut [u8],
    cursor: usize,
    width: u32,
    answer: &mut Answer,
) -> u32 {
    // SAFETY: as in `writes`.
    unsafe { c::samopute_write_advance(buffer.as_mut_ptr(), buffer.len(), cursor, width, answer) }
}

pub(crate) fn write_slice(
    buffer: &mut [u8],
    cursor: usize,
    source: &[u8],
    answer: &mut Answer,
) -> u32 {
    let (to, length) = (buffer.as_mut_ptr(), buffer.len());
    // SAFETY: as in `writes`; the source is a live slice too, and cannot overlap a buffer that is borrowed exclusively.
    unsafe { c::samopute_write_slice(to, length, cursor, source.as_ptr(), source.len(), answer) }
}

pub(crate) fn bits_remaining(buffer: &[u8], cursor: usize) -> usize {
    // SAFETY: the pointer and the length are those of a live slice, which is read only.
    unsafe { c::samopute_bits_remaining(buffer.as_ptr(), buffer.len(), cursor) }
}

pub(crate) fn scale(f: RawField, raw: u64, answer: &mut ScaleAnswer) -> u32 {
    // SAFETY: numbers go in, and `answer` has room for four.
    unsafe {
        c::samopute_scale(
            f.kind,
            f.width,
            f.is_signed,
            f.mark,
            f.resolution,
            raw,
            answer,
        )
    }
}

pub(crate) fn raw_of(f: RawField, value_kind: u32, value: u64, answer: &mut Answer) -> u32 {
    // SAFETY: numbers go in, and `answer` has room for three.
    unsafe {
        c::samopute_raw_of(
            f.kind,
            f.width,
            f.is_signed,
            f.mark,
            f.resolution,
            value_kind,
            value,
            answer,
        )
    }
}
