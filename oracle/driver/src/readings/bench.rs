//! The benchmark of reading a payload: PGN 129029 by the library, by the Rust, and by a decoder of this
//! one message.
mod check;
mod kept;
mod lent;
mod plain;
pub mod positions;

use super::oracles::rust;
use crate::cases::SEED;
use crate::random::Random;
use crate::samopute::{self, CReading};
use crate::tables::built_in::table_129029;
use crate::tables::words::pack;
use crate::timing::{self, ROUNDS, timed};
use check::check;
use kept::{Kept, keep};
use korri_n2k::core::PgnDescriptor;
use korri_n2k::infra::codec::engine::for_each_field;
use lent::{FIXED_READINGS, Lent, MOST, PGN, STATION_READINGS};
use model::reading::PADDING;
use plain::Position;
use positions::{Part, Positions};
use std::hint::black_box;

pub const PAYLOADS: usize = 1_000_000;
const STATIONS: [usize; 3] = [0, 2, 10];

/// Ours in three ways, the Rust in two, and the plain decoder.
const SIDES: usize = 6;

/// The sides take turns after so many payloads, so that a slow spell of the machine hits all.
const TURN: usize = 1000;

pub fn run(payloads: usize) {
    println!("ns a payload, the least of {ROUNDS} rounds of {payloads} payloads of {PGN}");
    let mut random = Random::new(SEED);
    let table = table_129029();
    let words = pack(&table);
    let table = rust::Asked::new(&table).descriptor();
    for stations in STATIONS {
        let positions = Positions::new(payloads, stations, &mut random);
        let first = positions.parts(TURN).next();
        check(&words, table, first.expect("there are payloads"));
        let works: [&dyn Fn(Part) -> usize; SIDES] = [
            &|part| by_words(&words, part),
            &|part| by_run(&words, part),
            &by_pgn,
            &|part| by_rust(table, part),
            &|part| by_rust_kept(table, part),
            &by_hand,
        ];
        let wanted = (FIXED_READINGS + stations * STATION_READINGS) * payloads;
        let times = fastest(&positions, wanted, works);
        print_times(stations, times.map(|time| time / payloads as f64));
    }
}

fn print_times(stations: usize, [words, run, pgn, rust, kept, plain]: [f64; SIDES]) {
    println!(
        "{stations} stations: ours {words:.1}, into structs {run:.1} (of ours {:.2}), \
         by PGN {pgn:.1}; Rust {rust:.1} (ratio {:.2}), \
         Rust kept {kept:.1} (ratio {:.2}), plain {plain:.1} (ratio {:.1})",
        run / words,
        words / rust,
        words / kept,
        words / plain,
    );
}

/// The least time of each work in ns; each has to meet as many readings in each round.
fn fastest(
    positions: &Positions,
    wanted: usize,
    works: [&dyn Fn(Part) -> usize; SIDES],
) -> [f64; SIDES] {
    timing::fastest(|| {
        let (times, counts) = turns(positions, works);
        assert_eq!(counts, [wanted; SIDES], "a reading is missing");
        times
    })
}

/// The time and the readings of each work in one round. Another begins at each turn, as the first finds
/// the payloads in no cache.
fn turns(
    positions: &Positions,
    works: [&dyn Fn(Part) -> usize; SIDES],
) -> ([f64; SIDES], [usize; SIDES]) {
    let (mut times, mut counts) = ([0.0; SIDES], [0; SIDES]);
    for (turn, part) in positions.parts(TURN).enumerate() {
        for i in 0..SIDES {
            let i = (turn + i) % SIDES;
            let (time, count) = timed(|| works[i](part));
            times[i] += time;
            counts[i] += count;
        }
    }
    (times, counts)
}

/// Ours with the table in words, so with the table check in each call.
fn by_words(words: &[u64], part: Part) -> usize {
    lent(
        part,
        |payload,
         Lent {
             padding,
             readings,
             answer,
         }| { samopute::decode(words, payload, padding, readings, answer) },
    )
}

/// Ours with the table that is built in.
fn by_pgn(part: Part) -> usize {
    lent(
        part,
        |payload,
         Lent {
             padding,
             readings,
             answer,
         }| { samopute::decode_pgn(PGN, payload, padding, readings, answer) },
    )
}

/// The readings of calls with the same buffers.
#[inline(always)]
fn lent(part: Part, call: impl Fn(&[u8], &mut Lent) -> u32) -> usize {
    let mut lent = Lent::new();
    let mut count = 0;
    for payload in part.payloads() {
        assert_eq!(call(payload, &mut lent), 0);
        black_box(&lent);
        count += lent.answer[0] as usize;
    }
    count
}

/// Ours with the table in words, into structs.
fn by_run(words: &[u64], part: Part) -> usize {
    let (mut padding, mut structs, mut answer) = ([0; PADDING], [CReading::EMPTY; MOST], [0; 6]);
    let mut count = 0;
    for payload in part.payloads() {
        let status = samopute::decode_run(words, payload, &mut padding, &mut structs, &mut answer);
        assert_eq!(status, 0);
        black_box((&padding, &structs));
        count += answer[0] as usize;
    }
    count
}

fn by_rust(table: &'static PgnDescriptor, part: Part) -> usize {
    let payloads = part.payloads();
    payloads.map(|payload| visited(table, payload)).sum()
}

/// Each reading is made in memory as the Rust has it, and counted.
#[inline(never)]
fn visited(table: &'static PgnDescriptor, payload: &[u8]) -> usize {
    let mut count = 0;
    for_each_field(table, payload, |_, reading| {
        black_box(&reading);
        count += 1;
    })
    .expect("the payload is whole");
    count
}

/// Each reading is kept in a short record.
fn by_rust_kept(table: &'static PgnDescriptor, part: Part) -> usize {
    let mut records = [Kept::default(); MOST];
    let mut count = 0;
    for payload in part.payloads() {
        count += keep(table, payload, &mut records).expect("the payload is whole");
        black_box(&records);
    }
    count
}

fn by_hand(part: Part) -> usize {
    let mut position = Position::new();
    let mut count = 0;
    for payload in part.payloads() {
        assert!(plain::decode(payload, &mut position));
        black_box(&position);
        count += FIXED_READINGS + STATION_READINGS * position.count;
    }
    count
}
