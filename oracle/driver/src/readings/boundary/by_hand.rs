//! Calls whose answers were worked out by hand: the payloads of document 01 and its rules, and some with
//! every number of their records.
use super::call::Taken;
use super::records::{COUNT, RECORD};
use crate::payload::call::Call;
use crate::readings::by_hand;
use crate::readings::case::{AMPLE, Case};
use crate::readings::sides::Given;
use crate::report::Report;
use crate::samopute::{self, CReading};
use crate::tables::built_in::{bare, field, sized, table, table_129026};
use crate::tables::words::pack;
use model::numbers::Kind;
use model::reading::PADDING;
use model::tables::Table;

/// Version 3.0.
const VERSION: u32 = 3 << 16;

const NONE: u64 = u64::MAX;

pub fn run(report: &mut Report) {
    let version = samopute::version();
    let outcome = match version {
        VERSION => Ok("3.0".to_string()),
        _ => Err(format!("{version}, where {VERSION} is wanted")),
    };
    report.line("the version of the interface", outcome);
    report.line("payloads worked out by hand, by samopute_decode", worked());
    report.line("records worked out by hand, by samopute_decode", records());
    let name = "records worked out by hand, by samopute_decode_run";
    report.line(name, structs());
}

fn worked() -> Result<String, String> {
    let all = by_hand::all();
    for one in &all {
        let room = one.case.room.min(AMPLE);
        let case = Case {
            room,
            ..one.case.clone()
        };
        let taken = Taken::new(&case, Call::Words);
        let given = taken.answer(false).map(|answer| answer.text());
        if given.as_ref() != Some(&one.wanted) {
            let (line, given) = (case.line(), taken.text());
            return Err(format!("\n  {line}\n  {given}\n  {} is wanted", one.wanted));
        }
    }
    Ok(format!("{} cases", all.len()))
}

/// Bytes behind the readings buffer that are not lent.
const BEHIND: usize = 16;

/// A call with a readings buffer of zeros, and what it leaves.
struct Exact {
    table: Table,
    payload: &'static [u8],
    length: usize,
    status: u32,
    answer: samopute::Decoded,
    /// The records; the count comes before them.
    records: &'static [[u64; 8]],
}

fn records() -> Result<String, String> {
    let all = exact();
    for (i, one) in all.iter().enumerate() {
        let (mut padding, mut readings) = ([0; PADDING], vec![0; one.length + BEHIND]);
        let mut answer = [NONE; 6];
        let (words, payload) = (pack(&one.table), one.payload.to_vec());
        let lent = &mut readings[..one.length];
        let status = samopute::decode(&words, &payload, &mut padding, lent, &mut answer);
        let given = (status, answer, readings);
        let wanted = (one.status, one.answer, one.readings());
        if given != wanted {
            return Err(format!("\n  case {i}\n  {given:?}\n  {wanted:?} is wanted"));
        }
    }
    Ok(format!("{} cases", all.len()))
}

/// The same into structs: as many as find room, and one behind them that is not lent.
fn structs() -> Result<String, String> {
    let all = exact();
    for (i, one) in all.iter().enumerate() {
        let room = one.length.saturating_sub(COUNT) / RECORD;
        let (mut padding, mut structs) = ([0; PADDING], vec![CReading::EMPTY; room + 1]);
        let mut answer = [NONE; 6];
        let (words, payload) = (pack(&one.table), one.payload.to_vec());
        let lent = &mut structs[..room];
        let status = samopute::decode_run(&words, &payload, &mut padding, lent, &mut answer);
        let given = (status, answer, structs);
        let wanted = (one.status, one.answer, one.structs(room + 1));
        if given != wanted {
            return Err(format!(
                "\n  case {i}\n  {given:X?}\n  {wanted:X?} is wanted"
            ));
        }
    }
    Ok(format!("{} cases", all.len()))
}

impl Exact {
    /// So many structs: those of the records, then empty ones.
    fn structs(&self, count: usize) -> Vec<CReading> {
        let records = self.records.iter().copied();
        let mut made: Vec<CReading> = records.map(CReading::of).collect();
        made.resize(count, CReading::EMPTY);
        made
    }

    fn readings(&self) -> Vec<u8> {
        let count = self.records.len() as u64;
        let numbers = [&[count], self.records.as_flattened()].concat();
        let mut bytes: Vec<u8> = numbers.iter().flat_map(|n| n.to_le_bytes()).collect();
        // A buffer that does not hold the count has none of its bytes.
        if self.length < COUNT {
            bytes.clear();
        }
        bytes.resize(self.length + BEHIND, 0);
        bytes
    }
}

fn exact() -> Vec<Exact> {
    let cog_sog: &[u8] = &[0x2A, 0xFC, 0x5C, 0x3D, 0xC0, 0x98, 0xFF, 0xFF];
    vec![
        // Document 01's frame: two U8, two F32 of 0x3D5C * 0.0001 and 0x98C0 * 0.01.
        Exact {
            table: table_129026(),
            payload: cog_sog,
            length: COUNT + 4 * RECORD + 9,
            status: 0,
            answer: [4, 0, 64, 0, 0, 0],
            records: &[
                [0, NONE, 0, 8, 0x1_0400, 0x2A, 0x2A, 0],
                [1, NONE, 8, 2, 0x1_0400, 0, 0, 0],
                [3, NONE, 16, 16, 0x1_0A00, 0x3D5C, 0x3FC9_0FF9, 0],
                [4, NONE, 32, 16, 0x1_0A00, 0x98C0, 0x43C3_851E, 0],
            ],
        },
        // A byte short of two records.
        Exact {
            table: table_129026(),
            payload: cog_sog,
            length: COUNT + 2 * RECORD - 1,
            status: 9,
            answer: [1, 0, 1, 0, 0, 0],
            records: &[[0, NONE, 0, 8, 0x1_0400, 0x2A, 0x2A, 0]],
        },
        // No room for the count.
        Exact {
            table: table_129026(),
            payload: cog_sog,
            length: COUNT - 1,
            status: 9,
            answer: [0, 0, 0, 0, 0, 0],
            records: &[],
        },
        // Filled from 1 byte to 4: a text that is there, and one of fill, not available.
        Exact {
            table: sized(
                4,
                1,
                &[field(Kind::StringFix, 8), field(Kind::StringFix, 24)],
            ),
            payload: &[0x41],
            length: COUNT + 2 * RECORD,
            status: 0,
            answer: [2, 4, 32, 0, 0, 0],
            records: &[
                [0, NONE, 0, 8, 0x0B00, 0, 0, 1],
                [1, NONE, 8, 24, 0x0B01, 0, 1, 3],
            ],
        },
        // An encoding byte with a text and without one.
        Exact {
            table: table(&[bare(Kind::StringLau), bare(Kind::StringLau)], &[]),
            payload: &[3, 1, 0x41, 2, 7],
            length: COUNT + 2 * RECORD,
            status: 0,
            answer: [2, 0, 40, 0, 0, 0],
            records: &[
                [0, NONE, 0, 24, 0x01_0100_0B00, 0, 2, 1],
                [1, NONE, 24, 16, 0x07_0100_0B01, 0, 0, 0],
            ],
        },
        // Refusal 2 names its field first, and counts bits.
        Exact {
            table: table(&[field(Kind::Date, 16)], &[]),
            payload: &[0],
            length: COUNT,
            status: 2,
            answer: [0, 0, 0, 16, 8, 1],
            records: &[],
        },
        // Two that carry the same: 7 of the 8 bits of a length byte, and 7 of 8 bytes.
        Exact {
            table: table(&[field(Kind::Number, 1), bare(Kind::StringLau)], &[]),
            payload: &[0],
            length: COUNT + RECORD,
            status: 2,
            answer: [1, 0, 1, 8, 7, 1],
            records: &[[0, NONE, 0, 1, 0x1_0400, 0, 0, 0]],
        },
        Exact {
            table: table(&[field(Kind::Number, 8), bare(Kind::StringLau)], &[]),
            payload: &[0, 10, 1, 0x41, 0x42, 0x43, 0x44, 0x45, 0x46, 0x47],
            length: COUNT + RECORD,
            status: 2,
            answer: [1, 0, 1, 8, 7, 8],
            records: &[[0, NONE, 0, 8, 0x1_0400, 0, 0, 0]],
        },
        // Bytes of a filled payload: refused in its length, not in that of what was received.
        Exact {
            table: sized(3, 1, &[field(Kind::Binary, 32)]),
            payload: &[0x41],
            length: COUNT,
            status: 2,
            answer: [0, 3, 0, 4, 3, 8],
            records: &[],
        },
        // Rule b.
        Exact {
            table: table(&[field(Kind::Unimplemented, 8)], &[]),
            payload: &[0],
            length: 0,
            status: 8,
            answer: [0, 0, 2, 0, 0, 0],
            records: &[],
        },
    ]
}
