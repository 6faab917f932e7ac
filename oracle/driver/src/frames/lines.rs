//! A fixed list of lines for the printing program: document 01's frame, then for each built-in message
//! good, short, damaged and hostile payloads, then lines that are 14 and 15.
use crate::case::hex;
use crate::cases::SEED;
use crate::random::Random;
use crate::readings::payloads::{damaged, made, sized};
use crate::tables::built_in::by_pgn;
use model::tables::{PAYLOAD_MAX, Table};
use std::collections::HashSet;

/// How many good, short and damaged payloads each message has.
const GOOD: usize = 28;
const SHORT: usize = 20;
const DAMAGED: usize = 30;

/// Longer than a program would keep of a line.
const VERY_LONG: usize = 1100;

pub fn all() -> Vec<String> {
    let mut random = Random::new(SEED);
    let mut all = vec!["01F8022AFC5C3DC098FFFF".to_string()];
    for (pgn, table) in by_pgn() {
        let pgn = format!("{pgn:06X}");
        let payloads = payloads(&table, &mut random);
        all.extend(payloads.iter().map(|payload| line(&pgn, payload)));
    }
    all.extend(crowded(&mut random));
    all.extend(malformed());
    all.extend(unknown(&mut random));
    let mut known = HashSet::new();
    all.retain(|line| known.insert(line.clone()));
    all
}

fn line(pgn: &str, payload: &[u8]) -> String {
    match payload.len() {
        0 => pgn.to_string(),
        _ => format!("{pgn}{}", hex(payload)),
    }
}

fn payloads(table: &Table, random: &mut Random) -> Vec<Vec<u8>> {
    let whole = whole(table);
    let mut all: Vec<Vec<u8>> = (0..GOOD).map(|_| made(table, random)).collect();
    for byte in [0x00, 0xFF, 0x7F, 0x80, 0x5A] {
        all.push(vec![byte; whole]);
    }
    for _ in 0..SHORT {
        let base = made(table, random);
        let length = random.up_to(base.len().saturating_sub(1));
        all.push(base[..length].to_vec());
    }
    // Cut at each place of a short message, around each end of a long one.
    let base = sized(&made(table, random), whole, random);
    let places = (0..whole).filter(|place| whole <= 16 || place % 3 == 0);
    all.extend(places.map(|place| base[..place].to_vec()));
    for _ in 0..DAMAGED {
        let base = made(table, random);
        all.push(damaged(&base, random));
    }
    let longer = [whole + 1, whole + 4, 100, PAYLOAD_MAX - 1, PAYLOAD_MAX];
    let too_long = [PAYLOAD_MAX + 1, 300, VERY_LONG];
    for length in longer.into_iter().chain(too_long) {
        all.push(sized(&base, length, random));
        all.push(random.bytes(length));
    }
    all
}

/// The bytes of a message without its elements.
fn whole(table: &Table) -> usize {
    let outside = (0..table.fields.len()).filter(|&field| !table.in_a_set(field));
    let bits: u32 = outside.filter_map(|field| table.fields[field].width).sum();
    bits.div_ceil(8) as usize
}

/// 129029 with more stations than fit, or than there may be: its counter is byte 42.
fn crowded(random: &mut Random) -> Vec<String> {
    let counts = [0, 1, 2, 44, 45, 46, 100, 254, 255];
    let lengths = [43, 44, 46, 47, 51, 219, 222, 223];
    let mut all = Vec::new();
    for count in counts {
        let length = random.among(&lengths);
        for length in [length, 47, 223] {
            let mut payload = random.bytes(length);
            payload.resize(length.max(43), 0);
            payload[42] = count;
            all.push(line("01F805", &payload));
        }
    }
    all
}

/// Lines that are no frames.
fn malformed() -> Vec<String> {
    let frame = "01F8022AFC5C3DC098FFFF";
    let mut all: Vec<String> = [
        "",
        " ",
        "0",
        "01",
        "01F8",
        "01F80",
        "01F8022",
        "01F8022AFC5C3DC098FFF",
        "01f8022AFC5C3DC098FFFF",
        "01F8022afc5c3dc098ffff",
        "01F8022AFC5C3DC098FFFf",
        "01F8022AFC5C3DC098FFFG",
        "G1F8022AFC5C3DC098FFFF",
        "01F802 2AFC5C3DC098FFFF",
        "01F802 2A FC 5C 3D C0 98 FF FF",
        " 01F8022AFC5C3DC098FFFF",
        "01F8022AFC5C3DC098FFFF ",
        "01F8022AFC5C3DC098FFFF\t",
        "01F8022AFC5C3DC098FFFF\r",
        "01F8022AFC5C3DC098FFF\r",
        "\r",
        "\r\r",
        "01F802,2AFC5C3DC098FFF",
        "0x01F8022AFC5C3DC098FFFF",
        "-1F8022AFC5C3DC098FFFF",
        "+1F8022AFC5C3DC098FFFF",
        "129026 2AFC5C3DC098FFFF",
        "P 01F802 8",
        "81F8020",
        "ffffff",
        "01F80/",
        "01F80:",
        "01F80@",
        "01F80`",
        "01F8é",
    ]
    .map(String::from)
    .into();
    // The fault at the very end of a line that is over any buffer.
    all.push(format!("{frame}{}", "0".repeat(2 * VERY_LONG + 1)));
    all.push(format!("{frame}{}a0", "0".repeat(2 * VERY_LONG)));
    all.push(format!("{frame}{} ", "0".repeat(2 * VERY_LONG - 1)));
    all
}

/// PGNs that are not built in, beside those that are and anywhere.
fn unknown(random: &mut Random) -> Vec<String> {
    let mut all = Vec::new();
    let beside = [
        "000000", "000001", "01F800", "01F803", "01F804", "01F806", "01FF53", "01FF55", "00F802",
        "02F802", "81F802", "01F902", "01F812", "FFFFFF", "129026", "1F8020", "F80200",
    ];
    for pgn in beside {
        let length = random.among(&[0, 1, 8, 8, 223, 224, 300]);
        all.push(line(pgn, &random.bytes(length)));
    }
    for _ in 0..8 {
        let pgn = format!("{:06X}", random.next() & 0xFF_FFFF);
        let length = random.up_to(20);
        all.push(line(&pgn, &random.bytes(length)));
    }
    all.push(line("000001", &vec![0; VERY_LONG]));
    all
}
