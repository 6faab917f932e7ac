//! PGN 129029 decoded by a function that knows nothing else: what a decoder by table is held against. It
//! gives values alone, no spans, raws or availability.

use super::positions::{FIXED, STATION};
use model::numbers::{Value, ValueKind};

/// The most stations that a payload may have.
const STATIONS: usize = 45;

#[derive(Clone, Copy, Default)]
pub struct Station {
    pub system: u8,
    pub id: u16,
    pub age: f32,
}

pub struct Position {
    pub sid: u8,
    pub date: u16,
    pub time: f64,
    pub latitude: f64,
    pub longitude: f64,
    pub altitude: f64,
    pub system: u8,
    pub method: u8,
    pub integrity: u8,
    pub satellites: u8,
    pub hdop: f32,
    pub pdop: f32,
    pub separation: f64,
    pub declared: u8,
    pub count: usize,
    pub stations: [Station; STATIONS],
}

impl Position {
    pub fn new() -> Position {
        Position {
            sid: 0,
            date: 0,
            time: 0.0,
            latitude: 0.0,
            longitude: 0.0,
            altitude: 0.0,
            system: 0,
            method: 0,
            integrity: 0,
            satellites: 0,
            hdop: 0.0,
            pdop: 0.0,
            separation: 0.0,
            declared: 0,
            count: 0,
            stations: [Station::default(); STATIONS],
        }
    }
}

impl Position {
    /// The values in the order of the payload, as a decoder by table has them.
    pub fn values(&self) -> Vec<Value> {
        let mut all = vec![
            byte(self.sid),
            word(self.date),
            Value::double(self.time),
            Value::double(self.latitude),
            Value::double(self.longitude),
            Value::double(self.altitude),
            byte(self.system),
            byte(self.method),
            byte(self.integrity),
            byte(self.satellites),
            Value::single(self.hdop),
            Value::single(self.pdop),
            Value::double(self.separation),
            byte(self.declared),
        ];
        for station in &self.stations[..self.count] {
            let age = Value::single(station.age);
            all.extend([byte(station.system), word(station.id), age]);
        }
        all
    }
}

fn byte(number: u8) -> Value {
    Value::whole(ValueKind::U8, number.into())
}

fn word(number: u16) -> Value {
    Value::whole(ValueKind::U16, number.into())
}

/// The numbers of the table, widened where the value is an f64.
const TIME: f64 = 0.0001_f32 as f64;
const DEGREES: f64 = 1e-16_f32 as f64;
const ALTITUDE: f64 = 1e-6_f32 as f64;
const SEPARATION: f64 = 0.01_f32 as f64;
const DILUTION: f32 = 0.01;
const AGE: f64 = 0.01_f32 as f64;

/// False if the payload is cut short or has too many stations.
#[inline(never)]
pub fn decode(payload: &[u8], position: &mut Position) -> bool {
    let Some((fixed, rest)) = payload.split_first_chunk::<FIXED>() else {
        return false;
    };
    position.sid = fixed[0];
    position.date = u16::from_le_bytes(part(fixed, 1));
    position.time = f64::from(u32::from_le_bytes(part(fixed, 3))) * TIME;
    position.latitude = i64::from_le_bytes(part(fixed, 7)) as f64 * DEGREES;
    position.longitude = i64::from_le_bytes(part(fixed, 15)) as f64 * DEGREES;
    position.altitude = i64::from_le_bytes(part(fixed, 23)) as f64 * ALTITUDE;
    position.system = fixed[31] & 0xF;
    position.method = fixed[31] >> 4;
    position.integrity = fixed[32] & 3;
    position.satellites = fixed[33];
    position.hdop = f32::from(i16::from_le_bytes(part(fixed, 34))) * DILUTION;
    position.pdop = f32::from(i16::from_le_bytes(part(fixed, 36))) * DILUTION;
    position.separation = f64::from(i32::from_le_bytes(part(fixed, 38))) * SEPARATION;
    let (stations, _) = rest.as_chunks::<STATION>();
    position.declared = fixed[42];
    let declared = if fixed[42] == 255 { 0 } else { fixed[42] };
    position.count = stations.len().min(declared.into());
    let Some(room) = position.stations.get_mut(..position.count) else {
        return false;
    };
    for (station, bytes) in room.iter_mut().zip(stations) {
        let word = u16::from_le_bytes([bytes[0], bytes[1]]);
        let age = u16::from_le_bytes([bytes[2], bytes[3]]);
        *station = Station {
            system: (word & 0xF) as u8,
            id: word >> 4,
            age: (f64::from(age) * AGE) as f32,
        };
    }
    true
}

/// Some bytes from a place on, which the compiler knows to be there.
#[inline(always)]
fn part<const N: usize>(fixed: &[u8; FIXED], at: usize) -> [u8; N] {
    fixed[at..at + N].try_into().expect("the length is N")
}
