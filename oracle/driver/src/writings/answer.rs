//! What a side answers to a case: the bytes used or the refusal, and the whole buffer after.
use super::case::Case;
use crate::case::hex;
use model::Refusal;
use model::tables::Table;
use model::writing::{self, Encoded, Fault};

/// What every byte of a buffer is before a call, where it does not matter.
const BEFORE: u8 = 0xA5;

#[derive(Clone, Debug, PartialEq, Eq)]
pub enum Outcome {
    /// The bytes used.
    Used(usize),
    Refused(Fault),
    /// A refusal of the Rust that has no number.
    Other(String),
}

#[derive(Clone, Debug, PartialEq, Eq)]
pub struct Answer {
    pub outcome: Outcome,
    pub buffer: Vec<u8>,
}

/// Document 01's answer, on a buffer that holds one byte everywhere.
pub fn model(table: &Table, case: &Case) -> (Answer, Encoded) {
    let mut buffer = vec![BEFORE; case.size];
    let encoded = writing::encode(table, &case.given(), &case.text, &mut buffer);
    let outcome = match encoded.outcome {
        Ok(()) => Outcome::Used(encoded.used()),
        Err(fault) => Outcome::Refused(fault),
    };
    (Answer { outcome, buffer }, encoded)
}

impl Outcome {
    /// `ok USED` or `F NUMBER CARRIED...`.
    pub fn text(&self) -> String {
        match self {
            Outcome::Used(used) => format!("ok {used}"),
            Outcome::Refused(fault) => format!("F {}", fault_text(*fault)),
            Outcome::Other(error) => error.clone(),
        }
    }
}

impl Answer {
    /// 0, or the number of the refusal.
    pub fn number(&self) -> u32 {
        match self.outcome {
            Outcome::Refused(fault) => fault.number(),
            Outcome::Used(_) | Outcome::Other(_) => 0,
        }
    }

    /// The outcome, ` | ` and the buffer.
    pub fn text(&self) -> String {
        format!("{} | {}", self.outcome.text(), short(&self.buffer))
    }
}

/// The bytes of a buffer, without a long run of one byte at its end.
fn short(buffer: &[u8]) -> String {
    const SHOWN: usize = 12;
    let Some(last) = buffer.last() else {
        return hex(buffer);
    };
    let end = buffer.iter().rposition(|byte| byte != last);
    let (start, run) = buffer.split_at(end.map_or(0, |end| end + 1));
    if run.len() <= SHOWN {
        return hex(buffer);
    }
    let start: String = start.iter().map(|byte| format!("{byte:02X}")).collect();
    format!("{start}{last:02X}.. ({} times)", run.len())
}

/// `NUMBER CARRIED...`; a field of 1 to 3 comes first, and a rule is its letter.
fn fault_text(fault: Fault) -> String {
    if let Fault::Table((letter, index)) = fault {
        return format!("8 {letter} {index}");
    }
    let carried = carried(fault);
    let carried: String = carried.iter().map(|value| format!(" {value}")).collect();
    format!("{}{carried}", fault.number())
}

/// What a refusal carries; a rule as its number.
pub fn carried(fault: Fault) -> Vec<u64> {
    match fault {
        Fault::Bits { field, refusal } => [vec![field as u64], refusal.carried()].concat(),
        Fault::Elements {
            set,
            count,
            maximum,
        } => vec![set as u64, count, maximum as u64],
        Fault::Length(length) => vec![length as u64],
        Fault::Table((letter, index)) => vec![u64::from(letter) - 96, index as u64],
        Fault::OutOfRange { field }
        | Fault::OtherKind { field }
        | Fault::Values(field)
        | Fault::TooLong { field } => vec![field as u64],
    }
}

/// The refusal of a number, if it carries just these.
pub fn fault(number: u32, values: [u64; 3]) -> Option<Fault> {
    let [one, two, three] = values;
    let field = one as usize;
    let fault = match number {
        1 => {
            let (max, width) = (u32::try_from(two).ok()?, u32::try_from(three).ok()?);
            let refusal = Refusal::Width { max, width };
            Fault::Bits { field, refusal }
        }
        2 => {
            let (asked, available) = (two as usize, three as usize);
            let refusal = Refusal::BeyondBits { asked, available };
            Fault::Bits { field, refusal }
        }
        3 => {
            let cursor = two as usize;
            let refusal = Refusal::Unaligned { cursor };
            Fault::Bits { field, refusal }
        }
        5 => Fault::Elements {
            set: one as usize,
            count: two,
            maximum: three as usize,
        },
        7 => Fault::Length(one as usize),
        8 => {
            let letter = u8::try_from(one).ok()?.checked_add(b'a' - 1)?;
            Fault::Table((letter.into(), two as usize))
        }
        10 => Fault::OutOfRange { field },
        11 => Fault::OtherKind { field },
        12 => Fault::Values(field),
        13 => Fault::TooLong { field },
        _ => return None,
    };
    let mut carried = carried(fault);
    carried.resize(3, 0);
    (carried == values).then_some(fault)
}
