//! An answer as far as the Rust tells it. It hands out no spans, no places and no end, its refusals 1 to
//! 4 name no field, and it has no room to run out of: the reading that finds none is taken for 9. Of the
//! oracle with stand-ins all but the places can be asked.
use super::answer::Answer;
use super::case::Case;
use super::refusal;
use crate::bytes_left;
use crate::case::hex;
use model::Refusal;
use model::numbers::{Kind, Value};
use model::reading::{Content, Fault, Reading};
use model::tables::Table;
use std::fmt::Write;

#[derive(Clone, Debug, PartialEq, Eq)]
pub struct Told {
    pub readings: Vec<Seen>,
    pub refusal: Option<Refused>,
    /// Where the walk ended.
    pub end: Option<usize>,
    /// The padding run afterwards.
    pub padding: Option<Vec<u8>>,
}

#[derive(Clone, Debug, PartialEq, Eq)]
pub struct Seen {
    pub field: usize,
    pub element: Option<usize>,
    pub raw: Option<u64>,
    pub what: What,
    pub available: bool,
    /// The start and the bits taken.
    pub span: Option<[usize; 2]>,
}

#[derive(Clone, Debug, PartialEq, Eq)]
pub enum What {
    Number(Value),
    Bytes {
        bytes: Vec<u8>,
        encoding: Option<u8>,
    },
    /// A place that is not in the working payload.
    Nowhere,
}

#[derive(Clone, Debug, PartialEq, Eq)]
pub struct Refused {
    pub number: u32,
    /// The field of 1 to 4.
    pub field: Option<usize>,
    /// What it carries beside.
    pub carried: Vec<u64>,
}

/// What an answer says of what the Rust tells, `whole` with what only the stand-ins can be asked for.
pub fn told(answer: &Answer, case: &Case, whole: bool) -> Told {
    let seen = |reading: &Reading| {
        let (raw, what) = seen_content(reading.content, working(answer, case));
        Seen {
            field: reading.field,
            element: reading.element,
            raw,
            what,
            available: reading.available,
            span: whole.then_some([reading.start, reading.bits]),
        }
    };
    Told {
        readings: answer.readings.iter().map(seen).collect(),
        refusal: answer.outcome.err().map(|fault| refused(fault, whole)),
        end: answer.outcome.ok().filter(|_| whole),
        padding: whole.then(|| answer.padding.clone()),
    }
}

/// The working payload: the padding run if that was filled, else what was received.
pub fn working<'a>(answer: &'a Answer, case: &'a Case) -> &'a [u8] {
    if answer.padding.is_empty() {
        &case.payload
    } else {
        &answer.padding
    }
}

/// Bytes are looked up through their place.
fn seen_content(content: Content, working: &[u8]) -> (Option<u64>, What) {
    match content {
        Content::Number { raw, value } => (Some(raw), What::Number(value)),
        Content::Bytes {
            place,
            length,
            encoding,
        } => {
            let bytes = working.get(place..place.saturating_add(length));
            let what = bytes.map_or(What::Nowhere, |bytes| What::Bytes {
                bytes: bytes.to_vec(),
                encoding,
            });
            (None, what)
        }
    }
}

fn refused(fault: Fault, whole: bool) -> Refused {
    let number = fault.number();
    let mut carried = refusal::listed(fault);
    let field = (1..=4).contains(&number).then(|| carried.remove(0));
    Refused {
        number,
        field: field.filter(|_| whole).map(|field| field as usize),
        carried,
    }
}

/// Where the bytes of a field begin that the payload has not, if that is why it does not decode: those of
/// a text stand behind its length byte, and its encoding byte. `stopped` is where the field starts.
pub fn short_slice(table: &Table, outcome: Result<usize, Fault>, stopped: usize) -> Option<usize> {
    let Err(Fault::Bits { field, refusal }) = outcome else {
        return None;
    };
    let Refusal::BeyondBytes { .. } = refusal else {
        return None;
    };
    Some(match table.fields[field].kind {
        Kind::StringLz => stopped + 8,
        Kind::StringLau => stopped + 16,
        _ => stopped,
    })
}

/// A number, or what stands for one that is not told.
fn or(number: Option<usize>, none: &str) -> String {
    number.map_or(none.to_string(), |number| number.to_string())
}

impl Told {
    /// The same, where refusal 2 of the slice at this bit, which the Rust gives with the end and the size,
    /// carries what ours carries.
    pub fn with_bytes_left(mut self, slice: Option<usize>) -> Told {
        let refused = self.refusal.as_mut().filter(|refused| refused.number == 2);
        if let (Some(cursor), Some(Refused { carried, .. })) = (slice, refused) {
            let (end, size) = (carried[0] as usize, carried[1] as usize);
            let (asked, available) = bytes_left::from_cursor(cursor, end, size);
            *carried = vec![asked as u64, available as u64];
        }
        self
    }

    /// As the program prints it, with `?` for what is not told and bytes in place of places.
    pub fn text(&self) -> String {
        let mut text = String::new();
        for seen in &self.readings {
            writeln!(text, "{}", seen.text()).unwrap();
        }
        match &self.refusal {
            None => writeln!(text, "E {} {}", or(self.end, "?"), self.readings.len()).unwrap(),
            Some(refused) => writeln!(text, "F {}", refused.text()).unwrap(),
        }
        if let Some(padding) = &self.padding {
            writeln!(text, "D {}", hex(padding)).unwrap();
        }
        text
    }
}

impl Refused {
    pub fn text(&self) -> String {
        let mut text = self.number.to_string();
        if (1..=4).contains(&self.number) {
            text += &format!(" {}", or(self.field, "?"));
        }
        text.extend(self.carried.iter().map(|value| format!(" {value}")));
        text
    }
}

impl Seen {
    fn text(&self) -> String {
        let raw = self.raw.map_or("-".to_string(), |raw| format!("{raw:X}"));
        let state = if self.available { 'A' } else { 'N' };
        let what = match &self.what {
            What::Number(value) => format!("{:?} {:X}", value.kind, value.bits),
            What::Bytes { bytes, encoding } => {
                let encoding = encoding.map_or("-".to_string(), |byte| format!("{byte:02X}"));
                format!("Bytes {} {encoding}", hex(bytes))
            }
            What::Nowhere => "Bytes nowhere".to_string(),
        };
        let span = match self.span {
            Some([start, bits]) => format!("{start} {bits}"),
            None => "? ?".to_string(),
        };
        let element = or(self.element, "-");
        format!("R {} {element} {span} {state} {raw} {what}", self.field)
    }
}
