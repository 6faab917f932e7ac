//! What was written is read again: `samopute_decode` on the bytes used of each accepted encode has to give
//! the same fields, elements, spans, raws and bytes, a StringFix with its fill, and to end at the same bit.
use super::call::Taken;
use super::case::Case;
use crate::payload::call::Call;
use crate::payload::smaller::Smaller;
use crate::readings::boundary::records::{self, COUNT, RECORD};
use crate::samopute;
use crate::tally::Differing;
use model::reading::{self, PADDING, Reading};
use model::tables;
use model::writing::{Content, Encoded, Written, encode};

/// Room for some readings more than are wanted.
const MORE: usize = 2;

#[derive(Default)]
pub struct ReadBack {
    cases: Differing<Case>,
    fields: usize,
    texts: usize,
    filled: usize,
}

/// What a decode gives: the readings, the end, and the working payload.
struct Back {
    status: u32,
    readings: Vec<Option<Reading>>,
    end: u64,
    payload: Vec<u8>,
    is_filled: bool,
}

impl ReadBack {
    pub fn add(&mut self, case: &Case, encoded: &Encoded, taken: &Taken) {
        let (Some(payload), Ok(())) = (taken.used(), encoded.outcome) else {
            return;
        };
        let back = decoded(case, payload, encoded.written.len());
        self.cases.met += 1;
        self.filled += usize::from(back.is_filled);
        for written in &encoded.written {
            self.fields += usize::from(written.content != Content::Skipped);
            self.texts += usize::from(matches!(written.content, Content::Bytes { .. }));
        }
        if !is_same(encoded, &back) {
            (self.cases).add(|known| case.is_smaller(known), || case.clone());
        }
    }

    pub fn outcome(&self) -> Result<String, String> {
        self.cases.none(shown)?;
        let cases = self.cases.met;
        if [cases, self.fields, self.texts, self.filled].contains(&0) {
            return Err("no case, no field, no text or no filled payload".to_string());
        }
        Ok(format!(
            "{cases} cases, {} fields, of which {} texts and bytes; {} payloads filled to be read",
            self.fields, self.texts, self.filled
        ))
    }
}

fn decoded(case: &Case, payload: &[u8], fields: usize) -> Back {
    let mut padding = [0; PADDING];
    let mut room = vec![0; COUNT + (fields + MORE) * RECORD];
    let mut answer = [0; 6];
    let status = samopute::decode(&case.words, payload, &mut padding, &mut room, &mut answer);
    let [count, filled, end, ..] = answer;
    let (records, _) = room[COUNT..].as_chunks::<RECORD>();
    let readings = records.iter().take(count as usize);
    Back {
        status,
        readings: readings
            .map(|one| records::reading(records::numbers(one)))
            .collect(),
        end,
        payload: match filled {
            0 => payload.to_vec(),
            _ => padding[..filled as usize].to_vec(),
        },
        is_filled: filled != 0,
    }
}

fn is_same(encoded: &Encoded, back: &Back) -> bool {
    let written = encoded.written.iter();
    let written: Vec<&Written> = written
        .filter(|one| one.content != Content::Skipped)
        .collect();
    let mut pairs = written.iter().zip(&back.readings);
    back.status == 0
        && back.end == encoded.cursor as u64
        && back.readings.len() == written.len()
        && pairs.all(|(one, reading)| {
            let reading = reading.as_ref();
            reading.is_some_and(|reading| is_read(one, reading, &back.payload))
        })
}

fn is_read(written: &Written, reading: &Reading, payload: &[u8]) -> bool {
    let content = match reading.content {
        reading::Content::Number { raw, .. } => Some(Content::Number { raw }),
        reading::Content::Bytes {
            place,
            length,
            encoding,
        } => {
            let bytes = payload.get(place..place.saturating_add(length));
            bytes.map(|bytes| Content::Bytes {
                bytes: bytes.to_vec(),
                encoding,
            })
        }
    };
    written.field == reading.field
        && written.element == reading.element
        && written.start == reading.start
        && written.bits == reading.bits
        && content.as_ref() == Some(&written.content)
}

/// The case made as small as it gets, and what is read.
fn shown(case: &Case) -> String {
    let read = |case: &Case| {
        let mut buffer = vec![0; case.size];
        let table = tables::read(&case.words);
        let encoded = encode(&table, &case.given(), &case.text, &mut buffer);
        let taken = Taken::new(case, Call::Words);
        let back = taken
            .used()
            .map(|payload| decoded(case, payload, encoded.written.len()));
        (encoded, back)
    };
    let differs = |case: &Case| match read(case) {
        (encoded, Some(back)) if encoded.outcome.is_ok() => !is_same(&encoded, &back),
        _ => false,
    };
    let case = case.shrunk(|steps| steps.iter().position(differs));
    let (encoded, back) = read(&case);
    let read = back.map_or("nothing".to_string(), |back| {
        format!(
            "status {}, {:?}, end {}",
            back.status, back.readings, back.end
        )
    });
    format!(
        "\n  {}\n    {read}\n  where this was written\n    {:?}, end {}",
        case.line(),
        encoded.written,
        encoded.cursor
    )
}
