//! Values to be written, with their table, the lent text and the size of the buffer.
use super::records::{self, RECORD};
use crate::case::hex;
use model::writing::Given;

#[derive(Clone, Debug, PartialEq, Eq)]
pub struct Case {
    /// The size of the buffer, in bytes.
    pub size: usize,
    /// The table.
    pub words: Vec<u64>,
    /// The values, in records, of which the last may be cut short.
    pub values: Vec<u8>,
    /// The lent text.
    pub text: Vec<u8>,
}

impl Case {
    /// `SIZE WORDS VALUES TEXT`.
    pub fn line(&self) -> String {
        let words: Vec<String> = self.words.iter().map(|word| format!("{word:X}")).collect();
        format!(
            "{} {} {} {}",
            self.size,
            or_dash(&words),
            or_dash(
                &self
                    .values
                    .chunks(RECORD)
                    .map(records::text)
                    .collect::<Vec<_>>()
            ),
            hex(&self.text)
        )
    }

    pub fn given(&self) -> Vec<Given> {
        records::all_given(&self.values)
    }
}

fn or_dash(texts: &[String]) -> String {
    match texts {
        [] => "-".to_string(),
        texts => texts.join(","),
    }
}
