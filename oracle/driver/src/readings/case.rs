//! A payload to be read, with its table, the lent padding run and the room, in the form of the program
//! under test.
use crate::case::hex;
use model::reading::PADDING;

/// What the padding run holds before a call.
pub const FILLER: u8 = 0xA5;

/// Room for every reading that a payload can have: each takes a bit at least, but for one text of no
/// bytes at the end.
pub const AMPLE: u64 = 2000;

#[derive(Clone, Debug, PartialEq, Eq)]
pub struct Case {
    /// How many readings find room.
    pub room: u64,
    /// The length of the padding run.
    pub padding: usize,
    /// The table.
    pub words: Vec<u64>,
    pub payload: Vec<u8>,
}

impl Case {
    /// With the usual padding run and ample room.
    pub fn usual(words: Vec<u64>, payload: Vec<u8>) -> Case {
        Case {
            room: AMPLE,
            padding: PADDING,
            words,
            payload,
        }
    }

    /// `ROOM PADDING WORDS PAYLOAD`.
    pub fn line(&self) -> String {
        let words: Vec<String> = self.words.iter().map(|word| format!("{word:X}")).collect();
        format!(
            "{} {} {} {}",
            self.room,
            self.padding,
            words.join(","),
            hex(&self.payload)
        )
    }
}
