//! The buffers that are lent to a call: where they lie, how long they are, and what they hold before.
use super::records::{COUNT, RECORD};
use crate::payload::lent::{Ending, Lent, drawn};
use crate::random::Random;
use crate::readings::case::Case;

/// All that a call of a case is lent. It is told by the case alone, so that a case that is asked again
/// is asked the same.
#[derive(Clone, Debug, PartialEq, Eq)]
pub struct Buffers {
    pub padding: Lent,
    pub readings: Lent,
    pub payload: Ending,
}

impl Buffers {
    pub fn new(case: &Case) -> Buffers {
        let sizes = [case.room, case.padding as u64, case.payload.len() as u64];
        let mut random = drawn(&sizes, &case.words, &case.payload);
        Buffers {
            payload: Ending::new(&case.payload, &mut random),
            padding: Lent::new(case.padding, &mut random),
            readings: Lent::new(length_for(case.room as usize, &mut random), &mut random),
        }
    }
}

/// A length with room for so many readings: just enough, or too short for one more. No room is also
/// where there is none for the count.
fn length_for(room: usize, random: &mut Random) -> usize {
    let more = random.up_to(RECORD - 1);
    if room == 0 && random.up_to(1) == 0 {
        return random.up_to(COUNT - 1);
    }
    COUNT + room * RECORD + random.among(&[0, 0, 1, 8, RECORD - 8, RECORD - 1, more])
}
