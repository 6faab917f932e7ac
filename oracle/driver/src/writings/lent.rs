//! The buffers that are lent to a call: where they lie and what the one to be written holds before.
use super::case::Case;
use crate::payload::lent::{Ending, Lent, drawn};

/// All that a call of a case is lent. It is told by the case alone, so that a case that is asked again
/// is asked the same.
#[derive(Clone, Debug, PartialEq, Eq)]
pub struct Buffers {
    pub values: Ending,
    pub text: Ending,
    pub payload: Lent,
}

impl Buffers {
    pub fn new(case: &Case) -> Buffers {
        let bytes = [&case.values[..], &case.text].concat();
        let mut random = drawn(&[case.size as u64], &case.words, &bytes);
        Buffers {
            values: Ending::new(&case.values, &mut random),
            text: Ending::new(&case.text, &mut random),
            payload: Lent::new(case.size, &mut random),
        }
    }
}
