//! A table whose answer was worked out by hand.
use super::built_in::table;
use super::words::pack;
use model::tables::{Broken, Field, Set};

pub struct Case {
    pub words: Vec<u64>,
    pub answer: Result<(), Broken>,
}

pub fn broken(letter: char, index: usize, fields: &[Field], sets: &[Set]) -> Case {
    Case {
        words: pack(&table(fields, sets)),
        answer: Err((letter, index)),
    }
}
