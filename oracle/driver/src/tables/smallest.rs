//! Makes a differing case smaller, as long as it still differs.
use super::words::{QUARTERS, get, put};

/// Words that still differ and that no single step makes smaller: a word taken out, alone or as a
/// field or a set of the head's counts, or a bit cleared.
pub fn shrink(words: &[u64], differs: &dyn Fn(&[u64]) -> bool) -> Vec<u64> {
    let mut words = words.to_vec();
    loop {
        let smaller = steps(&words).find(|step| differs(step));
        match smaller {
            Some(smaller) => words = smaller,
            None => return words,
        }
    }
}

fn steps(words: &[u64]) -> impl Iterator<Item = Vec<u64>> {
    let out = (0..words.len()).flat_map(move |at| {
        let mut alone = words.to_vec();
        alone.remove(at);
        let field = counted_less(&alone, 0);
        let set = counted_less(&alone, 1);
        [Some(alone), field, set].into_iter().flatten()
    });
    out.chain(cleared(words))
}

/// The words with one field or one set less in the head.
fn counted_less(words: &[u64], quarter: usize) -> Option<Vec<u64>> {
    let mut words = words.to_vec();
    let head = words.first_mut()?;
    let count = get(*head, QUARTERS[quarter]).checked_sub(1)?;
    put(head, QUARTERS[quarter], count);
    Some(words)
}

pub fn cleared(words: &[u64]) -> impl Iterator<Item = Vec<u64>> {
    let bits = (0..words.len()).flat_map(|at| (0..64).map(move |bit| (at, bit)));
    bits.filter(|&(at, bit)| words[at] >> bit & 1 == 1)
        .map(|(at, bit)| {
            let mut words = words.to_vec();
            words[at] ^= 1 << bit;
            words
        })
}
