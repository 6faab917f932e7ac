//! Words of accepted tables with faults put in, and words that were never a table.
use super::accepted::any_field;
use super::words::{
    KIND, MARK, Part, QUARTERS, RESOLUTION, RESOLUTIONS, SIGNED, WIDTH, WIDTHS, field_word, get,
    head, put,
};
use crate::random::Random;

/// Numbers at and beside the limits of rules a, g and h.
const COUNTS: [u64; 18] = [
    0, 1, 2, 3, 4, 5, 32, 63, 64, 65, 222, 223, 224, 255, 256, 257, 0x7FFF, 0xFFFF,
];

/// The longest run of words that is made up, and that is added.
const MADE_UP: usize = 12;
const ADDED: usize = 3;

/// Puts one to three faults into the words of a table. Some of them turn out to be none.
pub fn damage(words: &mut Vec<u64>, random: &mut Random) {
    for _ in 0..=random.up_to(2) {
        damage_once(words, random);
    }
}

fn damage_once(words: &mut Vec<u64>, random: &mut Random) {
    let Some(&head) = words.first() else {
        return words.push(any_head(random));
    };
    let (fields, sets) = (get(head, QUARTERS[0]), get(head, QUARTERS[1]));
    let field = 1 + random.up_to((fields as usize).saturating_sub(1));
    let set = 1 + fields as usize + random.up_to((sets as usize).saturating_sub(1));
    match random.up_to(9) {
        0..=2 => damage_part(words, field, any_part(random), random),
        3 => replace(words, field, field_word(&any_field(random))),
        4 => replace_counter(words, set, random),
        5 | 6 => move_quarter(words, set, random),
        7 => move_quarter(words, 0, random),
        8 => swap(words, field, set, random),
        _ => shift(words, random),
    }
}

fn replace(words: &mut [u64], at: usize, word: u64) {
    if let Some(old) = words.get_mut(at) {
        *old = word;
    }
}

/// A part of a field's word set to a value at a limit, or to any.
fn damage_part(words: &mut [u64], at: usize, part: Part, random: &mut Random) {
    if let Some(word) = words.get_mut(at) {
        put(word, part, any_value(part, random));
    }
}

fn any_part(random: &mut Random) -> Part {
    random.among(&[KIND, WIDTH, SIGNED, MARK, RESOLUTION])
}

/// A value for a part of a field's word.
fn any_value(part: Part, random: &mut Random) -> u64 {
    let any = random.next();
    let chosen = match part {
        KIND => random.up_to(19) as u64,
        WIDTH => random.among(&WIDTHS),
        RESOLUTION => random.among(&RESOLUTIONS),
        _ => any,
    };
    if random.up_to(7) == 0 { any } else { chosen }
}

/// The counter of a set gets a field of any kind.
fn replace_counter(words: &mut [u64], set: usize, random: &mut Random) {
    if let Some(&word) = words.get(set) {
        let counter = get(word, QUARTERS[2]) as usize;
        replace(words, 1 + counter, field_word(&any_field(random)));
    }
}

/// A number of the head or of a set moved a little, to a limit, or anywhere.
fn move_quarter(words: &mut [u64], at: usize, random: &mut Random) {
    if let Some(word) = words.get_mut(at) {
        let part = random.among(&QUARTERS);
        let near = random.near(get(*word, part) as usize, 2) as u64;
        let (limit, any) = (random.among(&COUNTS), random.next());
        put(word, part, random.among(&[near, near, near, limit, any]));
    }
}

/// Two fields, two sets, or one of each in each other's place.
fn swap(words: &mut [u64], field: usize, set: usize, random: &mut Random) {
    let (one, two) = (random.among(&[field, set]), random.near(set, 3));
    if one.max(two) < words.len() {
        words.swap(one, two);
    }
}

/// Words cut off, put in or taken out, a bit turned, or a word of any bits.
fn shift(words: &mut Vec<u64>, random: &mut Random) {
    let at = random.up_to(words.len() - 1);
    match random.up_to(4) {
        0 => words.truncate(random.among(&[at, words.len() - 1])),
        1 => {
            let added = 1 + random.up_to(ADDED - 1);
            let new: Vec<u64> = (0..added).map(|_| any_word(random)).collect();
            words.splice(at..at, new);
        }
        2 => {
            words.remove(at);
        }
        3 => words[at] ^= 1 << random.up_to(63),
        _ => words[at] = random.next(),
    }
}

/// Words that were never a table. A head of any bits is rare, as rule a refuses nearly all of them.
pub fn any_words(random: &mut Random) -> Vec<u64> {
    let mut words: Vec<u64> = (0..random.up_to(MADE_UP))
        .map(|_| any_word(random))
        .collect();
    if random.up_to(15) > 0
        && let Some(first) = words.first_mut()
    {
        *first = any_head(random);
        let fields = get(*first, QUARTERS[0]) as usize;
        for (i, word) in words.iter_mut().enumerate().skip(1) {
            if random.up_to(9) > 0 {
                *word = plausible(i <= fields, random);
            }
        }
    }
    words
}

/// A few fields and sets.
fn any_head(random: &mut Random) -> u64 {
    let fields = random.among(&[0, 1, 1, 2, 2, 3, 3, 4, 4, 5, 6, 64, 65]);
    let sets = random.among(&[0, 0, 1, 1, 1, 2, 2, 3, 4, 5]);
    let (length, minimum) = match random.up_to(3) {
        0 => (random.up_to(224), random.up_to(224)),
        _ => (0, 0),
    };
    head(fields, sets, length, minimum)
}

/// A field that keeps the rules b to e, or a small set.
fn plausible(is_field: bool, random: &mut Random) -> u64 {
    match (is_field, random.up_to(2)) {
        (false, _) => any_set(random),
        (true, 0) => field_word(&any_field(random)),
        (true, _) => number_of_a_byte(),
    }
}

fn number_of_a_byte() -> u64 {
    let mut word = 0;
    put(&mut word, WIDTH, 8);
    word
}

fn any_set(random: &mut Random) -> u64 {
    let mut word = 0;
    for (part, most) in QUARTERS.into_iter().zip([4, 3, 3, 256]) {
        put(&mut word, part, random.up_to(most) as u64);
    }
    word
}

/// Any bits, or a field whose parts are at limits.
fn any_word(random: &mut Random) -> u64 {
    if random.up_to(1) == 0 {
        return random.next();
    }
    let mut word = 0;
    for part in [KIND, WIDTH, SIGNED, MARK, RESOLUTION] {
        put(&mut word, part, any_value(part, random));
    }
    word
}
