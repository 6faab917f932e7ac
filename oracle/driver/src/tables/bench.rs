//! The benchmark of the table check: two built-in tables, by the library and by the model.
use super::built_in::{table_129026, table_129029};
use super::words::pack;
use crate::samopute;
use crate::timing::{self, ROUNDS, timed};
use model::tables::{self, Table};
use std::hint::black_box;

const CHECKS: usize = 200_000;

pub fn run() {
    println!("ns a check, the least of {ROUNDS} rounds of {CHECKS} checks");
    for (name, table) in [("129029", table_129029()), ("129026", table_129026())] {
        let words = pack(&table);
        let [ours, from_words, as_read] =
            fastest([&|| check_ours(&words), &|| check_words(&words), &|| {
                check_table(&table)
            }]);
        println!(
            "{name}, fields {}, sets {}: ours {ours:.1}, the model from words {from_words:.1} \
             (ratio {:.2}), the model on a table already read {as_read:.1} (ratio {:.2})",
            table.fields.len(),
            table.sets.len(),
            ours / from_words,
            ours / as_read,
        );
    }
}

/// The least time of each work, in ns a check. Each has to accept.
fn fastest(works: [&dyn Fn() -> bool; 3]) -> [f64; 3] {
    timing::fastest(|| {
        works.map(|work| {
            let (time, accepted) = timed(|| (0..CHECKS).filter(|_| black_box(work())).count());
            assert!(accepted == CHECKS, "a built-in table is refused");
            time / CHECKS as f64
        })
    })
}

#[inline(never)]
fn check_ours(words: &[u64]) -> bool {
    samopute::check(black_box(words), &mut [0; 3]) == 0
}

/// The table is read into lists first, which the library does without.
#[inline(never)]
fn check_words(words: &[u64]) -> bool {
    tables::check(&tables::read(black_box(words))).is_ok()
}

#[inline(never)]
fn check_table(table: &Table) -> bool {
    tables::check(black_box(table)).is_ok()
}
