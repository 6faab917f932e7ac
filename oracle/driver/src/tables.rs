//! Tables: the table check, rules a to h.
pub mod accepted;
mod answer;
pub mod bench;
pub mod built_in;
mod by_hand;
pub mod compare;
pub mod damaged;
mod exhaustive;
pub mod small;
pub mod smallest;
pub mod words;
mod worked;
mod worked_rules;
