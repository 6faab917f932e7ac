//! Readings through the C interface of the library: the same comparison as with the program, with every
//! byte of the lent buffers and of what lies around them.
mod by_hand;
mod call;
pub mod compare;
mod lent;
pub mod records;
mod run;
