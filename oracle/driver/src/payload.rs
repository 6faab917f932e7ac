//! What reading a payload and writing one share.
pub mod call;
pub mod described;
pub mod exhaustive;
pub mod held;
pub mod lent;
pub mod lines;
pub mod run;
pub mod shapes;
pub mod smaller;
pub mod test;
pub mod unknown;
