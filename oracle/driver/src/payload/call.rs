//! A call of the interface: how it is given its table, and what it leaves.

/// What the numbers of an answer are before a call, and those beside them.
pub const BEFORE: u64 = 0xA5A5_A5A5_A5A5_A5A5;

/// How the table is given.
#[derive(Clone, Copy, Debug)]
pub enum Call {
    Words,
    Pgn(u32),
}

/// What a call leaves.
#[derive(Clone, Debug, PartialEq, Eq)]
pub struct Left<B, const N: usize> {
    pub status: u32,
    /// The numbers of the answer, with one that is not lent on each side.
    pub answer: [u64; N],
    pub after: B,
    pub before: B,
    /// Whether what is lent to be read is as it was.
    pub is_input_kept: bool,
}

impl<B: Clone, const N: usize> Left<B, N> {
    /// What a call leaves that fills in these numbers, and touches no buffer.
    pub fn wanted<const LENT: usize>(&self, status: u32, numbers: [u64; LENT]) -> Left<B, N> {
        let mut answer = [BEFORE; N];
        *lent(&mut answer) = numbers;
        Left {
            status,
            answer,
            after: self.before.clone(),
            before: self.before.clone(),
            is_input_kept: true,
        }
    }

    /// Whether the numbers beside the answer are changed.
    pub fn is_answer_strayed(&self) -> bool {
        [self.answer[0], self.answer[N - 1]] != [BEFORE; 2]
    }
}

/// The numbers that are lent.
pub fn lent<const N: usize, const LENT: usize>(all: &mut [u64; N]) -> &mut [u64; LENT] {
    let lent = &mut all[1..N - 1];
    lent.try_into().expect("all but one on each side are lent")
}
