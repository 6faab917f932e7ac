//! Which sides are held against each other.

/// One side, and the one that it is held against.
#[derive(Clone, Copy, Debug, PartialEq, Eq)]
pub enum Pair {
    OursModel,
    OursStandin,
    OursRust,
    ModelStandin,
    ModelRust,
}

impl Pair {
    pub const ALL: [Pair; 5] = [
        Pair::OursModel,
        Pair::OursStandin,
        Pair::OursRust,
        Pair::ModelStandin,
        Pair::ModelRust,
    ];

    /// The name of a test on what the sides are asked.
    pub fn name(self, asked: &str) -> String {
        let side = if self.is_ours() { "" } else { "the model's " };
        let against = match self {
            Pair::OursModel => "the model",
            Pair::OursStandin | Pair::ModelStandin => "the stand-ins",
            Pair::OursRust | Pair::ModelRust => "the Rust",
        };
        format!("{side}{asked} against {against}")
    }

    pub fn is_ours(self) -> bool {
        matches!(self, Pair::OursModel | Pair::OursStandin | Pair::OursRust)
    }
}
