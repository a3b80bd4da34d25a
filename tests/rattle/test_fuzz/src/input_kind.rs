//! The kinds of inputs.
use std::fmt;

/// What is done to an input.
#[derive(Clone, Copy, Debug, PartialEq, Eq)]
pub enum InputKind {
    Good,
    Pipelined,
    LongLines,
    BrokenOff,
    CutLines,
    ChangedBytes,
    WrongBodies,
    Noise,
}

impl InputKind {
    pub const ALL: [InputKind; 8] = [
        InputKind::Good,
        InputKind::Pipelined,
        InputKind::LongLines,
        InputKind::BrokenOff,
        InputKind::CutLines,
        InputKind::ChangedBytes,
        InputKind::WrongBodies,
        InputKind::Noise,
    ];

    /// Eight seeds in a row have eight kinds.
    pub fn of_seed(seed: u64) -> InputKind {
        Self::ALL[(seed % 8) as usize]
    }
}

impl fmt::Display for InputKind {
    fn fmt<W: fmt::Write>(&self, f: &mut fmt::Formatter<W>) -> fmt::Result {
        f.write_str(match self {
            InputKind::Good => "good commands",
            InputKind::Pipelined => "many commands at once, and a quit among them",
            InputKind::LongLines => "long lines",
            InputKind::BrokenOff => "inputs that break off",
            InputKind::CutLines => "lines with a cut",
            InputKind::ChangedBytes => "changed bytes",
            InputKind::WrongBodies => "bodies of another length than is said",
            InputKind::Noise => "scraps of lines",
        })
    }
}
