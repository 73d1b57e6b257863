//! What is asked of a board and what it answers: calls with the values beside
//! them, answers, refusals.

use crate::sizes::MOST_SEGMENTS;

/// A store's new values or a load's answered ones: the first W places count.
pub type Values = [u64; MOST_SEGMENTS];

pub const NO_VALUES: Values = [0; MOST_SEGMENTS];

/// A call names its variable as it was given, in range or not.
#[derive(Clone, Copy, PartialEq, Eq, Debug)]
pub enum Call {
    Load(u64),
    Validate(u64),
    Store(u64),
}

#[derive(Clone, Copy, PartialEq, Eq, Debug)]
pub enum Answer {
    Begun,
    Busy,
    Value(Values),
    Witness(u64),
    Yes,
    No,
    Refused(Refusal),
}

/// Document 01's refusals by number. The second, lent memory too short, is not
/// here: a board of this program holds all 144 words itself.
#[derive(Clone, Copy, PartialEq, Eq, Debug)]
pub enum Refusal {
    Setting = 1,
    Form = 3,
    Process = 4,
    Variable = 5,
    InCall = 6,
    NoSequence = 7,
    Value = 8,
    Idle = 9,
    Record = 10,
    Field = 11,
    Limit = 12,
}

impl Refusal {
    pub fn number(self) -> u64 {
        self as u64
    }
}
