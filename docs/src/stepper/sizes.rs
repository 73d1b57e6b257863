//! The sizes of a board: the settings that a set-up record gives, and check 1,
//! which holds them to their ranges.

use crate::word::Layout;

pub const MOST_PROCESSES: usize = 16;
pub const MOST_VARIABLES: usize = 16;
pub const MOST_SEGMENTS: usize = 4;
pub const MOST_WORDS: usize = MOST_VARIABLES * (1 + MOST_SEGMENTS) + MOST_PROCESSES * MOST_SEGMENTS;

#[derive(Clone, Copy, PartialEq, Eq, Debug)]
pub enum Kind {
    One,
    Many,
}

impl Kind {
    pub fn name(self) -> &'static str {
        match self {
            Kind::One => "one",
            Kind::Many => "many",
        }
    }
}

/// The settings as a set-up record gives them, in range or not.
#[derive(Clone, Copy, PartialEq, Eq, Debug)]
pub struct Settings {
    pub kind: Kind,
    pub processes: u64,
    pub variables: u64,
    pub tag_bits: u64,
    pub segments: u64,
}

impl Settings {
    /// Check 1.
    pub fn in_range(&self) -> bool {
        let most_segments = match self.kind {
            Kind::One => 1,
            Kind::Many => MOST_SEGMENTS as u64,
        };
        (1..=MOST_PROCESSES as u64).contains(&self.processes)
            && (1..=MOST_VARIABLES as u64).contains(&self.variables)
            && Layout::new(self.tag_bits).is_some()
            && (1..=most_segments).contains(&self.segments)
    }
}
