//! The shared words and where they lie: variable by variable, each header before
//! its segments, then the announce rows, process by process.

use super::Board;
use crate::sizes::Kind;

impl Board {
    pub fn used_words(&self) -> &[u64] {
        &self.words[..self.announce_at(self.process_count(), 0)]
    }

    /// The word of a variable in `one`, its header in `many`.
    pub fn first_word(&self, var: usize) -> u64 {
        self.words[self.first_at(var)]
    }

    pub(super) fn first_at(&self, var: usize) -> usize {
        var * self.stride()
    }

    /// Words of one variable: `one` has no header.
    fn stride(&self) -> usize {
        match self.settings.kind {
            Kind::One => 1,
            Kind::Many => 1 + self.segment_count(),
        }
    }

    pub(super) fn segment_at(&self, var: usize, segment: usize) -> usize {
        self.first_at(var) + 1 + segment
    }

    /// The announce rows lie behind the variables; `one` has none.
    pub(super) fn announce_at(&self, process: usize, segment: usize) -> usize {
        let row = match self.settings.kind {
            Kind::One => 0,
            Kind::Many => self.segment_count(),
        };
        self.first_at(self.variable_count()) + process * row + segment
    }

    /// Compare-and-swap.
    pub(super) fn swap(&mut self, at: usize, from: u64, to: u64) -> bool {
        let swaps = self.words[at] == from;
        if swaps {
            self.words[at] = to;
        }
        swaps
    }
}
