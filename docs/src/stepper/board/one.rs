//! The steps of kind `one` (Figure 4): each call is a single access to a word.

use super::Board;
use crate::call::{Answer, NO_VALUES};
use crate::slip;

impl Board {
    pub(super) fn load_word(&mut self, p: usize, var: usize) -> Answer {
        let word = self.first_word(var);
        self.processes[p].keep[var] = word;
        self.processes[p].open_sequence(var);
        let mut values = NO_VALUES;
        values[0] = self.layout.value(word);
        self.end(p, Answer::Value(values))
    }

    pub(super) fn validate_word(&mut self, p: usize, var: usize) -> Answer {
        let same = self.first_word(var) == self.processes[p].keep[var];
        self.end_validate(p, same)
    }

    /// The tag moves for an equal value too: it alone tells a store happened.
    pub(super) fn swap_word(&mut self, p: usize, var: usize) -> Answer {
        let kept = self.processes[p].keep[var];
        let new = self.processes[p].new[0];
        let mut word = self.layout.pack(self.layout.next_tag(self.layout.tag(kept)), new);
        if slip::NO_NEW_TAG_FOR_EQUAL_VALUE && new == self.layout.value(kept) {
            word = kept;
        }
        let swapped = self.swap(self.first_at(var), kept, word);
        self.end_store(p, var, swapped)
    }
}
