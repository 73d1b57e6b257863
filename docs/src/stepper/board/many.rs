//! The steps of kind `many` (Figure 6) up to Copy: a load reads the header, a
//! validate does so alone, a store announces its values and swaps the header.

use super::Board;
use crate::call::{Answer, NO_VALUES};
use crate::process::{Copying, Place};
use crate::slip;

impl Board {
    /// A load opens its sequence here, at its first step, witness or not.
    pub(super) fn load_header(&mut self, p: usize, var: usize) -> Answer {
        let header = self.first_word(var);
        self.processes[p].keep[var] = self.layout.tag(header);
        self.processes[p].gathered = NO_VALUES;
        self.processes[p].open_sequence(var);
        self.copy_segment(p, Copying { var, header, segment: 0, gathers: true })
    }

    pub(super) fn validate_header(&mut self, p: usize, var: usize) -> Answer {
        let same = self.layout.tag(self.first_word(var)) == self.processes[p].keep[var];
        self.end_validate(p, same)
    }

    pub(super) fn store_header(&mut self, p: usize, var: usize) -> Answer {
        let header = self.first_word(var);
        if self.layout.tag(header) != self.processes[p].keep[var] {
            return self.end_store(p, var, false);
        }
        self.go_on(p, Place::Announce { var, header, segment: 0 })
    }

    pub(super) fn announce(&mut self, p: usize, var: usize, header: u64, segment: usize) -> Answer {
        self.words[self.announce_at(p, segment)] = self.processes[p].new[segment];
        let place = if segment + 1 < self.segment_count() {
            Place::Announce { var, header, segment: segment + 1 }
        } else {
            Place::SwapHeader { var, header }
        };
        self.go_on(p, place)
    }

    pub(super) fn swap_header(&mut self, p: usize, var: usize, old: u64) -> Answer {
        let tag = self.layout.next_tag(self.layout.tag(old));
        let header = self.layout.pack(tag, p as u64);
        if !self.swap(self.first_at(var), old, header) {
            return self.end_store(p, var, false);
        }
        if slip::STORE_SKIPS_COPY {
            return self.end_store(p, var, true);
        }
        self.copy_segment(p, Copying { var, header, segment: 0, gathers: false })
    }
}
