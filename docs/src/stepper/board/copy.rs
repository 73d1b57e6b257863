//! Copy (Figure 6, its line 6 mended): segment by segment it puts the announced
//! value in where that is not done yet, and looks at the header again.

use super::Board;
use crate::call::Answer;
use crate::process::{Access, Copying, Place};
use crate::slip;

impl Board {
    /// Copy goes on with the segment it stands at.
    pub(super) fn copy_segment(&mut self, p: usize, copy: Copying) -> Answer {
        self.go_on(p, Place::Copy { copy, access: Access::ReadSegment })
    }

    pub(super) fn copy_step(&mut self, p: usize, copy: Copying, access: Access) -> Answer {
        let next = match access {
            Access::ReadSegment => self.read_segment(copy),
            Access::ReadAnnounced { word } => {
                let announced = self.read_announced(copy);
                Access::SwapSegment { word, announced }
            }
            Access::SwapSegment { word, announced } => self.swap_segment(copy, word, announced),
            Access::ReadSegmentAgain => self.read_segment_again(copy),
            Access::ReadHeader { value } => return self.read_header(p, copy, value),
        };
        self.go_on(p, Place::Copy { copy, access: next })
    }

    /// A segment one tag behind the header has not got its new value yet.
    fn read_segment(&self, copy: Copying) -> Access {
        let word = self.words[self.segment_at(copy.var, copy.segment)];
        let before = self.layout.previous_tag(self.layout.tag(copy.header));
        if self.layout.tag(word) == before {
            Access::ReadAnnounced { word }
        } else {
            Access::ReadHeader { value: self.layout.value(word) }
        }
    }

    fn read_announced(&self, copy: Copying) -> u64 {
        let storer = self.layout.value(copy.header) as usize;
        self.words[self.announce_at(storer, copy.segment)]
    }

    /// The mended line: where the swap failed, the announce row may already
    /// hold a value never stored, so the segment is read again.
    fn swap_segment(&mut self, copy: Copying, word: u64, announced: u64) -> Access {
        let at = self.segment_at(copy.var, copy.segment);
        let filled = self.layout.pack(self.layout.tag(copy.header), announced);
        let swapped = self.swap(at, word, filled);
        if swapped || slip::ANNOUNCED_VALUE_AFTER_FAILED_SWAP {
            Access::ReadHeader { value: announced }
        } else {
            Access::ReadSegmentAgain
        }
    }

    fn read_segment_again(&self, copy: Copying) -> Access {
        if slip::SECOND_READ_OF_ANNOUNCE_ROW {
            return Access::ReadHeader { value: self.read_announced(copy) };
        }
        let word = self.words[self.segment_at(copy.var, copy.segment)];
        Access::ReadHeader { value: self.layout.value(word) }
    }

    fn read_header(&mut self, p: usize, copy: Copying, value: u64) -> Answer {
        let header = self.first_word(copy.var);
        if header != copy.header {
            let told = if slip::WITNESS_FROM_OLD_HEADER { copy.header } else { header };
            return self.end_copy(p, copy, Answer::Witness(self.layout.value(told)));
        }
        if copy.gathers {
            self.processes[p].gathered[copy.segment] = value;
        }
        if copy.segment + 1 < self.segment_count() {
            return self.copy_segment(p, Copying { segment: copy.segment + 1, ..copy });
        }
        self.end_copy(p, copy, Answer::Value(self.processes[p].gathered))
    }

    /// Copy's end is a load's answer; a store is yes in any case.
    fn end_copy(&mut self, p: usize, copy: Copying, answer: Answer) -> Answer {
        if !copy.gathers {
            return self.end_store(p, copy.var, true);
        }
        if slip::CLOSED_AFTER_WITNESS && matches!(answer, Answer::Witness(_)) {
            self.processes[p].close_sequence(copy.var);
        }
        self.end(p, answer)
    }
}
