//! What a process carries: where it stands in its call, its open sequences with
//! their keep-words, and its call's values.

use crate::call::{Values, NO_VALUES};
use crate::sizes::MOST_VARIABLES;

/// Where a process stands in its call: the access its next step makes, with
/// what it holds for that access and the later ones.
#[derive(Clone, Copy, PartialEq, Eq, Hash, Debug)]
pub enum Place {
    Idle,
    // Figure 4, kind `one`.
    LoadWord { var: usize },
    ValidateWord { var: usize },
    SwapWord { var: usize },
    // Figure 6, kind `many`.
    LoadHeader { var: usize },
    ValidateHeader { var: usize },
    StoreHeader { var: usize },
    Announce { var: usize, header: u64, segment: usize },
    SwapHeader { var: usize, header: u64 },
    Copy { copy: Copying, access: Access },
}

/// What Copy was given and how far it is.
#[derive(Clone, Copy, PartialEq, Eq, Hash, Debug)]
pub struct Copying {
    pub var: usize,
    pub header: u64,
    pub segment: usize,
    /// A load's Copy gathers values, a store's gathers nothing.
    pub gathers: bool,
}

/// The accesses of Copy for one segment, in their order.
#[derive(Clone, Copy, PartialEq, Eq, Hash, Debug)]
pub enum Access {
    ReadSegment,
    ReadAnnounced { word: u64 },
    SwapSegment { word: u64, announced: u64 },
    ReadSegmentAgain,
    ReadHeader { value: u64 },
}

#[derive(Clone, Copy, PartialEq, Eq, Hash, Debug)]
pub struct Process {
    pub place: Place,
    /// One bit for each variable with an open sequence.
    pub open: u16,
    /// For each variable the keep-word: the word in `one`, the tag in `many`.
    pub keep: [u64; MOST_VARIABLES],
    /// The values of the store under way.
    pub new: Values,
    pub gathered: Values,
}

impl Process {
    pub const FRESH: Process = Process {
        place: Place::Idle,
        open: 0,
        keep: [0; MOST_VARIABLES],
        new: NO_VALUES,
        gathered: NO_VALUES,
    };

    pub fn is_open(&self, var: usize) -> bool {
        self.open >> var & 1 == 1
    }

    pub(crate) fn open_sequence(&mut self, var: usize) {
        self.open |= 1 << var;
    }

    pub(crate) fn close_sequence(&mut self, var: usize) {
        self.open &= !(1 << var);
    }
}
