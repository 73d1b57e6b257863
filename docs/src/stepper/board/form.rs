//! Good form, check 3: what must hold of every process below N and of every used
//! word before an entry point goes on.

use super::Board;
use crate::process::{Access, Place, Process};
use crate::sizes::Kind;

impl Board {
    pub(super) fn in_good_form(&self) -> bool {
        let count = self.process_count();
        self.processes[..count].iter().all(|process| self.process_in_form(process))
            && (self.settings.kind == Kind::One || self.memory_in_form())
    }

    /// Headers name a process, announced values fit; segments may hold any word.
    fn memory_in_form(&self) -> bool {
        let rows = &self.used_words()[self.announce_at(0, 0)..];
        (0..self.variable_count()).all(|var| self.header_in_form(self.first_word(var)))
            && rows.iter().all(|&value| self.layout.fits(value))
    }

    fn process_in_form(&self, process: &Process) -> bool {
        let count = self.variable_count();
        let kept = &process.keep[..count];
        process.new.iter().all(|&value| self.layout.fits(value))
            && process.gathered.iter().all(|&value| self.layout.fits(value))
            && u32::from(process.open) >> count == 0
            && (self.settings.kind == Kind::One || kept.iter().all(|&tag| tag < self.layout.tags()))
            && self.place_in_form(process)
    }

    fn place_in_form(&self, process: &Process) -> bool {
        let one = self.settings.kind == Kind::One;
        let segments = self.segment_count();
        let below_t = |var: usize| var < self.variable_count();
        let opened = |var: usize| below_t(var) && process.is_open(var);
        match process.place {
            Place::Idle => true,
            Place::LoadWord { var } => one && below_t(var),
            Place::ValidateWord { var } | Place::SwapWord { var } => one && opened(var),
            Place::LoadHeader { var } => !one && below_t(var),
            Place::ValidateHeader { var } | Place::StoreHeader { var } => !one && opened(var),
            Place::Announce { var, header, segment } => {
                !one && opened(var) && self.header_in_form(header) && segment < segments
            }
            Place::SwapHeader { var, header } => !one && opened(var) && self.header_in_form(header),
            Place::Copy { copy, access } => {
                !one && opened(copy.var)
                    && self.header_in_form(copy.header)
                    && copy.segment < segments
                    && self.access_in_form(access)
            }
        }
    }

    fn access_in_form(&self, access: Access) -> bool {
        match access {
            Access::SwapSegment { announced, .. } => self.layout.fits(announced),
            Access::ReadHeader { value } => self.layout.fits(value),
            Access::ReadSegment | Access::ReadAnnounced { .. } | Access::ReadSegmentAgain => true,
        }
    }

    fn header_in_form(&self, header: u64) -> bool {
        self.layout.value(header) < self.settings.processes
    }
}
