//! The board and its entry points: set-up, a call begun, a step, the open count,
//! each with its checks in document 01's order. The steps themselves stand in
//! `one`, `many` and `copy`, where the words lie in `memory`, check 3 in `form`.

mod copy;
mod ends;
mod form;
mod many;
mod memory;
mod one;
#[cfg(test)]
mod tests;

use crate::call::{Answer, Call, Refusal, Values};
use crate::process::{Place, Process};
use crate::sizes::{Kind, Settings, MOST_PROCESSES, MOST_WORDS};
use crate::word::Layout;

#[derive(Clone, PartialEq, Eq, Debug)]
pub struct Board {
    settings: Settings,
    layout: Layout,
    check_form: bool,
    words: [u64; MOST_WORDS],
    processes: [Process; MOST_PROCESSES],
}

impl Board {
    /// A fresh board. With `check_form` each begin, step and open count first
    /// checks the whole board's good form, as document 01's entry points do.
    pub fn set_up(settings: Settings, check_form: bool) -> Result<Board, Refusal> {
        let layout = Layout::new(settings.tag_bits).ok_or(Refusal::Setting)?;
        if !settings.in_range() {
            return Err(Refusal::Setting);
        }
        Ok(Board {
            settings,
            layout,
            check_form,
            words: [0; MOST_WORDS],
            processes: [Process::FRESH; MOST_PROCESSES],
        })
    }

    pub fn settings(&self) -> &Settings {
        &self.settings
    }

    pub fn layout(&self) -> Layout {
        self.layout
    }

    pub fn process(&self, process: usize) -> &Process {
        &self.processes[process]
    }

    pub fn segment_count(&self) -> usize {
        self.settings.segments as usize
    }

    fn process_count(&self) -> usize {
        self.settings.processes as usize
    }

    fn variable_count(&self) -> usize {
        self.settings.variables as usize
    }

    /// Puts the board back into a state read from it before: its used words
    /// and its processes, both from the first on.
    pub fn resume(&mut self, words: &[u64], processes: &[Process]) {
        self.words[..words.len()].copy_from_slice(words);
        self.processes[..processes.len()].copy_from_slice(processes);
    }
}

// ---------------------------------------------------------------- Entry points

impl Board {
    /// Checks 1 and 3, where they are asked for; inlined, to cost nothing elsewhere.
    #[inline]
    fn check_state(&self) -> Result<(), Refusal> {
        if self.check_form {
            if !self.settings.in_range() {
                return Err(Refusal::Setting);
            }
            if !self.in_good_form() {
                return Err(Refusal::Form);
            }
        }
        Ok(())
    }

    /// Check 4.
    fn check_process(&self, process: u64) -> Result<usize, Refusal> {
        if process < self.settings.processes {
            Ok(process as usize)
        } else {
            Err(Refusal::Process)
        }
    }

    pub fn open_count(&self, process: u64) -> Result<u64, Refusal> {
        self.check_state()?;
        let process = self.check_process(process)?;
        Ok(u64::from(self.processes[process].open.count_ones()))
    }

    pub fn begin(&mut self, process: u64, call: Call, values: Values) -> Answer {
        match self.try_begin(process, call, values) {
            Ok(()) => Answer::Begun,
            Err(refusal) => Answer::Refused(refusal),
        }
    }

    fn try_begin(&mut self, process: u64, call: Call, values: Values) -> Result<(), Refusal> {
        self.check_state()?;
        let process = self.check_process(process)?;
        let (Call::Load(var) | Call::Validate(var) | Call::Store(var)) = call;
        if var >= self.settings.variables {
            return Err(Refusal::Variable);
        }
        let var = var as usize;
        if self.processes[process].place != Place::Idle {
            return Err(Refusal::InCall);
        }
        if !matches!(call, Call::Load(_)) && !self.processes[process].is_open(var) {
            return Err(Refusal::NoSequence);
        }
        if !self.values_fit(call, &values) {
            return Err(Refusal::Value);
        }
        self.processes[process].new = values;
        self.processes[process].place = first_place(self.settings.kind, call, var);
        Ok(())
    }

    /// Check 8 of a begin: a store has W values, the other calls none.
    fn values_fit(&self, call: Call, values: &Values) -> bool {
        let wanted = match call {
            Call::Store(_) => self.segment_count(),
            Call::Load(_) | Call::Validate(_) => 0,
        };
        let (given, rest) = values.split_at(wanted);
        given.iter().all(|&value| self.layout.fits(value)) && rest.iter().all(|&value| value == 0)
    }

    pub fn step(&mut self, process: u64) -> Answer {
        let checked = self.check_state().and_then(|()| self.check_process(process));
        match checked {
            Ok(process) => self.take_step(process),
            Err(refusal) => Answer::Refused(refusal),
        }
    }

    fn take_step(&mut self, p: usize) -> Answer {
        match self.processes[p].place {
            Place::Idle => Answer::Refused(Refusal::Idle),
            Place::LoadWord { var } => self.load_word(p, var),
            Place::ValidateWord { var } => self.validate_word(p, var),
            Place::SwapWord { var } => self.swap_word(p, var),
            Place::LoadHeader { var } => self.load_header(p, var),
            Place::ValidateHeader { var } => self.validate_header(p, var),
            Place::StoreHeader { var } => self.store_header(p, var),
            Place::Announce { var, header, segment } => self.announce(p, var, header, segment),
            Place::SwapHeader { var, header } => self.swap_header(p, var, header),
            Place::Copy { copy, access } => self.copy_step(p, copy, access),
        }
    }
}

/// Beginning a call touches no shared word: it only chooses the first access.
fn first_place(kind: Kind, call: Call, var: usize) -> Place {
    match (kind, call) {
        (Kind::One, Call::Load(_)) => Place::LoadWord { var },
        (Kind::One, Call::Validate(_)) => Place::ValidateWord { var },
        (Kind::One, Call::Store(_)) => Place::SwapWord { var },
        (Kind::Many, Call::Load(_)) => Place::LoadHeader { var },
        (Kind::Many, Call::Validate(_)) => Place::ValidateHeader { var },
        (Kind::Many, Call::Store(_)) => Place::StoreHeader { var },
    }
}
