//! How a step ends in either kind: its call goes on to the next access, or the
//! call is answered and its process idle.

use super::Board;
use crate::call::Answer;
use crate::process::Place;
use crate::slip;

impl Board {
    /// The step was not the call's last.
    pub(super) fn go_on(&mut self, p: usize, place: Place) -> Answer {
        self.processes[p].place = place;
        Answer::Busy
    }

    /// The step was the call's last.
    pub(super) fn end(&mut self, p: usize, answer: Answer) -> Answer {
        self.processes[p].place = Place::Idle;
        answer
    }

    pub(super) fn end_validate(&mut self, p: usize, same: bool) -> Answer {
        self.end(p, yes_if(same))
    }

    /// A store closes its sequence at its answer, yes or no.
    pub(super) fn end_store(&mut self, p: usize, var: usize, stored: bool) -> Answer {
        if stored || !slip::OPEN_AFTER_NO {
            self.processes[p].close_sequence(var);
        }
        self.end(p, yes_if(stored))
    }
}

fn yes_if(condition: bool) -> Answer {
    if condition {
        Answer::Yes
    } else {
        Answer::No
    }
}
