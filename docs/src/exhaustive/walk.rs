//! The walk over the states of one board: from each state every event that may
//! come next is taken, and the onlooker asked about its answer.

use crate::onlooker::{Doing, Onlooker, Verdict, PROCESSES};
use crate::state::{Fingerprints, State};
use crate::Exploration;
use stepper::{Act, Answer, Board, Call, Kind, Values, NO_VALUES};

pub struct Walk<'a> {
    pub exploration: &'a Exploration,
    /// Put into one state after another.
    board: Board,
    seen: Fingerprints,
    /// For each state found, the one it was found from and the event's place
    /// among that one's events: enough to tell an order that leads to it.
    trail: Vec<(u32, u8)>,
    pub answers: Answers,
}

#[derive(Default)]
pub struct Answers {
    pub values: u64,
    pub witnesses: u64,
    pub yes: u64,
    pub no: u64,
}

/// A rule broken, and an order that ends with the event that broke it.
pub struct Violation {
    pub rule: &'static str,
    pub order: Vec<Event>,
}

#[derive(Clone, Copy)]
pub struct Event {
    pub process: usize,
    pub act: Act,
}

fn begin(process: usize, call: Call, values: Values) -> Event {
    Event { process, act: Act::Begin(call, values) }
}

impl Walk<'_> {
    pub fn new(exploration: &Exploration) -> Walk<'_> {
        let board = Board::set_up(exploration.settings, true).expect("a set-up within the sizes");
        Walk {
            exploration,
            board,
            seen: Fingerprints::default(),
            trail: Vec::new(),
            answers: Answers::default(),
        }
    }

    pub fn states_found(&self) -> usize {
        self.seen.len()
    }

    /// Level by level: all orders of one event, of two, and so on, until none
    /// leads to a new state. Gives how many events the farthest state takes.
    pub fn walk(&mut self) -> Result<u32, Violation> {
        let start = State::read(&self.board, Onlooker::new());
        self.seen.insert(start.fingerprint());
        self.trail.push((0, 0));
        let mut level = vec![(start, 0)];
        let mut depth = 0;
        loop {
            let mut next = Vec::new();
            for (state, index) in &level {
                self.expand(state, *index, &mut next)?;
            }
            if next.is_empty() {
                return Ok(depth);
            }
            level = next;
            depth += 1;
        }
    }

    fn expand(
        &mut self,
        state: &State,
        index: u32,
        next: &mut Vec<(State, u32)>,
    ) -> Result<(), Violation> {
        for (place, event) in self.events(state).into_iter().enumerate() {
            let after = match self.perform(state, event) {
                Ok(Some(after)) => after,
                Ok(None) => continue,
                Err(rule) => {
                    let mut order = self.order(index);
                    order.push(event);
                    return Err(Violation { rule, order });
                }
            };
            if self.seen.insert(after.fingerprint()) {
                next.push((after, self.trail.len() as u32));
                self.trail.push((index, place as u8));
            }
        }
        Ok(())
    }

    /// Everything that may come next and is not refused.
    fn events(&self, state: &State) -> Vec<Event> {
        let settings = &self.exploration.settings;
        let mut events = Vec::new();
        for p in 0..settings.processes as usize {
            if state.onlooker.doing(p) != Doing::Nothing {
                events.push(Event { process: p, act: Act::Step });
                continue;
            }
            for var in 0..settings.variables as usize {
                events.push(begin(p, Call::Load(var as u64), NO_VALUES));
                if state.onlooker.is_open(p, var) {
                    events.push(begin(p, Call::Validate(var as u64), NO_VALUES));
                    self.push_stores(&mut events, &state.onlooker, p, var);
                }
            }
        }
        events
    }

    /// A store of values that nobody stored yet; in `one` also a store of the
    /// value already there.
    fn push_stores(&self, events: &mut Vec<Event>, onlooker: &Onlooker, p: usize, var: usize) {
        let segments = self.exploration.settings.segments as usize;
        let first = (onlooker.stores() * PROCESSES + p) * segments + 1;
        let mut fresh = NO_VALUES;
        for (segment, value) in fresh.iter_mut().take(segments).enumerate() {
            *value = (first + segment) as u64;
        }
        events.push(begin(p, Call::Store(var as u64), fresh));
        if self.exploration.settings.kind == Kind::One {
            events.push(begin(p, Call::Store(var as u64), onlooker.value(var)));
        }
    }

    /// The state after the event, or none where it is one store too many.
    fn perform(&mut self, state: &State, event: Event) -> Result<Option<State>, &'static str> {
        let mut onlooker = state.onlooker;
        state.resume(&mut self.board);
        let p = event.process;
        match event.act {
            Act::Begin(call, values) => {
                if self.board.begin(p as u64, call, values) != Answer::Begun {
                    return Err("a begin was refused");
                }
                onlooker.begun(p, call, values);
            }
            Act::Step => self.step(&mut onlooker, p)?,
        }
        if onlooker.stores() > self.exploration.stores {
            return Ok(None);
        }
        if self.board.open_count(p as u64) != Ok(onlooker.open_count(p)) {
            return Err("the open count is another");
        }
        Ok(Some(State::read(&self.board, onlooker)))
    }

    /// In `one` a store took effect if it answers yes; in `many` if the header
    /// is another after the step.
    fn step(&mut self, onlooker: &mut Onlooker, p: usize) -> Verdict {
        let storing = match onlooker.doing(p) {
            Doing::Store(var) => Some((var, self.board.first_word(var))),
            _ => None,
        };
        let answer = self.board.step(p as u64);
        let settings = &self.exploration.settings;
        let effect = storing.is_some_and(|(var, before)| match settings.kind {
            Kind::One => answer == Answer::Yes,
            Kind::Many => self.board.first_word(var) != before,
        });
        match answer {
            Answer::Value(_) => self.answers.values += 1,
            Answer::Witness(_) => self.answers.witnesses += 1,
            Answer::Yes => self.answers.yes += 1,
            Answer::No => self.answers.no += 1,
            Answer::Busy | Answer::Begun | Answer::Refused(_) => {}
        }
        onlooker.stepped(settings, p, answer, effect)
    }

    /// The events that led to the state with this index.
    fn order(&mut self, index: u32) -> Vec<Event> {
        let mut places = Vec::new();
        let mut at = index;
        while at != 0 {
            let (from, place) = self.trail[at as usize];
            places.push(place);
            at = from;
        }
        let fresh = Board::set_up(self.exploration.settings, true).expect("as before");
        let mut state = State::read(&fresh, Onlooker::new());
        let mut order = Vec::new();
        for place in places.into_iter().rev() {
            let event = self.events(&state)[usize::from(place)];
            order.push(event);
            if let Ok(Some(after)) = self.perform(&state, event) {
                state = after;
            }
        }
        order
    }
}
