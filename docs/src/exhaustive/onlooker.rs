//! Atomic LL, VL and SC (Figure 2 of 001), run beside a board, and the rules of
//! demand 3 asked of every answer. It knows nothing of tags, headers or Copy:
//! all it sees is who began what, each step's answer, and when a store took
//! effect.

use stepper::{Answer, Call, Kind, Settings, Values, NO_VALUES};

/// The boards explored here are no larger.
pub const PROCESSES: usize = 3;
const VARIABLES: usize = 2;

#[derive(Clone, Copy, PartialEq, Eq, Hash)]
pub enum Doing {
    Nothing,
    Load(usize),
    Validate(usize),
    Store(usize),
}

#[derive(Clone, Copy, Hash)]
pub struct Onlooker {
    /// Figure 2's table: each variable's value, and who is valid on it.
    value: [Values; VARIABLES],
    valid: [[bool; VARIABLES]; PROCESSES],
    /// Who stored last since the first step of the load that opened the sequence.
    stored_since: [[Option<usize>; VARIABLES]; PROCESSES],
    open: [[bool; VARIABLES]; PROCESSES],
    doing: [Doing; PROCESSES],
    /// Own steps of the call under way.
    steps: [u32; PROCESSES],
    /// What Figure 2 told the load under way, at its first step.
    told: [Values; PROCESSES],
    /// What the store under way brings, and whether it took effect.
    new: [Values; PROCESSES],
    took_effect: [bool; PROCESSES],
    /// Successful stores so far, all variables together.
    stores: usize,
}

pub type Verdict = Result<(), &'static str>;

fn must(holds: bool, rule: &'static str) -> Verdict {
    if holds {
        Ok(())
    } else {
        Err(rule)
    }
}

impl Onlooker {
    pub fn new() -> Onlooker {
        Onlooker {
            value: [NO_VALUES; VARIABLES],
            valid: [[false; VARIABLES]; PROCESSES],
            stored_since: [[None; VARIABLES]; PROCESSES],
            open: [[false; VARIABLES]; PROCESSES],
            doing: [Doing::Nothing; PROCESSES],
            steps: [0; PROCESSES],
            told: [NO_VALUES; PROCESSES],
            new: [NO_VALUES; PROCESSES],
            took_effect: [false; PROCESSES],
            stores: 0,
        }
    }

    pub fn doing(&self, p: usize) -> Doing {
        self.doing[p]
    }

    pub fn is_open(&self, p: usize, var: usize) -> bool {
        self.open[p][var]
    }

    pub fn open_count(&self, p: usize) -> u64 {
        self.open[p].iter().filter(|&&open| open).count() as u64
    }

    pub fn stores(&self) -> usize {
        self.stores
    }

    pub fn value(&self, var: usize) -> Values {
        self.value[var]
    }

    pub fn begun(&mut self, p: usize, call: Call, values: Values) {
        self.doing[p] = match call {
            Call::Load(var) => Doing::Load(var as usize),
            Call::Validate(var) => Doing::Validate(var as usize),
            Call::Store(var) => Doing::Store(var as usize),
        };
        self.new[p] = values;
    }

    /// A step of `p` was answered so; `effect` tells whether its store's swap
    /// succeeded at this step.
    pub fn stepped(&mut self, s: &Settings, p: usize, answer: Answer, effect: bool) -> Verdict {
        self.steps[p] += 1;
        match self.doing[p] {
            Doing::Nothing => return Err("an idle process took a step"),
            Doing::Load(var) => self.load_stepped(s.kind, p, var, answer)?,
            Doing::Validate(var) => self.validate_stepped(p, var, answer)?,
            Doing::Store(var) => self.store_stepped(p, var, answer, effect)?,
        }
        let left = answer == Answer::Busy;
        let most = self.most_steps(s, p);
        must(self.steps[p] + u32::from(left) <= most, "a call takes too many steps")?;
        if !left {
            self.ended(p);
        }
        Ok(())
    }

    fn most_steps(&self, s: &Settings, p: usize) -> u32 {
        let segments = s.segments as u32;
        match (s.kind, self.doing[p]) {
            (Kind::One, _) | (_, Doing::Validate(_) | Doing::Nothing) => 1,
            (Kind::Many, Doing::Load(_)) => 1 + 5 * segments,
            (Kind::Many, Doing::Store(_)) => 2 + 6 * segments,
        }
    }

    /// Atomic LL counts at the load's first step.
    fn load_stepped(&mut self, kind: Kind, p: usize, var: usize, answer: Answer) -> Verdict {
        if self.steps[p] == 1 {
            self.valid[p][var] = true;
            self.told[p] = self.value[var];
            self.stored_since[p][var] = None;
            self.open[p][var] = true;
        }
        let stored = self.stored_since[p][var];
        match answer {
            Answer::Busy => Ok(()),
            Answer::Value(values) => {
                must(values == self.told[p], "a load answers other values than atomic LL")?;
                must(stored.is_none(), "a load answers values though a store came between")
            }
            Answer::Witness(process) => {
                must(kind == Kind::Many, "a witness in kind one")?;
                must(stored == Some(process as usize), "a witness is not the last that stored")
            }
            _ => Err("no answer of a load"),
        }
    }

    fn validate_stepped(&self, p: usize, var: usize, answer: Answer) -> Verdict {
        match answer {
            Answer::Yes => must(self.valid[p][var], "a validate answers yes, atomic VL no"),
            Answer::No => self.no(p, var),
            _ => Err("no answer of a validate"),
        }
    }

    /// Atomic SC counts at the successful swap, or where the difference was found.
    fn store_stepped(&mut self, p: usize, var: usize, answer: Answer, effect: bool) -> Verdict {
        if effect {
            must(self.valid[p][var], "a store succeeds where atomic SC fails")?;
            self.stored(p, var);
        }
        match answer {
            Answer::Busy => Ok(()),
            Answer::Yes => {
                self.open[p][var] = false;
                must(self.took_effect[p], "a store answers yes without its swap")
            }
            Answer::No => {
                self.open[p][var] = false;
                must(!self.took_effect[p], "a store answers no after its swap")?;
                self.no(p, var)
            }
            _ => Err("no answer of a store"),
        }
    }

    fn no(&self, p: usize, var: usize) -> Verdict {
        must(!self.valid[p][var], "the answer is no where the atomic one is yes")?;
        let by_another = self.stored_since[p][var].is_some_and(|storer| storer != p);
        must(by_another, "a no without a store by another process")
    }

    fn stored(&mut self, p: usize, var: usize) {
        self.value[var] = self.new[p];
        self.took_effect[p] = true;
        self.stores += 1;
        for other in 0..PROCESSES {
            self.valid[other][var] = false;
            self.stored_since[other][var] = Some(p);
        }
    }

    fn ended(&mut self, p: usize) {
        self.doing[p] = Doing::Nothing;
        self.steps[p] = 0;
        self.told[p] = NO_VALUES;
        self.new[p] = NO_VALUES;
        self.took_effect[p] = false;
    }

    /// Forgets what no later answer depends on: without an open sequence only
    /// a load may come, and it sets all this anew.
    pub fn forget_closed(&mut self) {
        for p in 0..PROCESSES {
            for var in 0..VARIABLES {
                if !self.open[p][var] {
                    self.valid[p][var] = false;
                    self.stored_since[p][var] = None;
                }
            }
        }
    }
}
