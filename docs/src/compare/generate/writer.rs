//! Schedules in form. The writer steps a board of its own along, to know who is
//! idle and what is open, so that most records are ones that a process may give.

use super::random::Random;
use super::set_ups::SetUp;
use stepper::{act_record, perform, set_up, Act, Board, Call, Kind, Place, Record, NO_VALUES};

/// A record's bytes without the closing pair.
pub type Body = Vec<u8>;

pub fn fields(body: &[u8]) -> Vec<Body> {
    body.split(|&byte| byte == b',').map(Body::from).collect()
}

/// Where the second record begins, if the first is closed.
pub fn behind_first(schedule: &[u8]) -> Option<usize> {
    schedule.iter().position(|&byte| byte == b'\n').map(|at| at + 1)
}

fn length(random: &mut Random) -> u64 {
    match random.below(100) {
        0..=9 => random.between(0, 12),
        10..=59 => random.between(20, 150),
        60..=89 => random.between(150, 600),
        90..=97 => random.between(600, 2_000),
        _ => random.between(3_000, 6_000),
    }
}

/// `noise` is the share of records, in percent, that are made to be refused.
pub fn well_formed(random: &mut Random, set_up: SetUp, noise: u64) -> Vec<u8> {
    let first = set_up(random);
    let records = length(random);
    let mut writer = Writer::new(random, first);
    for _ in 0..records {
        if writer.random.chance(noise) {
            writer.refused_record();
        } else {
            writer.likely_record();
        }
    }
    let mut bytes = writer.bytes;
    if random.chance(20) {
        bytes.truncate(bytes.len() - b"\r\n".len());
    }
    bytes
}

pub struct Writer<'a> {
    pub random: &'a mut Random,
    pub board: Board,
    pub bytes: Vec<u8>,
    last: usize,
    /// How often, in percent, the same process goes on.
    stick: u64,
    /// A process that seldom moves, so that its sequences grow old.
    sleeper: Option<usize>,
    /// Records since it last moved.
    slept: u64,
}

/// In so many records b = 4 can have wrapped.
const LONG_SLEEP: u64 = 60;

impl Writer<'_> {
    pub fn new(random: &mut Random, first: Body) -> Writer<'_> {
        let board = set_up(Record::Whole(&first), false).expect("a set-up within the sizes");
        let processes = board.settings().processes;
        let stick = random.pick(&[0, 30, 60, 80, 90, 95]);
        let sleeper = random.chance(50).then(|| random.below(processes) as usize);
        let mut writer =
            Writer { random, board, bytes: Vec::new(), last: 0, stick, sleeper, slept: 0 };
        writer.push(&first);
        writer
    }

    fn push(&mut self, body: &[u8]) {
        self.bytes.extend_from_slice(body);
        self.bytes.extend_from_slice(b"\r\n");
    }

    /// Writes the record and keeps the own board level with it.
    pub fn write(&mut self, body: &[u8]) {
        let _ = perform(Record::Whole(body), &mut self.board);
        self.push(body);
    }

    /// A step for a process in a call, else a call that it may begin.
    pub fn likely_record(&mut self) {
        let process = self.someone();
        let body = if self.is_busy(process) {
            self.step(process)
        } else {
            match self.variable(process, true) {
                Some(var) if self.random.chance(60) => self.store(process, var),
                Some(var) if self.random.chance(40) => self.validate(process, var),
                _ => self.load(process),
            }
        };
        self.write(&body);
    }
}

// ---------------------------------------------------------------- Who, and on which variable

impl Writer<'_> {
    pub fn someone(&mut self) -> usize {
        if let Some(sleeper) = self.waking() {
            self.last = sleeper;
        } else if !self.random.chance(self.stick) {
            let processes = self.board.settings().processes;
            self.last = self.random.below(processes) as usize;
            if Some(self.last) == self.sleeper && self.random.chance(97) {
                self.last = (self.last + 1) % processes as usize;
            }
        }
        self.last
    }

    /// The sleeper, where it should move now: it slept long enough for a tag
    /// to have wrapped, and one that it keeps is there once more.
    fn waking(&mut self) -> Option<usize> {
        let sleeper = self.sleeper?;
        self.slept = if self.last == sleeper { 0 } else { self.slept + 1 };
        let due = self.slept > LONG_SLEEP && self.meets_old_tag(sleeper);
        (due && self.random.chance(30)).then_some(sleeper)
    }

    /// Whether an open sequence's kept tag is the variable's once more.
    fn meets_old_tag(&self, process: usize) -> bool {
        let keeper = self.board.process(process);
        let tag = |word| match self.board.settings().kind {
            Kind::One => word,
            Kind::Many => self.board.layout().tag(word),
        };
        (0..self.board.settings().variables as usize)
            .any(|var| keeper.is_open(var) && keeper.keep[var] == tag(self.board.first_word(var)))
    }

    fn is_busy(&self, process: usize) -> bool {
        self.board.process(process).place != Place::Idle
    }

    /// Someone in a call, or not in one, as `busy` wants; anyone if there is none.
    pub fn someone_who_is(&mut self, busy: bool) -> usize {
        let processes = self.board.settings().processes as usize;
        let from = self.someone();
        around(from, processes).find(|&process| self.is_busy(process) == busy).unwrap_or(from)
    }

    pub fn any_variable(&mut self) -> u64 {
        self.random.below(self.board.settings().variables)
    }

    /// Some variable whose bit in the process's open mask is `wanted`.
    pub fn variable(&mut self, process: usize, wanted: bool) -> Option<u64> {
        let from = self.any_variable() as usize;
        let variables = self.board.settings().variables as usize;
        let holder = self.board.process(process);
        let found = around(from, variables).find(|&var| holder.is_open(var) == wanted);
        found.map(|var| var as u64)
    }
}

/// All numbers below `count`, from one of them on and round.
fn around(from: usize, count: usize) -> impl Iterator<Item = usize> {
    (0..count).map(move |step| (from + step) % count)
}

// ---------------------------------------------------------------- Sound records

impl Writer<'_> {
    fn record(&self, process: usize, act: Act) -> Body {
        act_record(process, act, self.board.segment_count()).into_bytes()
    }

    pub fn step(&self, process: usize) -> Body {
        self.record(process, Act::Step)
    }

    pub fn load(&mut self, process: usize) -> Body {
        let var = self.any_variable();
        self.record(process, Act::Begin(Call::Load(var), NO_VALUES))
    }

    pub fn validate(&self, process: usize, var: u64) -> Body {
        self.record(process, Act::Begin(Call::Validate(var), NO_VALUES))
    }

    pub fn store(&mut self, process: usize, var: u64) -> Body {
        let mut values = NO_VALUES;
        for value in &mut values[..self.board.segment_count()] {
            *value = self.value();
        }
        self.record(process, Act::Begin(Call::Store(var), values))
    }

    /// Few different values, so that equal ones are stored too, and the greatest.
    fn value(&mut self) -> u64 {
        let values = self.board.layout().values();
        match self.random.below(10) {
            0..=3 => self.random.below(3),
            4..=7 => self.random.below(1_000),
            8 => values - 1 - self.random.below(2),
            _ => self.random.below(values),
        }
    }
}
