//! A state of the walk: the board and what the onlooker remembers, with the
//! fingerprint by which states are told apart.

use crate::onlooker::{Onlooker, PROCESSES};
use std::collections::HashSet;
use std::hash::{BuildHasherDefault, Hash, Hasher};
use stepper::{Board, Place, Process, MOST_VARIABLES, NO_VALUES};

/// Two variables of one segment, or one of two, and two announce rows.
const WORDS: usize = 8;

#[derive(Clone, Copy, Hash)]
pub struct State {
    words: [u64; WORDS],
    processes: [Process; PROCESSES],
    pub onlooker: Onlooker,
}

impl State {
    pub fn read(board: &Board, onlooker: Onlooker) -> State {
        let mut words = [0; WORDS];
        let used = board.used_words();
        words[..used.len()].copy_from_slice(used);
        let processes = std::array::from_fn(|p| *board.process(p));
        State { words, processes, onlooker }
    }

    /// Puts the board, one of the same sizes, back into this state.
    pub fn resume(&self, board: &mut Board) {
        let used = board.used_words().len();
        board.resume(&self.words[..used], &self.processes);
    }

    /// Two states with the same fingerprint are taken to be one.
    pub fn fingerprint(&self) -> u128 {
        let mut essence = *self;
        essence.onlooker.forget_closed();
        essence.processes.iter_mut().for_each(forget_unread);
        let [mut one, mut other] = [Mixer(1), Mixer(2)];
        essence.hash(&mut one);
        essence.hash(&mut other);
        u128::from(one.0) << 64 | u128::from(other.0)
    }
}

/// Forgets what is never read again: an idle process's new and gathered values,
/// and the keep-word of a variable without an open sequence.
fn forget_unread(process: &mut Process) {
    if process.place == Place::Idle {
        process.new = NO_VALUES;
        process.gathered = NO_VALUES;
    }
    for var in 0..MOST_VARIABLES {
        if !process.is_open(var) {
            process.keep[var] = 0;
        }
    }
}

/// Multiplies and folds, eight bytes at a time.
struct Mixer(u64);

impl Hasher for Mixer {
    fn write(&mut self, bytes: &[u8]) {
        for piece in bytes.chunks(8) {
            let mut padded = [0; 8];
            padded[..piece.len()].copy_from_slice(piece);
            self.write_u64(u64::from_le_bytes(padded));
        }
    }

    fn write_u64(&mut self, word: u64) {
        let mixed = self.0.rotate_left(23) ^ word ^ 0xA076_1D64_78BD_642F;
        let product = u128::from(mixed) * 0xE703_7ED1_A0B4_28DB;
        self.0 = (product as u64) ^ (product >> 64) as u64;
    }

    fn finish(&self) -> u64 {
        self.0
    }
}

pub type Fingerprints = HashSet<u128, BuildHasherDefault<AsItIs>>;

/// A fingerprint is mixed already: its lower half serves as it is.
#[derive(Default)]
pub struct AsItIs(u64);

impl Hasher for AsItIs {
    fn write(&mut self, _: &[u8]) {}

    fn write_u128(&mut self, fingerprint: u128) {
        self.0 = fingerprint as u64;
    }

    fn finish(&self) -> u64 {
        self.0
    }
}
