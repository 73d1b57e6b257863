//! Makes schedules from a seed: the same seed and index give the same bytes.
//!
//! Most schedules crowd a few processes onto a few variables with narrow tags,
//! so that swaps collide, witnesses are named and tags wrap.

mod bad_set_up;
mod damage;
mod odd;
mod random;
mod refused;
mod set_ups;
mod writer;

use random::Random;
use set_ups::{crowded_set_up, wide_set_up};
use writer::{well_formed, Writer};

#[derive(Clone, Copy, PartialEq, Eq, Debug)]
pub enum Sort {
    /// Few processes crowd onto few variables.
    Crowded,
    /// Any sizes.
    Wide,
    /// A quarter of the records is refused, each for a chosen reason.
    Noisy,
    /// One of the above with bytes changed, lost, doubled or put in.
    Damaged,
    BadSetup,
    /// Whole inputs at the edge: empty, other line ends, cut short.
    Odd,
}

/// The sorts' names, in their order.
pub const SORTS: [&str; 6] = ["crowded", "wide", "noisy", "damaged", "bad set-up", "odd"];

pub struct Schedule {
    pub sort: Sort,
    pub bytes: Vec<u8>,
}

pub fn schedule(seed: u64, index: u64) -> Schedule {
    let mut random = Random::new(seed, index);
    let sort = match random.below(100) {
        0..=47 => Sort::Crowded,
        48..=59 => Sort::Wide,
        60..=74 => Sort::Noisy,
        75..=90 => Sort::Damaged,
        91..=95 => Sort::BadSetup,
        _ => Sort::Odd,
    };
    let bytes = match sort {
        Sort::Crowded => well_formed(&mut random, crowded_set_up, 2),
        Sort::Wide => well_formed(&mut random, wide_set_up, 2),
        Sort::Noisy => well_formed(&mut random, crowded_set_up, 25),
        Sort::Damaged => damage::damaged(&mut random),
        Sort::BadSetup => bad_set_up::behind_bad_set_up(&mut random),
        Sort::Odd => odd::odd_input(&mut random),
    };
    Schedule { sort, bytes }
}

/// A schedule of exactly `count` records behind the smallest set-up, for the
/// limit of 1,000,000.
pub fn counted(count: u64) -> Vec<u8> {
    let round: [&[u8]; 4] = [b"0,LL,0,,,,", b"0,step,,,,,", b"0,SC,0,7,,,", b"0,step,,,,,"];
    let mut bytes = b"1,one,1,4,1,,\r\n".to_vec();
    for number in 0..count {
        bytes.extend_from_slice(round[(number % 4) as usize]);
        bytes.extend_from_slice(b"\r\n");
    }
    bytes
}

/// A schedule of `count` records behind a set-up record, none meant to be refused.
pub fn long(seed: u64, count: u64, set_up: &str) -> Vec<u8> {
    let mut random = Random::new(seed, 0);
    let mut writer = Writer::new(&mut random, set_up.as_bytes().to_vec());
    for _ in 0..count {
        writer.likely_record();
    }
    writer.bytes
}
