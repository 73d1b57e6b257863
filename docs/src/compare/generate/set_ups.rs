//! Set-up records that are accepted: crowded ones, with few processes, few
//! variables and narrow tags, and wide ones of any sizes.

use super::random::Random;
use super::writer::Body;
use stepper::{set_up_record, Kind, Settings};

/// Makes a set-up record.
pub type SetUp = fn(&mut Random) -> Body;

pub fn crowded_or_wide(random: &mut Random) -> SetUp {
    random.pick(&[crowded_set_up, wide_set_up])
}

pub fn crowded_set_up(random: &mut Random) -> Body {
    let processes = random.pick(&[2, 2, 2, 3, 3, 4]);
    let variables = random.pick(&[1, 1, 1, 2, 2, 3]);
    let tag_bits = if random.chance(75) { 4 } else { random.between(4, 48) };
    of_either_kind(random, processes, variables, tag_bits, |random| {
        random.pick(&[1, 1, 2, 2, 3, 4])
    })
}

pub fn wide_set_up(random: &mut Random) -> Body {
    let (processes, variables) = (random.between(1, 16), random.between(1, 16));
    let tag_bits = random.between(4, 48);
    of_either_kind(random, processes, variables, tag_bits, |random| random.between(1, 4))
}

fn of_either_kind(
    random: &mut Random,
    processes: u64,
    variables: u64,
    tag_bits: u64,
    segments_of_many: fn(&mut Random) -> u64,
) -> Body {
    let (kind, segments) =
        if random.chance(30) { (Kind::One, 1) } else { (Kind::Many, segments_of_many(random)) };
    let settings = Settings { kind, processes, variables, tag_bits, segments };
    set_up_record(&settings).into_bytes()
}
