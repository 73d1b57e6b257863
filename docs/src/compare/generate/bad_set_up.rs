//! A spoilt set-up with a sound schedule behind it, to see that a refused set-up
//! ends the run.

use super::random::Random;
use super::set_ups::crowded_or_wide;
use super::writer::{behind_first, fields, well_formed, Body};

const BAD_NUMBERS: [&str; 16] = [
    "0", "17", "3", "49", "5", "64", "255", "258", "65538", "4294967298", "18446744073709551615",
    "18446744073709551616", "02", "", "+2", "x",
];

const BAD_KINDS: [&str; 8] = ["", "One", "ONE", "many ", " one", "queue", "two", "\"one\""];

pub fn behind_bad_set_up(random: &mut Random) -> Vec<u8> {
    let set_up = crowded_or_wide(random);
    let whole = well_formed(random, set_up, 0);
    let end = behind_first(&whole).map_or(whole.len(), |behind| behind - b"\r\n".len());
    let (first, rest) = whole.split_at(end);
    [&spoilt(random, first), rest].concat()
}

/// Spoilt in one or two fields, seldom in its number of fields or its length.
fn spoilt(random: &mut Random, set_up: &[u8]) -> Body {
    let mut fields = fields(set_up);
    for _ in 0..random.between(1, 2) {
        let at = random.below(7) as usize;
        fields[at] = match at {
            1 => random.pick(&BAD_KINDS).into(),
            5 | 6 => random.pick(&["0", " ", "x", "1"]).into(),
            _ => random.pick(&BAD_NUMBERS).into(),
        };
    }
    // A W of 2 to 4 is out of range for `one` alone.
    if fields[1] == b"one" && random.chance(30) {
        fields[4] = random.pick(&["2", "3", "4"]).into();
    }
    let mut spoilt = fields.join(&b',');
    match random.below(20) {
        0 => spoilt.push(b','),
        1 => spoilt.truncate(spoilt.len() - 1),
        2 => spoilt.extend(std::iter::repeat_n(b'0', 520)),
        _ => {}
    }
    spoilt
}
