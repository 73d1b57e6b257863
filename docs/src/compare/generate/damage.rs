//! Damage at the byte level, done to schedules in form.

use super::random::Random;
use super::set_ups::crowded_or_wide;
use super::writer::{behind_first, well_formed};

pub fn damaged(random: &mut Random) -> Vec<u8> {
    let set_up = crowded_or_wide(random);
    let noise = random.pick(&[0, 5]);
    let mut bytes = well_formed(random, set_up, noise);
    for _ in 0..random.between(1, 6) {
        damage(random, &mut bytes);
    }
    bytes
}

/// The bytes that damage puts in.
pub const DAMAGE: [u8; 16] =
    [b'"', b'\r', b'\n', b',', b' ', b'0', b'1', b'9', b'L', b'C', b's', 0, 127, 128, 255, b'\t'];

/// What damage puts behind the end.
const TAILS: [&[u8]; 6] = [b"\r", b"\n", b"\r\n", b"\r\r", b"\0", b"0"];

/// One change, seldom within the set-up, so that the run gets past it.
fn damage(random: &mut Random, bytes: &mut Vec<u8>) {
    let set_up_end = behind_first(bytes).unwrap_or(0);
    let from = if random.chance(8) { 0 } else { set_up_end };
    let at = from + random.up_to(bytes.len() - from);
    let upto = (at + random.between(1, 40) as usize).min(bytes.len());
    match random.below(10) {
        0 | 1 if at < bytes.len() => bytes[at] = random.pick(&DAMAGE),
        2 => bytes.insert(at, random.pick(&DAMAGE)),
        3 if at < bytes.len() => drop(bytes.remove(at)),
        4 => drop(bytes.drain(at..upto)),
        5 => {
            let again = bytes[at..upto].to_vec();
            bytes.splice(at..at, again);
        }
        6 => bytes.truncate(at),
        7 => spoil_line_end(random, bytes, at),
        8 => drop(bytes.splice(at..at, std::iter::repeat_n(random.pick(&DAMAGE), 520))),
        _ => bytes.extend_from_slice(random.pick(&TAILS)),
    }
}

/// A half of CR LF, nothing, the pair turned round, and the pair with one more.
const SPOILT_LINE_ENDS: [&[u8]; 8] =
    [b"\r", b"\n", b"", b"\n\r", b"\r\r\n", b"\r\n\n", b"\r\n\r\n", b"\n\r\n"];

fn spoil_line_end(random: &mut Random, bytes: &mut Vec<u8>, from: usize) {
    let Some(at) = bytes[from..].windows(2).position(|pair| pair == b"\r\n") else {
        return;
    };
    let at = from + at;
    let instead = random.pick(&SPOILT_LINE_ENDS);
    bytes.splice(at..at + 2, instead.iter().copied());
}
